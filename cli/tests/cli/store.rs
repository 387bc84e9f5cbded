//! Stores of vecnook's own publisher, and caches of its own: what is expected of them is the Rust's (tests/data/README.md).
use crate::common::{Ran, Temp, copy, data, names, run};
use std::{
    ffi::OsString,
    fs::{self, File},
    path::{Path, PathBuf},
};

/// Where the Rust wrote the store: its cache names this root.
const HOME: &str = "/dev/shm/pivatsohy-test";

fn store(temp: &Temp) -> PathBuf {
    let folder = temp.join("store");
    copy(&data("store"), &folder);
    folder
}
fn list(store: &Path, k: usize, limit: usize, more: &[OsString]) -> Ran {
    let mut all = words!["list", store, "-k", k.to_string(), "--limit", limit.to_string()].to_vec();
    all.extend_from_slice(more);
    if !more.contains(&"--numbers".into()) && !more.iter().any(|word| word.to_string_lossy().starts_with("--query")) {
        all.extend(words!["--query", data("query.f32")]);
    }
    run(all)
}
fn expected(name: &str) -> String {
    fs::read_to_string(data("expected").join(name)).unwrap()
}

/// The lists of the Rust: cached and resident, of all ids and of those handed in.
#[test]
fn lists_are_the_rusts() {
    let store = data("store");
    let cache = words!["--cache", data("cache"), "--root", format!("{HOME}/store"), "--platform", "linux"];
    let temp = Temp::new();
    let text = fs::read_to_string(data("ids.txt")).unwrap();
    let ids: Vec<u8> = text.lines().flat_map(|id| id.parse::<u64>().unwrap().to_le_bytes()).collect();
    let binary = temp.write("ids", ids);
    for (k, limit) in [(0, 0), (1, 1), (3, 5), (10, 10), (20, 30), (100, 1000)] {
        for rows in [&cache[..], &words!["--resident"], &words![]] {
            let plain = [rows, &words!["--plain"]].concat();
            list(&store, k, limit, &plain).gives(&expected(&format!("list-{k}-{limit}")));
            for ids in [words!["--ids", data("ids.txt")], words!["--ids-binary", &binary]] {
                let ran = list(&store, k, limit, &[&plain[..], &ids].concat());
                ran.gives(&expected(&format!("list-{k}-{limit}-ids")));
            }
        }
    }
}

#[test]
fn agreements_are_the_rusts() {
    let lines = expected("agreements");
    assert_eq!(lines.lines().count(), 12);
    for line in lines.lines() {
        let [k, limit, ids, same, places] = line.split(' ').collect::<Vec<_>>().try_into().unwrap();
        let mut all =
            words!["agree", data("store"), "--query", data("query.f32"), "-k", k, "--limit", limit, "--plain"].to_vec();
        if ids == "1" {
            all.extend(words!["--ids", data("ids.txt")]);
        }
        run(all).gives(&format!("agreement {same} of {places}\n"));
    }
}

/// A query in each form is the same query.
#[test]
fn queries_in_each_form() {
    let want = expected("list-3-5");
    let numbers = fs::read_to_string(data("query.txt")).unwrap();
    for query in [
        words!["--query", data("query.f32")],
        words!["--query-f32", data("query.f32")],
        words!["--query", data("query.txt")],
        words!["--query-text", data("query.txt")],
        words!["--numbers", numbers.replace(' ', ", ")],
    ] {
        list(&data("store"), 3, 5, &[&query[..], &words!["--plain"]].concat()).gives(&want);
    }
    let temp = Temp::new();
    let wrong = |name: &str, bytes: &[u8]| list(&data("store"), 3, 5, &words![name, temp.write("query", bytes)]);
    wrong("--query", b"[1, 2]").fails("is read as text: `[1` is not a number; --query-f32 reads it as f32s");
    wrong("--query-text", b"\xff").fails("is not text");
    wrong("--query-f32", b"12345").fails("is not whole f32s: it has 5 bytes");
    wrong("--query", &[0; 7]).fails("is not whole f32s");
    wrong("--query", b"").refused(16, 0);
    wrong("--query", b"1 2 3").refused(16, 0);
    wrong("--query-f32", &[0; 28]).refused(16, 0);
    wrong("--query-f32", &vec![0; 2_000_000]).fails("it is no query");
    // Six numbers in 24 bytes: read as text, and said to be.
    let ran = wrong("--query", b"100 201 302 403 504 605\n");
    assert_eq!(ran.status, 0);
    assert!(
        ran.err.contains("was read as text, though it is as long as 6 f32s; --query-f32 reads it so"),
        "{}",
        ran.err
    );
}

/// Metadata in the forms for people and for programs, written out by hand for each text that the store has.
#[test]
fn metadata_is_escaped() {
    let shown = |debug: &str| match debug {
        r#""""# => ("", r#""""#),
        r#""pump 7, valve \"B\"""# => (r#"pump 7, valve "B""#, r#""pump 7, valve \"B\"""#),
        r#""\u{1b}[31mred\u{7}\t\\""# => (r"\u{1b}[31mred\u{7}\t\\", r#""\u001b[31mred\u0007\t\\""#),
        "\"größe 널 \u{1f600}\"" => ("größe 널 \u{1f600}", "\"größe 널 \u{1f600}\""),
        r#""\u{202e}turned\n\u{9b}""# => (r"\u{202e}turned\n\u{9b}", "\"\u{202e}turned\\n\\u009b\""),
        r#""\0""# => (r"\u{0}", r#""\u0000""#),
        _ => panic!("{debug}"),
    };
    let (table, json) = (list(&data("store"), 100, 1000, &[]), list(&data("store"), 100, 1000, &words!["--json"]));
    let lines: Vec<&str> = table.out.lines().skip(4).collect();
    let objects: Vec<&str> = json.out.split("{\"place\":").skip(1).collect();
    let expected = expected("metadata");
    assert_eq!((lines.len(), objects.len(), expected.lines().count()), (44, 44, 44));
    for ((line, object), want) in lines.iter().zip(objects).zip(expected.lines()) {
        let (id, words) = want.split_once('\t').unwrap();
        assert!(line.contains(&format!(" {id} ")) && object.contains(&format!("\"id\":\"{id}\"")), "{id}");
        if words == "16384 bytes" {
            assert!(line.len() > 16384 && object.len() > 16384);
            continue;
        }
        let (shown, quoted) = shown(words);
        // The row ends at the last two blanks before the metadata.
        let end = if shown.is_empty() {
            line.ends_with(|c: char| c.is_ascii_digit())
        } else {
            line.ends_with(&format!("  {shown}"))
        };
        assert!(end, "{line:?}");
        assert!(object.contains(&format!("\"metadata\":{quoted}}}")), "{object}");
        assert!(!line.chars().chain(object.trim_end().chars()).any(char::is_control), "{line:?}");
    }
}

/// At the root that the Rust had, its cache opens by itself, and ours is the same, byte for byte; so the Rust opens ours.
#[test]
fn caches_go_both_ways() {
    let Ok(lock) = File::create(format!("{HOME}.lock")) else {
        println!("skipped: {HOME}.lock cannot be written");
        return;
    };
    lock.lock().unwrap();
    let home = Path::new(HOME);
    let _ = fs::remove_dir_all(home);
    copy(&data("store"), &home.join("store"));
    copy(&data("cache"), &home.join("cache"));
    let store = home.join("store");
    let plain = |cache: &str| list(&store, 20, 30, &words!["--plain", "--cache", home.join(cache)]);
    plain("cache").gives(&expected("list-20-30"));
    plain("cache/DATA").gives(&expected("list-20-30"));
    let ran = run!("prepare", &store, home.join("ours"));
    assert_eq!((ran.status, ran.err.as_str()), (0, ""));
    assert_eq!(names(home), ["cache", "ours", "store"]);
    assert_eq!(names(&home.join("ours")), ["DATA", "LEASE"]);
    for name in ["DATA", "LEASE"] {
        assert_eq!(
            fs::read(home.join("ours").join(name)).unwrap(),
            fs::read(data("cache").join(name)).unwrap(),
            "{name}"
        );
    }
    // Through a link the root is the same: it is the canonical path.
    std::os::unix::fs::symlink(&store, home.join("link")).unwrap();
    let cache = words!["--plain", "--cache", home.join("cache")];
    list(&home.join("link"), 20, 30, &cache).gives(&expected("list-20-30"));
    fs::remove_dir_all(home).unwrap();
}

#[test]
fn cache_folders_of_stores() {
    let temp = Temp::new();
    let (store, cache) = (store(&temp), temp.join("cache"));
    run!("prepare", &store, store.join("cache")).fails("must lie outside the store");
    run!("prepare", &store, &temp.0).fails("must lie outside the store");
    let root = words!["--root", format!("{HOME}/store")];
    let prepare = |more: &[OsString]| run([&words!["prepare", &store, &cache][..], &root, more].concat());
    assert_eq!(prepare(&[]).status, 0);
    prepare(&[]).fails("is there already");
    fs::write(cache.join("DATA"), "VECSQ801, an old one").unwrap();
    assert_eq!(prepare(&words!["--force"]).status, 0);
    assert_eq!(fs::read(cache.join("DATA")).unwrap(), fs::read(data("cache/DATA")).unwrap());
    assert_eq!(names(&cache), ["DATA", "LEASE"]);
    // A cleared folder, as vecnook leaves it.
    fs::remove_file(cache.join("DATA")).unwrap();
    assert_eq!(prepare(&[]).status, 0);
    // Others who read or write hold the lease.
    let lease = File::options().read(true).write(true).open(cache.join("LEASE")).unwrap();
    lease.lock_shared().unwrap();
    prepare(&words!["--force"]).fails("is in use");
    assert_eq!(list(&store, 3, 5, &[&root[..], &words!["--cache", &cache]].concat()).status, 0);
    lease.lock().unwrap();
    list(&store, 3, 5, &words!["--cache", &cache]).fails("is in use");
    drop(lease);
    fs::write(cache.join("LEASE"), "VECSQ8L2").unwrap();
    prepare(&words!["--force"]).fails("no cache folder of vecnook");
    fs::remove_dir_all(&cache).unwrap();
    fs::write(&cache, "a file").unwrap();
    prepare(&words!["--force"]).fails("no cache folder of vecnook");
    assert_eq!(temp.names(), ["cache", "store"]);
}

#[test]
fn what_is_wrong_in_a_store() {
    let temp = Temp::new();
    let store = store(&temp);
    let check = || run!("check", &store);
    let ran = check();
    assert_eq!((ran.status, ran.err.as_str()), (0, ""));
    for line in
        ["generation  3", "sequence    7", "strokes     44", "dimensions  6", "model       pump é", "segments    2"]
    {
        assert!(ran.out.lines().any(|found| found == line), "{line} in {}", ran.out);
    }
    // The folder that CURRENT names is the one that is read.
    let generation = store.join("gen-0000000000000003");
    let altered = |path: &Path, bytes: &[u8], check: &dyn Fn()| {
        let whole = fs::read(path).unwrap();
        fs::write(path, bytes).unwrap();
        check();
        fs::write(path, whole).unwrap();
    };
    let current = fs::read(store.join("CURRENT")).unwrap();
    for at in 0..current.len() {
        let mut wrong = current.clone();
        wrong[at] ^= 1;
        altered(&store.join("CURRENT"), &wrong, &|| check().fails("CURRENT: is damaged"));
        altered(&store.join("CURRENT"), &current[..at], &|| check().fails("CURRENT: is damaged"));
    }
    // CURRENT, whole, with another manifest's CRC-32: 3.
    let crc = |bytes: &[u8]| {
        !bytes.iter().fold(!0u32, |crc, byte| {
            (0..8).fold(crc ^ u32::from(*byte), |crc, _| if crc & 1 == 1 { crc >> 1 ^ 0xedb8_8320 } else { crc >> 1 })
        })
    };
    let sealed = |mut body: Vec<u8>| {
        body.extend(crc(&body).to_le_bytes());
        body
    };
    let mut other = current[..20].to_vec();
    other[16] ^= 1;
    altered(&store.join("CURRENT"), &sealed(other), &|| check().refused(3, 0));
    // Generation 2 under the name of generation 4.
    let old = store.join("gen-0000000000000002");
    copy(&old, &store.join("gen-0000000000000004"));
    let manifest = fs::read(old.join("MANIFEST")).unwrap();
    let mut fourth = b"VECCUR01\x04\0\0\0\0\0\0\0".to_vec();
    fourth.extend(&manifest[manifest.len() - 4..]);
    altered(&store.join("CURRENT"), &sealed(fourth), &|| check().fails("is of generation 2, but CURRENT names 4"));
    let mut second = b"VECCUR01\x02\0\0\0\0\0\0\0".to_vec();
    second.extend(&manifest[manifest.len() - 4..]);
    altered(&store.join("CURRENT"), &sealed(second), &|| assert!(check().out.contains("\nstrokes     3\n")));
    let whole = fs::read(store.join("STORE")).unwrap();
    altered(&store.join("STORE"), &whole[..40], &|| check().fails("STORE: is damaged"));
    // Segments: cut, too long, a byte moved from one file to the next.
    let (first, next) = (generation.join("segment-0000.bin"), generation.join("segment-0001.bin"));
    let (a, b) = (fs::read(&first).unwrap(), fs::read(&next).unwrap());
    altered(&first, &a[..a.len() - 1], &|| check().refused(5, 0));
    altered(&next, &[&b[..], b"x"].concat(), &|| check().refused(5, 0));
    altered(&next, &b[..0], &|| check().refused(5, 0));
    altered(&first, &a[..a.len() - 1], &|| {
        altered(&next, &[&a[a.len() - 1..], &b].concat(), &|| {
            let ran = check();
            ran.refused(5, 0);
            assert!(ran.err.contains("segment-0000.bin has 51089 bytes, the manifest says 51090"), "{}", ran.err);
        })
    });
    let mut wrong = b.clone();
    wrong[20] ^= 1;
    altered(&next, &wrong, &|| check().refused(6, 1));
    fs::rename(&next, generation.join("elsewhere")).unwrap();
    check().fails("segment-0001.bin: no such file or folder");
    fs::rename(generation.join("elsewhere"), &next).unwrap();
    fs::write(store.join("MANIFEST"), "").unwrap();
    check().fails("has both CURRENT");
    fs::remove_file(store.join("MANIFEST")).unwrap();
    // What only vecnook's own programs need may be missing.
    for name in ["GATE", "WRITER", "STORE", "gen-0000000000000003/LEASE"] {
        fs::remove_file(store.join(name)).unwrap();
    }
    assert_eq!(check().status, 0);
}
