//! `list --plain`, `prepare` and `check` on the example and on the list program's cases, whose output is the oracle's.
use crate::common::{Temp, example, repository, run};
use std::{collections::HashMap, fs};

#[test]
fn the_example_in_each_form() {
    let example = repository("example");
    let query = repository("example/QUERY");
    let want = fs::read_to_string(repository("crates/list/stdout")).unwrap();
    run!("list", &example, "--query", &query, "-k", "1", "--limit", "1", "--plain").gives(&want);
    // Document 01's line for limit 2.
    let ran = run!("list", &example, "--query", &query, "-k", "1", "--limit", "2", "--plain");
    assert_eq!(ran.out.lines().nth(1), Some("1 2 0000000000000000 1"));
    let ran = run!("list", &example, "--query", &query, "-k", "1", "--limit", "1");
    assert_eq!((ran.status, ran.err.as_str()), (0, ""));
    let lines: Vec<&str> = ran.out.lines().collect();
    assert!(
        lines[0].starts_with("Generation 3, sequence 7, squared L2: 2 strokes eligible, 1 measured, by the cache ")
    );
    assert_eq!(
        lines[1..],
        [
            "The list may be another than the exact one; from --limit 2 on it is exact.",
            "",
            "place  id  distance  bits              row  metadata",
            "    1   1    0.0625  3fb0000000000000    0",
        ]
    );
    run!("list", &example, "--query", &query, "-k", "2", "--limit", "2", "--json").gives(
        "{\"generation\":\"3\",\"sequence\":\"7\",\"eligible\":2,\"measured\":2,\"complete\":true,\"approximate\":false,\"places\":[\
         {\"place\":1,\"id\":\"2\",\"distance\":0.0,\"bits\":\"0000000000000000\",\"row\":1,\"metadata\":\"\"},\
         {\"place\":2,\"id\":\"1\",\"distance\":0.0625,\"bits\":\"3fb0000000000000\",\"row\":0,\"metadata\":\"\"}]}\n",
    );
    let ran = run!("check", &example);
    assert_eq!((ran.status, ran.err.as_str()), (0, ""));
    for line in
        ["generation  3", "sequence    7", "strokes     2", "dimensions  2", "metric      squared L2", "model       m"]
    {
        assert!(ran.out.lines().any(|found| found == line), "{line}");
    }
}

/// The words of the list program for each case, by the case's name.
fn expected() -> Vec<(String, String)> {
    let cases = repository("crates/vectors_listing");
    let names = fs::read_to_string(cases.join("args")).unwrap();
    let out = fs::read_to_string(cases.join("stdout")).unwrap();
    let mut found: Vec<(String, String)> = Vec::new();
    let mut names = names.lines().peekable();
    for line in out.lines() {
        if names.peek() == Some(&line) {
            found.push((names.next().unwrap().into(), String::new()));
        } else {
            let (_, words) = found.last_mut().unwrap();
            *words += line;
            *words += "\n";
        }
    }
    assert_eq!(names.next(), None);
    found
}

/// Every case that the program can be asked: with CALL's numbers as options, and CACHE and QUERY named.
#[test]
fn the_list_programs_cases() {
    let temp = Temp::new();
    let mut counts: HashMap<&str, usize> = HashMap::new();
    for (name, want) in expected() {
        let folder = repository("crates/vectors_listing/data").join(&name);
        let file = |name: &str| folder.join(name);
        let call = fs::read(file("CALL")).ok().filter(|call| call.len() == 8);
        // Without CALL or PLACE the list program stops; here options and defaults stand for them.
        let Some(call) = call.filter(|_| file("PLACE").is_file()) else {
            assert!(["bad input\n", "too long\n"].contains(&want.as_str()), "{name}");
            continue;
        };
        let number = |at: usize| u32::from_le_bytes(call[at..at + 4].try_into().unwrap()).to_string();
        let options = words![&folder, "--query-f32", file("QUERY"), "-k", number(0), "--limit", number(4), "--plain"];
        let ask = |rows: &[std::ffi::OsString]| run([&words!["list"], &options[..], rows].concat());
        let ran = ask(&words!["--cache", file("CACHE")]);
        let kind = match want.split(' ').next().unwrap() {
            "generation" => {
                assert_eq!((ran.status, &ran.out, ran.err.as_str()), (0, &want, ""), "{name}");
                // Where the cache is what an encoder makes of the library, ours is the same, and resident rows list the same.
                let cache = temp.join(&name);
                assert_eq!(run!("prepare", &folder, &cache).status, 0, "{name}");
                if fs::read(cache).unwrap() == fs::read(file("CACHE")).unwrap() {
                    assert_eq!(ask(&words!["--resident"]).out, want, "{name}");
                    "prepared alike"
                } else {
                    "other cache"
                }
            }
            "refused" => {
                assert_eq!((ran.status, &ran.out), (1, &want), "{name}");
                assert!(ran.err.starts_with(&format!("pivatsohy: {}: ", want.trim_end())), "{name}: {}", ran.err);
                "refused"
            }
            // In a folder named CACHE the program looks for DATA, as vecnook has it.
            "bad" if file("CACHE").is_dir() => {
                assert_eq!(ran.status, 0, "{name}");
                "cache folder"
            }
            "bad" => {
                assert_eq!((ran.status, ran.out.as_str()), (2, ""), "{name}");
                "bad input"
            }
            // The program has no bound of 65,536 bytes.
            _ => "too long",
        };
        *counts.entry(kind).or_default() += 1;
    }
    println!("{counts:?}");
    assert!(counts["prepared alike"] > 100 && counts["refused"] > 100 && counts["bad input"] > 5, "{counts:?}");
}

#[test]
fn prepare_writes_the_examples_cache() {
    let temp = Temp::new();
    let folder = example(&temp);
    fs::remove_file(folder.join("CACHE")).unwrap();
    let ran = run!("prepare", &folder, folder.join("CACHE"));
    assert_eq!((ran.status, ran.err.as_str()), (0, ""));
    assert!(ran.out.ends_with("CACHE: 181 bytes, generation 3, sequence 7, 2 strokes of 2\n"), "{}", ran.out);
    assert_eq!(fs::read(folder.join("CACHE")).unwrap(), fs::read(repository("example/CACHE")).unwrap());
    assert_eq!(temp.names(), ["example"]);

    run!("prepare", &folder, folder.join("CACHE")).fails("is there already; --force replaces a cache");
    assert_eq!(run!("prepare", &folder, folder.join("CACHE"), "--force").status, 0);
    run!("prepare", &folder, folder.join("SEGMENTS"), "--force").fails("--force replaces none but a cache");
    assert_eq!(fs::read(folder.join("SEGMENTS")).unwrap(), fs::read(repository("example/SEGMENTS")).unwrap());
    run!("prepare", &folder, &temp.0, "--force").fails("is a folder and not a file");
}

#[test]
fn platform_and_root_go_before_place() {
    let temp = Temp::new();
    let folder = example(&temp);
    let list = |more: &[&str]| {
        let mut words = words!["list", &folder, "--numbers", "127 0.25", "-k", "1", "--limit", "1", "--plain"].to_vec();
        words.extend(more.iter().map(Into::into));
        run(words)
    };
    let want = fs::read_to_string(repository("crates/list/stdout")).unwrap();
    list(&[]).gives(&want);
    list(&["--platform", "linus"]).refused(13, 0);
    list(&["--platform", "linus", "--resident"]).gives(&want);
    list(&["--root", "/pumpe"]).refused(13, 0);
    list(&["--platform", &"p".repeat(65)]).refused(10, 0);
    fs::write(folder.join("PLACE"), "linux").unwrap();
    list(&[]).fails("has no newline");
    fs::remove_file(folder.join("PLACE")).unwrap();
    // The folder's own path, which is shorter or longer than /pumps.
    list(&[]).refused(12, 0);
    list(&["--root", "/pumps"]).gives(&want);
    fs::remove_file(folder.join("CACHE")).unwrap();
    list(&[]).gives(&want);
    // A cache for the folder's own place opens there, and nowhere else.
    assert_eq!(run!("prepare", &folder, folder.join("CACHE")).status, 0);
    list(&[]).gives(&want);
    let moved = temp.join("exampl2");
    fs::rename(&folder, &moved).unwrap();
    run!("list", &moved, "--numbers", "127 0.25").refused(13, 0);
    let root = fs::canonicalize(&temp.0).unwrap().join("example");
    assert_eq!(run!("list", &moved, "--numbers", "127 0.25", "--root", root).status, 0);
}

#[test]
fn refusals_in_each_form() {
    let (folder, query) = (repository("example"), repository("example/QUERY"));
    let ran = run!("list", &folder, "--query", &query, "-k", "3", "--limit", "2");
    ran.refused(18, 0);
    assert!(ran.out.is_empty() && ran.err.contains("; `pivatsohy explain 18` says what to do\n"), "{ran:?}");
    let ran = run!("list", &folder, "--query", &query, "-k", "10001", "--plain");
    ran.refused(17, 0);
    assert_eq!(ran.out, "refused 17 at 0\n");
    let ran = run!("list", &folder, "--numbers", "1 2 3", "--json");
    ran.refused(16, 0);
    assert!(ran.out.starts_with("{\"refused\":{\"number\":16,\"place\":0,\"text\":\"the query "), "{}", ran.out);
    let ran = run!("agree", &folder, "--numbers", "1", "--plain");
    ran.refused(16, 0);
    assert_eq!(ran.out, "refused 16 at 0\n");
}

/// The worked example of document 01 again: with limit 1 the list holds id 1, the exact list id 2.
#[test]
fn agree_on_the_example() {
    let folder = repository("example");
    run!("agree", &folder, "--numbers", "127 0.25", "-k", "1", "--limit", "1", "--plain").gives("agreement 0 of 1\n");
    run!("agree", &folder, "--numbers", "127 0.25", "-k", "1", "--limit", "2", "--plain").gives("agreement 1 of 1\n");
    run!("agree", &folder, "--numbers", "127 0.25", "-k", "2", "--json").gives("{\"agreement\":2,\"places\":2}\n");
    let ran = run!("agree", &folder, "--numbers", "127 0.25", "-k", "1", "--limit", "1");
    assert!(ran.out.ends_with("hold the same id in 0 of 1 place.\n"), "{}", ran.out);
}
