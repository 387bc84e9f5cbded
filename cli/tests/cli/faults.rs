//! Files that are missing, folders, cut short or altered; full disks, interruptions, closed pipes, too little memory.
use crate::common::{PROGRAM, Temp, command, copy, data, example, finish, names, packed, repository, run};
use std::{
    fs::{self, File, OpenOptions},
    io::{Read, Write},
    path::Path,
    process::{Command, Stdio},
    thread::sleep,
    time::{Duration, Instant},
};

#[test]
fn a_missing_file_and_a_folder_for_a_file() {
    let temp = Temp::new();
    let folder = example(&temp);
    let (query, nowhere) = (repository("example/QUERY"), temp.join("nowhere"));
    run!("check", &nowhere).fails("no such file or folder");
    run!("check", repository("example/MANIFEST")).fails("is not a folder: a library is one");
    run!("check", &temp.0).fails("has neither MANIFEST nor CURRENT: it is no library");
    for missing in [&nowhere, &temp.0] {
        let words = if missing == &temp.0 { "is a folder and not a file" } else { "no such file or folder" };
        run!("list", &folder, "--query", missing).fails(words);
        run!("list", &folder, "--query-text", missing).fails(words);
        run!("list", &folder, "--query", &query, "--ids", missing).fails(words);
        run!("list", &folder, "--query", &query, "--ids-binary", missing).fails(words);
        run!("pack", missing, temp.join("library"), "--metric", "l2", "--model", "m").fails(words);
    }
    run!("list", &folder, "--query", &query, "--cache", &nowhere).fails("no such file or folder");
    run!("list", &folder, "--query", &query, "--cache", &temp.0).fails("DATA: no such file or folder");
    for name in ["MANIFEST", "SEGMENTS", "CACHE", "PLACE"] {
        fs::remove_file(folder.join(name)).unwrap();
        fs::create_dir(folder.join(name)).unwrap();
        run!("list", &folder, "--query", &query).fails(if name == "CACHE" {
            "DATA: no such file or folder"
        } else {
            "is a folder and not a file"
        });
        fs::remove_dir(folder.join(name)).unwrap();
        let ran = run!("list", &folder, "--query", &query);
        match name {
            "MANIFEST" => ran.fails("has neither MANIFEST nor CURRENT"),
            "SEGMENTS" => ran.fails("SEGMENTS: no such file or folder"),
            // Without a cache the rows are resident; without PLACE the cache is for another place.
            "CACHE" => assert!(ran.out.contains("by resident rows."), "{ran:?}"),
            _ => assert_eq!(ran.status, 1),
        }
        fs::copy(repository("example").join(name), folder.join(name)).unwrap();
    }
    assert_eq!(run!("list", &folder, "--query", &query).status, 0);
    assert_eq!(temp.names(), ["example"]);
}

/// Every file cut at every length, and with a byte too many: the numbers are document 01's for lengths.
#[test]
fn a_truncated_file() {
    let temp = Temp::new();
    let folder = example(&temp);
    let list = || run!("list", &folder, "--query-f32", folder.join("QUERY"), "-k", "1", "--plain");
    for (name, number) in [("MANIFEST", 1), ("SEGMENTS", 5), ("CACHE", 12)] {
        let whole = fs::read(folder.join(name)).unwrap();
        for length in 0..whole.len() {
            fs::write(folder.join(name), &whole[..length]).unwrap();
            let ran = list();
            // A manifest cut in its model or after its rows is 1 or 2 by the order of its fields, as document 01 has it.
            match (name, ran.out.as_str()) {
                ("MANIFEST", "refused 2 at 0\n") => assert_eq!(ran.status, 1),
                _ => ran.refused(number, 0),
            }
        }
        fs::write(folder.join(name), [&whole[..], b"x"].concat()).unwrap();
        list().refused(number, 0);
        fs::write(folder.join(name), whole).unwrap();
    }
    assert_eq!(list().status, 0);
    fs::write(folder.join("QUERY"), [0; 7]).unwrap();
    list().fails("is not whole f32s");
    // Files far longer than they may be are not read whole.
    for (name, number) in [("MANIFEST", 1), ("SEGMENTS", 5), ("CACHE", 12)] {
        fs::copy(repository("example/QUERY"), folder.join("QUERY")).unwrap();
        let file = OpenOptions::new().write(true).open(folder.join(name)).unwrap();
        let length = file.metadata().unwrap().len();
        file.set_len(1 << 40).unwrap();
        let limited = format!("ulimit -v 400000; exec {PROGRAM} \"$@\"");
        let mut shell = Command::new("sh");
        shell.args(["-c", &limited, "sh", "list", "--numbers", "127 0.25"]).arg(&folder);
        finish(shell).refused(number, 0);
        file.set_len(length).unwrap();
    }
}

#[test]
fn wrong_ids() {
    let temp = Temp::new();
    let list = |name: &str, bytes: &[u8]| {
        run!("list", repository("example"), "--numbers", "127 0.25", "--plain", name, temp.write("ids", bytes))
    };
    let none = "generation 3 sequence 7 eligible 0 measured 0 complete 1 approximate 0\n";
    list("--ids", b"").gives(none);
    list("--ids", b"3\n\n 4 \r\n").gives(none);
    assert_eq!(list("--ids", b"2\n2\n18446744073709551615").out.lines().nth(1), Some("1 2 0000000000000000 1"));
    list("--ids", b"2\nx\n").fails("line 2: `x` is not a whole number");
    list("--ids", b"2\n18446744073709551616\n").fails("line 2: `18446744073709551616` is too large");
    list("--ids", b"2\n\xff\n").fails("line 2: ");
    list("--ids-binary", &[0; 9]).fails("is not whole u64s: it has 9 bytes");
    list("--ids-binary", &vec![0; 8_000_008]).refused(19, 0);
    list("--ids-binary", &vec![0; 80_000_000]).refused(19, 0);
    list("--ids-binary", &vec![0; 8_000_000]).gives(none);
    list("--ids", "7\n".repeat(1_000_001).as_bytes()).refused(19, 0);
    list("--ids", "7\n".repeat(1_000_000).as_bytes()).gives(none);
}

/// Standard output on a disk that is full, and one whose reader has gone.
#[test]
fn output_that_cannot_be_written() {
    let store = data("store");
    let query = data("query.f32");
    let list = |form: &[&str]| {
        let mut list = command(words!["list", &store, "--query", &query, "-k", "44"]);
        list.args(form);
        list
    };
    for form in [&[][..], &["--plain"], &["--json"]] {
        let mut full = list(form);
        full.stdout(File::create("/dev/full").unwrap());
        finish(full).fails("standard output: no space left on the disk");
        let mut child = list(form).stdout(Stdio::piped()).stderr(Stdio::piped()).spawn().unwrap();
        drop(child.stdout.take());
        let mut err = String::new();
        child.stderr.take().unwrap().read_to_string(&mut err).unwrap();
        assert_eq!((child.wait().unwrap().code(), err.as_str()), (Some(0), ""));
    }
    // Standard error full too: the status tells it all the same.
    let mut both = list(&["--no-such"]);
    both.stderr(File::create("/dev/full").unwrap());
    assert_eq!(finish(both).status, 2);
}

/// A tmpfs of 256 KiB, unmounted when dropped; none without the right to mount.
struct Small(Temp);
impl Small {
    fn new() -> Option<Self> {
        let temp = Temp::new();
        let mount = Command::new("mount").args(["-t", "tmpfs", "-o", "size=256k", "tmpfs"]).arg(&temp.0).output();
        mount.is_ok_and(|done| done.status.success()).then_some(Self(temp))
    }
}
impl Drop for Small {
    fn drop(&mut self) {
        let _ = Command::new("umount").arg(&self.0.0).status();
    }
}

#[test]
fn a_full_disk() {
    let temp = Temp::new();
    let library = packed(&temp, 20_000, 16);
    let Some(small) = Small::new() else {
        println!("skipped: a tmpfs cannot be mounted");
        return;
    };
    let disk = &small.0;
    run!("prepare", &library, disk.join("CACHE")).fails("no space left on the disk");
    assert!(disk.names().is_empty(), "{:?}", disk.names());
    // A cache that is there stays as it was.
    fs::write(disk.join("CACHE"), "VECSQ801 old").unwrap();
    run!("prepare", &library, disk.join("CACHE"), "--force").fails("no space left on the disk");
    assert_eq!((disk.names(), fs::read(disk.join("CACHE")).unwrap()), (vec!["CACHE".into()], b"VECSQ801 old".to_vec()));
    fs::remove_file(disk.join("CACHE")).unwrap();
    let csv = crate::common::strokes(&temp, 20_000, 16);
    run!("pack", &csv, disk.join("library"), "--metric", "l2", "--model", "m").fails("no space left on the disk");
    assert!(disk.names().is_empty(), "{:?}", disk.names());
    // A store's cache folder, on a disk with room for no more than a part of it.
    fs::write(disk.join("filled"), vec![0; 250 * 1024]).unwrap();
    run!("prepare", data("store"), disk.join("cache")).fails("no space left on the disk");
    assert_eq!(disk.names(), ["filled"]);
}

/// Killed at any time, prepare leaves under the final name nothing, or the whole cache.
#[test]
fn an_interrupted_prepare() {
    let temp = Temp::new();
    let library = packed(&temp, 100_000, 32);
    let whole = temp.join("whole");
    let start = Instant::now();
    assert_eq!(run!("prepare", &library, &whole, "--root", "/r").status, 0);
    let (whole, time) = (fs::read(&whole).unwrap(), start.elapsed());
    let cache = temp.join("CACHE");
    let temporary = |names: Vec<String>| names.iter().any(|name| name.starts_with("CACHE.tmp-"));
    let (mut killed, mut halves) = (0, 0);
    for trial in 0..16u32 {
        let mut child =
            command(words!["prepare", &library, &cache, "--root", "/r"]).stdout(Stdio::null()).spawn().unwrap();
        if trial % 2 == 0 {
            sleep(time * trial / 16);
        } else {
            // In the midst of writing.
            while !temporary(temp.names()) && child.try_wait().unwrap().is_none() {
                sleep(Duration::from_micros(100));
            }
        }
        let _ = child.kill();
        killed += u32::from(!child.wait().unwrap().success());
        halves += u32::from(temporary(temp.names()));
        if cache.exists() {
            assert!(fs::read(&cache).unwrap() == whole, "a half cache at trial {trial}");
            fs::remove_file(&cache).unwrap();
        }
        for name in temp.names().iter().filter(|name| name.starts_with("CACHE.tmp-")) {
            fs::remove_file(temp.join(name)).unwrap();
        }
    }
    println!("{killed} killed, {halves} while writing");
    assert!(killed > 4 && halves > 0, "{killed} killed, {halves} while writing");
}

/// Killed at any time, pack leaves under the final name nothing, or a whole library.
#[test]
fn an_interrupted_pack() {
    let temp = Temp::new();
    let csv = crate::common::strokes(&temp, 50_000, 16);
    let library = temp.join("library");
    let pack = || words!["pack", &csv, &library, "--metric", "l2", "--model", "m"];
    let start = Instant::now();
    assert_eq!(run(pack()).status, 0);
    let (time, whole) = (start.elapsed(), fs::read(library.join("MANIFEST")).unwrap());
    let mut killed = 0;
    for trial in 0..12u32 {
        fs::remove_dir_all(&library).unwrap_or_default();
        let mut child = command(pack()).stdout(Stdio::null()).spawn().unwrap();
        sleep(time * trial / 12);
        let _ = child.kill();
        killed += u32::from(!child.wait().unwrap().success());
        if library.exists() {
            assert!(fs::read(library.join("MANIFEST")).unwrap() == whole, "a half library at trial {trial}");
            assert_eq!(run!("check", &library).status, 0);
        }
        for name in temp.names().iter().filter(|name| name.starts_with("library.tmp-")) {
            // What is left looks like no library to a reader of names, and is not taken for one by a later pack.
            fs::remove_dir_all(temp.join(name)).unwrap();
        }
    }
    assert!(killed > 4, "{killed} killed");
}

/// Memory that is not to be had is told, and is no abort.
#[test]
fn too_little_memory() {
    let temp = Temp::new();
    let library = packed(&temp, 100_000, 32);
    for command in [words!["check", &library].to_vec(), words!["list", &library, "--numbers", "1"].to_vec()] {
        let mut shell = Command::new("sh");
        shell.args(["-c", &format!("ulimit -v 16000; exec {PROGRAM} \"$@\""), "sh"]).args(command);
        finish(shell).fails("bytes of memory are not to be had");
    }
}

/// Progress is told on a terminal once the work has taken a second, and else never.
#[test]
fn progress_on_a_terminal_alone() {
    let temp = Temp::new();
    let folder = example(&temp);
    fs::remove_file(folder.join("SEGMENTS")).unwrap();
    assert!(Command::new("mkfifo").arg(folder.join("SEGMENTS")).status().unwrap().success());
    // The segments come after two seconds.
    let slow = |path: &Path| {
        let path = path.join("SEGMENTS");
        std::thread::spawn(move || {
            sleep(Duration::from_millis(2200));
            File::options()
                .write(true)
                .open(path)
                .unwrap()
                .write_all(&fs::read(repository("example/SEGMENTS")).unwrap())
        })
    };
    let writer = slow(&folder);
    assert_eq!(run!("check", &folder).err, "");
    writer.join().unwrap().unwrap();
    let line = format!("{PROGRAM} check '{}'", folder.display());
    let writer = slow(&folder);
    let Ok(output) = Command::new("script").args(["-qec", &line, "/dev/null"]).stdin(Stdio::null()).output() else {
        println!("skipped: there is no `script` to run it on a terminal");
        let _ = File::open(folder.join("SEGMENTS")).map(|mut fifo| fifo.read_to_end(&mut Vec::new()));
        writer.join().unwrap().unwrap();
        return;
    };
    writer.join().unwrap().unwrap();
    let text = String::from_utf8_lossy(&output.stdout);
    assert!(text.contains("\rreading ") && text.contains("SEGMENTS (1 s)") && text.contains(": accepted"), "{text:?}");
}

/// Each of these was a library once; none may be a panic.
#[test]
fn damaged_bytes_are_refused() {
    let temp = Temp::new();
    let folder = example(&temp);
    for name in ["MANIFEST", "SEGMENTS", "CACHE"] {
        let whole = fs::read(folder.join(name)).unwrap();
        for at in 0..whole.len() {
            let mut wrong = whole.clone();
            wrong[at] ^= 0x81;
            fs::write(folder.join(name), wrong).unwrap();
            let ran = run(words!["list", &folder, "--numbers", "127 0.25", "--plain"]);
            assert!(ran.status == 1 && ran.out.starts_with("refused "), "{name} {at}: {ran:?}");
        }
        fs::write(folder.join(name), whole).unwrap();
    }
    copy(&folder, &temp.join("again"));
    assert_eq!(names(&temp.join("again")).len(), 8);
}
