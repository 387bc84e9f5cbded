//! The command line: help, bad usage, what `explain` says.
use crate::common::{Temp, data, example, repository};
use std::{ffi::OsString, fs, os::unix::ffi::OsStringExt};

const COMMANDS: [(&str, &[&str]); 6] = [
    ("check", &["LIBRARY"]),
    ("prepare", &["LIBRARY", "CACHE", "--force", "--platform", "--root"]),
    ("list", &SEARCH),
    ("agree", &SEARCH),
    ("pack", &["STROKES.csv", "LIBRARY", "--metric", "--model", "--header", "--generation", "--sequence"]),
    ("explain", &["N"]),
];
const SEARCH: [&str; 14] = [
    "LIBRARY",
    "--query FILE",
    "--query-f32",
    "--query-text",
    "--numbers",
    "-k K",
    "--limit",
    "--cache",
    "--resident",
    "--ids FILE",
    "--ids-binary",
    "--root",
    "--plain",
    "--json",
];

#[test]
fn help_of_each_command_names_all_it_takes() {
    for help in ["--help", "-h", "help"] {
        let ran = run!(help);
        assert_eq!((ran.status, ran.err.as_str()), (0, ""));
        for (command, _) in COMMANDS {
            assert!(ran.out.contains(&format!("pivatsohy {command} ")), "{command}");
        }
        assert!(ran.out.contains("Exit status: 0; 1 refused"));
    }
    for (command, words) in COMMANDS {
        let ran = run!(command, "--help");
        assert_eq!((ran.status, ran.err.as_str()), (0, ""));
        for word in words {
            assert!(ran.out.contains(word), "{command}: {word}");
        }
        for again in [run!(command, "-h"), run!("help", command), run!(command, "--no-such", "-h")] {
            if again.status == 0 {
                assert_eq!(again.out, ran.out);
            }
        }
    }
    run!("--version").gives("pivatsohy 0.1.0\n");
}

#[test]
fn bad_usage_is_2() {
    let (example, query) = (repository("example"), repository("example/QUERY"));
    crate::common::run::<&str>([]).fails("no command");
    run!("lst").fails("no command `lst`");
    run!("help", "lst").fails("no command `lst`");
    run!("check").fails("LIBRARY is not given; `pivatsohy check --help`");
    run!("check", &example, "more").fails("`more` is one argument too many");
    run!("check", &example, "--plain").fails("no option --plain");
    run!("prepare", &example).fails("CACHE is not given");
    run!("list", &example).fails("no query is given");
    run!("list", &example, "--query").fails("--query wants a value");
    run!("list", &example, "--plain=1").fails("--plain takes no value");
    run!("list", &example, "--query", &query, "-k", "1", "-k", "2").fails("-k is given twice");
    run!("list", &example, "--query", &query, "--plain", "--json").fails("exclude each other");
    run!("list", &example, "--query", &query, "--numbers", "1 2").fails("exclude each other");
    run!("list", &example, "--query", &query, "--resident", "--cache", "x").fails("exclude each other");
    run!("list", &example, "--query", &query, "--ids", "x", "--ids-binary", "x").fails("exclude each other");
    for number in ["-1", "", "x", "1.5", "+1", "0x1", " 1"] {
        run!("list", &example, "--query", &query, "-k", number).fails("is not a whole number");
    }
    run!("list", &example, "--query", &query, "-k", "18446744073709551616").fails("is too large");
    run!("list", &example, "--query", &query, "--limit=99999999999999999999").fails("is too large");
    for numbers in ["1 x", "1 nan", "1 inf", "1 1e39"] {
        run!("list", &example, "--numbers", numbers).fails("--numbers: `");
    }
    let pack = |words: &[&str]| {
        let csv = data("strokes.csv");
        crate::common::run([&["pack", csv.to_str().unwrap(), "/nowhere/library"], words].concat())
    };
    pack(&["--model", "m"]).fails("--metric is l2, cosine or ip");
    pack(&["--model", "m", "--metric", "L2"]).fails("--metric is l2, cosine or ip");
    pack(&["--metric", "l2"]).fails("--model is not given");
    pack(&["--metric", "l2", "--model", ""]).fails("1 to 512 bytes");
    pack(&["--metric", "l2", "--model", &"m".repeat(513)]).fails("1 to 512 bytes");
    pack(&["--metric", "l2", "--model", "m", "--generation", "0"]).fails("--generation is 1 or more");
    pack(&["--metric", "l2", "--model", "m", "--sequence", "18446744073709551616"]).fails("is too large");
    pack(&["--metric", "l2", "--model", "m"]).fails("no such file or folder");
}

#[test]
fn bytes_that_are_not_utf8_are_no_panic() {
    let odd = |bytes: &[u8]| OsString::from_vec(bytes.to_vec());
    run!(odd(b"l\xffst")).fails("no command");
    run!("check", odd(b"--\xff")).fails("no option");
    run!("check", odd(b"\xff\x1b[2J")).fails("no such file or folder");
    run!("list", "x", "-k", odd(b"\xff")).fails("no query");
    run!("list", repository("example"), "--numbers", odd(b"1 \xff")).fails("is not UTF-8");
    let temp = Temp::new();
    let folder = temp.0.join(odd(b"-\xfflibrary"));
    crate::common::copy(&repository("example"), &folder);
    assert_eq!(run!("check", "--", &folder).status, 0);
}

#[test]
fn two_hyphens_end_the_options() {
    let temp = Temp::new();
    fs::rename(example(&temp), temp.join("--help")).unwrap();
    let mut command = crate::common::command(["check", "--", "--help"]);
    command.current_dir(&temp.0);
    assert!(crate::common::finish(command).out.starts_with("--help: accepted\n"));
}

#[test]
fn a_value_may_be_joined() {
    let example = repository("example");
    let want = fs::read_to_string(repository("crates/list/stdout")).unwrap();
    run!("list", &example, "--plain", "-k1", "--limit=1", "--numbers=127 0.25").gives(&want);
}

#[test]
fn explain_has_the_headers_words_for_every_number() {
    let header = fs::read_to_string(repository("include/pivatsohy.h")).unwrap();
    let all = run!("explain");
    assert_eq!((all.status, all.out.lines().count()), (0, 24));
    for number in 1..=24 {
        let ran = run!("explain", number.to_string());
        let (line, rest) = ran.out.split_once("\n\n").unwrap();
        let words = line.strip_prefix(&format!("{number}: ")).unwrap();
        assert!(header.contains(&format!("X({number}, \"{words}\")")), "{words}");
        assert!(all.out.contains(words));
        let starts: Vec<_> = rest.lines().map(|line| line.split(':').next().unwrap()).collect();
        assert_eq!((ran.status, starts.as_slice()), (0, ["Given", "Place", "Remedy"].as_slice()), "{number}");
    }
    run!("explain", "0").gives("0: no refusal\n");
    run!("explain", "25").fails("there is no refusal 25");
    run!("explain", "x").fails("is not a whole number");
    run!("explain", "1", "2").fails("one argument too many");
}

#[test]
fn unsafe_code_is_in_one_file() {
    for name in crate::common::names(&repository("cli/src")) {
        let text = fs::read_to_string(repository("cli/src").join(&name)).unwrap();
        let (forbids, uses) = (text.contains("#![forbid(unsafe_code)]"), text.contains("unsafe {"));
        assert_eq!((forbids, uses), (name != "ffi.rs" && name != "main.rs", name == "ffi.rs"), "{name}");
    }
    assert!(fs::read_to_string(repository("cli/src/main.rs")).unwrap().contains("#![deny(unsafe_code)]\n"));
}
