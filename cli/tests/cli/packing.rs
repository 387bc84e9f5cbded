//! `pack`, held to what vecnook's publisher writes of the same strokes.
use crate::common::{Ran, Temp, data, names};
use std::fs;

#[test]
fn packed_as_by_the_publisher() {
    let temp = Temp::new();
    let library = temp.join("library");
    let options = words!["--metric", "cosine", "--model", "pump é", "--generation", "2", "--sequence", "9"];
    let ran = crate::common::run([&words!["pack", data("strokes.csv"), &library][..], &options].concat());
    assert_eq!((ran.status, ran.err.as_str()), (0, ""));
    assert!(ran.out.starts_with(&format!("{}: accepted\n", library.display())), "{}", ran.out);
    assert_eq!((temp.names(), names(&library)), (vec!["library".into()], vec!["MANIFEST".into(), "SEGMENTS".into()]));
    for name in ["MANIFEST", "SEGMENTS"] {
        assert_eq!(fs::read(library.join(name)).unwrap(), fs::read(data("packed").join(name)).unwrap(), "{name}");
    }
    // With a first line of names, the same.
    let text = fs::read_to_string(data("strokes.csv")).unwrap();
    let headed = temp.write("headed.csv", format!("id,metadata,\"a\nb\",c,d,e,f\n{text}"));
    let again = temp.join("again");
    let ran = crate::common::run([&words!["pack", &headed, &again, "--header"][..], &options].concat());
    assert_eq!((ran.status, ran.out), (0, run!("check", &again).out));
    assert_eq!(fs::read(again.join("MANIFEST")).unwrap(), fs::read(data("packed/MANIFEST")).unwrap());
    run!("pack", &headed, &again, "--metric", "l2", "--model", "m").fails("is there already");
    run!("pack", &headed, temp.join("none/library"), "--metric", "l2", "--model", "m").fails("no such file or folder");
}

/// The defaults: generation 1, sequence 0, vecnook's configuration; and a stroke that is the query is found.
#[test]
fn packed_by_default() {
    let temp = Temp::new();
    let library = crate::common::packed(&temp, 100, 3);
    let manifest = fs::read(library.join("MANIFEST")).unwrap();
    let number =
        |at: usize, length: usize| manifest[at..at + length].iter().rev().fold(0u64, |n, b| n << 8 | u64::from(*b));
    let fields = [(8, 8), (16, 8), (24, 4), (28, 4), (32, 4), (36, 8), (44, 1), (45, 4), (50, 4), (54, 8)];
    assert_eq!(fields.map(|(at, length)| number(at, length)), [1, 0, 3, 16, 200, 42, 0, 1, 1, 100]);
    let ran = run!("list", &library, "--numbers", "217,234,251", "-k", "1");
    assert!(ran.out.ends_with("    1   7       0.0  0000000000000000    7  stroke 7\n"), "{}", ran.out);
}

fn pack(temp: &Temp, text: &[u8], metric: &str) -> Ran {
    let csv = temp.write("strokes.csv", text);
    run!("pack", csv, temp.join("library"), "--metric", metric, "--model", "m")
}

#[test]
fn every_error_names_its_line() {
    let temp = Temp::new();
    let long = format!("7,{},1\n", "m".repeat(16385));
    let many = format!("7,{}\n", ",1".repeat(4097));
    let cases: [(&[u8], &str); 20] = [
        (b"", "has no strokes"),
        (b"\n \r\n", "has no strokes"),
        (
            b"id,metadata,x\n1,a,2\n",
            "line 1: the id `id` is not a whole number (--header passes over a first line of names)",
        ),
        (b"1,a,2\n\nx,b,3\n", "line 3: the id `x` is not a whole number"),
        (b"1,a,2\n-2,b,3\n", "line 2: the id `-2` is not a whole number"),
        (b"18446744073709551616,a,2\n", "line 1: the id `18446744073709551616` is too large"),
        (b"1\n", "line 1: has an id alone"),
        (b"1,a\n", "line 1: has 0 numbers; a stroke has 1 to 4,096"),
        (b"1,a,2\n2,b,3,4\n", "line 2: has 2 numbers, the strokes before it 1"),
        (b"1,a,2,3\n2,b,3,\n", "line 2: number 2: `` is not a number"),
        (b"1,a,2\n2,b,nan\n", "line 2: number 1: `nan` is not a finite f32"),
        (b"1,a,2\n2,b,1e39\n", "line 2: number 1: `1e39` is not a finite f32"),
        (b"1,a,2\n2,b,1\x1b[2J\n", "line 2: number 1: `1\\u{1b}[2J` is not a number"),
        (b"5,a,2\n4,b,1\n\"5\",c,3\n", "line 3: the id 5 is also that of line 1"),
        (b"1,a,2\n2,\"b\nc,1\n", "line 2: a quote is not closed"),
        (b"1,\"x\ny\",2\n2,b\"c\"d,1\n", "line 3: a quote stands inside a field that is not quoted"),
        (b"1,a,2\n2,\"b\" ,1\n", "line 2: something stands between a closing quote and the comma"),
        (b"1,a,2\n2,\xff,1\n", "line 2: is not UTF-8"),
        (long.as_bytes(), "line 1: the metadata has 16385 bytes, over 16,384"),
        (many.as_bytes(), "line 1: has 4097 numbers; a stroke has 1 to 4,096"),
    ];
    for (text, words) in cases {
        pack(&temp, text, "l2").fails(words);
        assert_eq!(temp.names(), ["strokes.csv"], "{words}");
    }
    pack(&temp, b"1,a,1,0\n2,b,0,-0.0\n", "cosine").fails("line 2: has only zeros");
    assert_eq!(pack(&temp, b"1,a,1,0\n2,b,0,-0.0\n", "ip").status, 0);
}

/// Records go to a segment until its 67,108,864 bytes, CRC-32 included, would be passed: 4,096 records of 16,384 bytes pass them by
/// the CRC-32 alone, and 4,095 of 16,388 fill them exactly.
#[test]
fn segments_are_cut_at_their_bound() {
    for (dimensions, rows, lengths) in
        [(4093, 4100, &[4095 * 16_384 + 4, 5 * 16_384 + 4][..]), (4094, 4095, &[67_108_864])]
    {
        let temp = Temp::new();
        let numbers = ",0".repeat(dimensions);
        let text: String = (0..rows).map(|row| format!("{row},{numbers}\n")).collect();
        let ran = pack(&temp, text.as_bytes(), "l2");
        assert_eq!((ran.status, ran.err.as_str()), (0, ""));
        assert!(ran.out.ends_with(&format!("\nsegments    {}\n", lengths.len())), "{}", ran.out);
        let manifest = fs::read(temp.join("library/MANIFEST")).unwrap();
        let length = |at: usize| u64::from_le_bytes(manifest[at..at + 8].try_into().unwrap());
        let found: Vec<u64> = (0..lengths.len()).map(|segment| length(62 + 12 * segment)).collect();
        assert_eq!(found, lengths);
        assert_eq!(fs::metadata(temp.join("library/SEGMENTS")).unwrap().len(), lengths.iter().sum::<u64>());
        // A library just packed can be prepared and searched.
        assert_eq!(run!("prepare", temp.join("library"), temp.join("library/CACHE")).status, 0);
        let list = run!("list", temp.join("library"), "--numbers", &numbers, "-k", "1", "--plain");
        assert_eq!(list.out.lines().nth(1), Some("1 0 0000000000000000 0"));
    }
}

#[test]
fn more_than_a_million_strokes() {
    let temp = Temp::new();
    let text: String = (0..1_000_001).map(|row| format!("{row},,1\n")).collect();
    pack(&temp, text.as_bytes(), "l2").fails("line 1000001: is one stroke too many: a library has at most 1,000,000");
    assert_eq!(temp.names(), ["strokes.csv"]);
}
