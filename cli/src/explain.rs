//! `explain`: what a refusal's number means, where it is given, and what to do about it.
#![forbid(unsafe_code)]
use crate::{
    args::{self, Args, Spec},
    error::Error,
    refusal, text,
};
use std::fmt::Write;

pub const SPEC: Spec = Spec { arguments: &["N"], optional: true, flags: &[], values: &[] };

pub fn run(args: &Args) -> Result<(), Error> {
    let Some(word) = args.given(0) else { return text::print(&all()) };
    let word = word.to_string_lossy();
    let number: u32 =
        args::number(&word).map_err(|problem| Error::Usage(format!("`{}` {problem}", text::safe(&word))))?;
    if number == 0 {
        return text::print("0: no refusal\n");
    }
    let Some((_, meaning)) = refusal::lines().find(|(known, _)| *known == number) else {
        return Err(Error::Usage(format!("there is no refusal {number}; `pivatsohy explain` has them all")));
    };
    let (given, place, remedy) = more(number);
    text::print(&format!("{number}: {meaning}\n\nGiven:  {given}\nPlace:  {place}\nRemedy: {remedy}\n"))
}

/// Every number with its line.
fn all() -> String {
    let mut out = String::new();
    for (number, words) in refusal::lines() {
        let _ = writeln!(out, "{number:>2}  {words}");
    }
    out
}

const NONE: &str = "always 0";
const ROW: &str = "the row, counted from 0 in the order of ids";
const MANIFEST: &str = "when a library is read, by every command that reads one, at its manifest";
const SIZING: &str = "by prepare, and by list and agree with a cache, before the cache is made or looked at";
const OPENING: &str = "by list and agree when they open a cache";
const SEARCH: &str = "by list and agree when they search";

/// Where a number is given, what its place is, and what to do about it.
fn more(number: u32) -> (&'static str, &'static str, &'static str) {
    let copy = "The file is damaged or was copied in part: copy the library anew from where it is whole, or publish or pack it anew.";
    match number {
        1 => (MANIFEST, NONE, copy),
        2 => (
            MANIFEST,
            NONE,
            "The library was made by a program that goes beyond vecnook's bounds (dimensions 1 to 4,096, M 2 to 64, efConstruction \
             M to 4,096, a model name of 1 to 512 bytes of UTF-8 without NUL, metric 0 to 2), or the file is damaged: make it anew.",
        ),
        3 => (
            MANIFEST,
            NONE,
            "The manifest was altered or copied in part, or a store's CURRENT names another one: copy the library anew, all its files \
             together.",
        ),
        4 => (MANIFEST, NONE, "The manifest was written wrongly, not damaged on its way: make the library anew."),
        5 => (
            "when a library is read, at its segments, and when a cache or resident rows are made",
            "the row, counted from 0 in the order of ids; 0 also where the length of the segments is wrong",
            "The segments are damaged, cut short, too long, or another library's: copy MANIFEST and SEGMENTS (or the whole store) anew.",
        ),
        6 => ("when a library is read, at its segments", "the segment, counted from 0", copy),
        7 => (
            SIZING,
            NONE,
            "This program uses the default cache limit and block, which are within bounds; a program that names its own must keep to \
             1 to 1,073,741,824 bytes and to one row to 16,777,216 bytes.",
        ),
        8 => (
            "when a cache is sized or resident rows are made",
            NONE,
            "Split the library into smaller ones, and search each.",
        ),
        9 => (
            SIZING,
            NONE,
            "The cache, 8 bytes with it, must keep to 1,073,741,824 bytes: split the library, or search it with --resident.",
        ),
        10 => (SIZING, NONE, "Give a shorter --platform or --root, or put the library at a shorter path."),
        11 => (
            "by the archive's checks, sizing, preparing, opening and building",
            NONE,
            "A fault of the calling program, which lent too little; this one lends enough. Report it with the library's manifest.",
        ),
        12 => {
            (OPENING, NONE, "The file is no cache, was cut short, or is of a library with other rows: prepare it anew.")
        }
        13 => (
            OPENING,
            NONE,
            "The cache is of another generation or library, or the library was moved since: prepare it anew, or, if the library was \
             moved only, name the place that the cache was made for with --platform and --root.",
        ),
        14 => (OPENING, ROW, "The cache is damaged: prepare it anew."),
        15 => (OPENING, NONE, "The cache is damaged: prepare it anew."),
        16 => (
            SEARCH,
            NONE,
            "Give as many finite numbers as the library has dimensions (`pivatsohy check` tells them), under cosine not all zero. A \
             file that is read in the wrong form also does this: see --query-f32 and --query-text.",
        ),
        17 => (SEARCH, NONE, "Ask for at most 10,000 places with -k."),
        18 => (SEARCH, NONE, "Give a --limit from k to 65,536."),
        19 => (SEARCH, NONE, "Hand in at most 1,000,000 ids; ids that stand there twice count twice."),
        20 => (
            SEARCH,
            NONE,
            "A fault of the calling program, which lent too little; this one lends enough. Report it with the command line.",
        ),
        21 => (
            SEARCH,
            "the row, counted from 0 in the order of ids, where an entry or a row differs; otherwise 0",
            "What is searched is not what was opened. This program reads all files into memory first, so it points to faulty memory; \
             a program over the archive must lend the same bytes to each call.",
        ),
        22 => (SEARCH, ROW, "The cache has a scale that no encoder writes: prepare it anew."),
        23 => (
            SEARCH,
            ROW,
            "What is searched is not what was checked. This program reads all files into memory first, so it points to faulty memory.",
        ),
        24 => (SEARCH, ROW, "It does not occur: no finite f32s are far enough apart."),
        _ => ("", "", ""),
    }
}

#[cfg(test)]
mod tests {
    #[test]
    fn every_number_of_the_header_is_explained() {
        for (number, _) in crate::refusal::lines() {
            let (given, place, remedy) = super::more(number);
            assert!(!given.is_empty() && !place.is_empty() && !remedy.is_empty(), "{number}");
        }
    }
}
