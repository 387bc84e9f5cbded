//! The words of refusals: each line is the header's, so that it stands once.
#![forbid(unsafe_code)]
use crate::error::Refusal;

pub const HEADER: &str = include_str!("../../include/pivatsohy.h");

/// Number and words of each `X(number, "words")` of the header.
pub fn lines() -> impl Iterator<Item = (u32, &'static str)> {
    HEADER.lines().filter_map(|line| {
        let (number, rest) = line.trim().strip_prefix("X(")?.split_once(',')?;
        let (_, rest) = rest.split_once('"')?;
        Some((number.trim().parse().ok()?, rest.rsplit_once('"')?.0))
    })
}

pub fn line(number: u32) -> &'static str {
    lines().find(|(n, _)| *n == number).map_or("unknown number", |(_, words)| words)
}

/// What a place counts, where the number has one.
pub fn place_words(refusal: Refusal) -> String {
    match (refusal.number, refusal.place) {
        (5 | 21, 0) => "place 0 is row 0 or the whole; ".into(),
        (5 | 14 | 21..=24, row) => format!("the place is row {row}, counted from 0; "),
        (6, segment) => format!("the place is segment {segment}, counted from 0; "),
        _ => String::new(),
    }
}

#[cfg(test)]
mod tests {
    #[test]
    fn header_has_document_01s_numbers() {
        let numbers: Vec<u32> = super::lines().map(|(number, _)| number).collect();
        assert_eq!(numbers, (1..=24).collect::<Vec<u32>>());
        assert!(super::lines().all(|(_, words)| !words.is_empty()));
    }
}
