//! Text for people: numbers, paths and metadata as a terminal may show them, and standard output.
#![forbid(unsafe_code)]
use crate::error::Error;
use std::{
    fmt::Write as _,
    io::{self, Write},
    path::Path,
};

/// Writes to standard output, all in one call of `write`.
pub fn print(words: &str) -> Result<(), Error> {
    let mut out = io::stdout().lock();
    out.write_all(words.as_bytes()).and_then(|()| out.flush()).map_err(|error| Error::output(&error))
}

/// Characters that drive a terminal or turn the direction of text, which are shown by their number.
fn drives(c: char) -> bool {
    c.is_control()
        || matches!(c, '\u{61c}' | '\u{200e}' | '\u{200f}' | '\u{2028}'..='\u{202e}' | '\u{2066}'..='\u{2069}')
}

/// The text with a backslash doubled and each character that drives a terminal as `\n`, `\r`, `\t` or `\u{number}`.
pub fn safe(words: &str) -> String {
    let mut out = String::with_capacity(words.len());
    for c in words.chars() {
        match c {
            '\\' => out.push_str("\\\\"),
            '\n' => out.push_str("\\n"),
            '\r' => out.push_str("\\r"),
            '\t' => out.push_str("\\t"),
            c if drives(c) => {
                let _ = write!(out, "\\u{{{:x}}}", u32::from(c));
            }
            c => out.push(c),
        }
    }
    out
}

pub fn path(path: &Path) -> String {
    safe(&path.to_string_lossy())
}

/// A number with a comma before each three digits from the right.
pub fn grouped(number: u64) -> String {
    let digits = number.to_string();
    let mut out = String::new();
    for (place, digit) in digits.chars().enumerate() {
        if place > 0 && (digits.len() - place).is_multiple_of(3) {
            out.push(',');
        }
        out.push(digit);
    }
    out
}

/// The count and the word, in the plural where it is not 1.
pub fn counted(number: u64, word: &str) -> String {
    format!("{} {word}{}", grouped(number), if number == 1 { "" } else { "s" })
}

#[cfg(test)]
mod tests {
    use super::*;

    #[test]
    fn terminals_are_not_driven() {
        assert_eq!(safe("pump é\u{1b}[2J\\"), "pump é\\u{1b}[2J\\\\");
        assert_eq!(safe("a\nb\tc\rd\u{9b}e\u{7f}f\u{202e}g\0"), "a\\nb\\tc\\rd\\u{9b}e\\u{7f}f\\u{202e}g\\u{0}");
    }
    #[test]
    fn numbers_are_grouped() {
        for (number, words) in [(0, "0"), (999, "999"), (1000, "1,000"), (1_234_567, "1,234,567")] {
            assert_eq!(grouped(number), words);
        }
        assert_eq!(counted(1, "row"), "1 row");
    }
}
