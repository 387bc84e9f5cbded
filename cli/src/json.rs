//! JSON values (RFC 8259) as text.
#![forbid(unsafe_code)]
use std::fmt::Write;

/// A string, with quotes.
pub fn string(words: &str) -> String {
    let mut out = String::with_capacity(words.len() + 2);
    out.push('"');
    for c in words.chars() {
        match c {
            '"' => out.push_str("\\\""),
            '\\' => out.push_str("\\\\"),
            '\n' => out.push_str("\\n"),
            '\r' => out.push_str("\\r"),
            '\t' => out.push_str("\\t"),
            // Beyond what RFC 8259 asks for, characters that drive a terminal.
            c if c.is_control() => {
                let _ = write!(out, "\\u{:04x}", u32::from(c));
            }
            c => out.push(c),
        }
    }
    out.push('"');
    out
}

/// A number that reads back as the same float; `null` for one that JSON does not have.
pub fn float(value: f64) -> String {
    if value.is_finite() { format!("{value:?}") } else { "null".into() }
}

#[cfg(test)]
mod tests {
    #[test]
    fn strings_are_escaped() {
        assert_eq!(super::string("a\"b\\c\nd\u{1}é\u{10ffff}\u{9b}"), "\"a\\\"b\\\\c\\nd\\u0001é\u{10ffff}\\u009b\"");
    }
    #[test]
    fn floats_are_json() {
        for (value, words) in [(0.0625, "0.0625"), (-0.0, "-0.0"), (1e300, "1e300"), (f64::NAN, "null")] {
            assert_eq!(super::float(value), words);
        }
    }
}
