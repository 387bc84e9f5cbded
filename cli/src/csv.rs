//! Comma-separated values (RFC 4180): records of fields, of which quoted ones may hold commas, line ends and doubled quotes.
#![forbid(unsafe_code)]
use std::{
    borrow::Cow,
    io::{self, BufRead, Read},
};

/// More than any stroke takes; so that a quote that is not closed does not read all the file into memory.
const MAX_RECORD_BYTES: usize = 1024 * 1024;

pub struct Records<R> {
    reader: R,
    record: Vec<u8>,
    lines: u64,
}

pub enum Problem {
    Io(io::Error),
    /// The line on which the record begins, and what is wrong with it.
    Record(u64, &'static str),
}

impl<R: BufRead> Records<R> {
    pub fn new(reader: R) -> Self {
        Self { reader, record: Vec::new(), lines: 0 }
    }
    /// The next record that is not an empty line, and the line on which it begins, counted from 1. Also the bytes read for it.
    pub fn next(&mut self) -> Result<Option<(u64, &str, usize)>, Problem> {
        self.record.clear();
        let mut first = self.lines + 1;
        let mut bytes = 0;
        loop {
            let room = (MAX_RECORD_BYTES + 1).saturating_sub(self.record.len());
            let read = self.reader.by_ref().take(room as u64).read_until(b'\n', &mut self.record);
            let read = read.map_err(Problem::Io)?;
            bytes += read;
            if self.record.len() > MAX_RECORD_BYTES {
                return Err(Problem::Record(first, "the record is over 1,048,576 bytes, or a quote is not closed"));
            }
            self.lines += u64::from(read > 0);
            let open = self.record.iter().filter(|&&byte| byte == b'"').count() % 2 == 1;
            match (read, open) {
                (0, true) => return Err(Problem::Record(first, "a quote is not closed")),
                (0, false) if self.record.is_empty() => return Ok(None),
                (_, true) => {}
                (_, false) => {
                    while matches!(self.record.last(), Some(b'\n' | b'\r')) {
                        self.record.pop();
                    }
                    if first == 1 && self.record.starts_with(b"\xef\xbb\xbf") {
                        self.record.drain(..3);
                    }
                    if !self.record.trim_ascii().is_empty() {
                        break;
                    }
                    self.record.clear();
                    first = self.lines + 1;
                }
            }
        }
        match std::str::from_utf8(&self.record) {
            Ok(record) => Ok(Some((first, record, bytes))),
            Err(_) => Err(Problem::Record(first, "is not UTF-8")),
        }
    }
}

/// The fields of a record.
pub struct Fields<'a>(Option<&'a str>);

impl<'a> Fields<'a> {
    pub fn of(record: &'a str) -> Self {
        Self(Some(record))
    }
}
impl<'a> Iterator for Fields<'a> {
    type Item = Result<Cow<'a, str>, &'static str>;

    fn next(&mut self) -> Option<Self::Item> {
        let rest = self.0.take()?;
        let Some(mut quoted) = rest.strip_prefix('"') else {
            let (field, rest) = rest.split_once(',').map_or((rest, None), |(field, rest)| (field, Some(rest)));
            self.0 = rest;
            return Some(if field.contains('"') {
                Err("a quote stands inside a field that is not quoted")
            } else {
                Ok(field.into())
            });
        };
        let mut field = Cow::Borrowed("");
        loop {
            let Some((part, rest)) = quoted.split_once('"') else { return Some(Err("a quote is not closed")) };
            field += part;
            if let Some(more) = rest.strip_prefix('"') {
                field += "\"";
                quoted = more;
            } else if let Some(more) = rest.strip_prefix(',') {
                self.0 = Some(more);
                return Some(Ok(field));
            } else {
                return Some(if rest.is_empty() {
                    Ok(field)
                } else {
                    Err("something stands between a closing quote and the comma")
                });
            }
        }
    }
}

#[cfg(test)]
mod tests {
    use super::*;

    fn all(text: &[u8]) -> Vec<(u64, Vec<String>)> {
        let mut records = Records::new(text);
        let mut out = Vec::new();
        while let Ok(Some((line, record, _))) = records.next() {
            out.push((line, Fields::of(record).map(|field| field.unwrap().into_owned()).collect()));
        }
        out
    }
    #[test]
    fn quotes_line_ends_and_empty_lines() {
        let text = b"\xef\xbb\xbf1,\"a, \"\"b\"\"\r\nc\",2\r\n\r\n  \n3,,\"\"\n4";
        let fields = |words: &[&str]| words.iter().map(|word| word.to_string()).collect::<Vec<_>>();
        assert_eq!(
            all(text),
            [(1, fields(&["1", "a, \"b\"\r\nc", "2"])), (5, fields(&["3", "", ""])), (6, fields(&["4"]))]
        );
    }
    #[test]
    fn wrong_quotes_are_told() {
        for wrong in ["a\"b\"", "\"a\"b,c"] {
            assert!(Fields::of(wrong).any(|field| field.is_err()), "{wrong}");
        }
        let mut records = Records::new(b"1,2\n\n\"a\nb".as_slice());
        assert!(matches!(records.next(), Ok(Some((1, "1,2", 4)))));
        assert!(matches!(records.next(), Err(Problem::Record(3, "a quote is not closed"))));
        let mut records = Records::new(b"1\n\xff\n".as_slice());
        assert!(matches!(records.next(), Ok(Some(_))));
        assert!(matches!(records.next(), Err(Problem::Record(2, _))));
    }
}
