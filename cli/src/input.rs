//! What a search is handed besides the library: the query and the wanted ids.
#![forbid(unsafe_code)]
use crate::{
    args::{self, Args},
    bounds::MAX_IDS,
    error::Error,
    files,
    progress::Progress,
    text,
};
use std::{
    io::{BufRead, BufReader, Read, Write},
    path::Path,
};

/// Far more than the numbers of any query take, as f32s or as text.
const MAX_QUERY_BYTES: usize = 1024 * 1024;

pub struct Query {
    pub numbers: Vec<f32>,
    /// The bytes were found to be text, and would also be f32s.
    guessed: Option<usize>,
}

impl Query {
    /// By the one of `--query`, `--query-f32`, `--query-text` and `--numbers` that is given.
    pub fn read(args: &Args) -> Result<Self, Error> {
        args.one_of(&["--query", "--query-f32", "--query-text", "--numbers"])?;
        if let Some(words) = args.text("--numbers")? {
            let numbers = numbers(words).map_err(|problem| Error::Usage(format!("--numbers: {problem}")))?;
            return Ok(Self { numbers, guessed: None });
        }
        let Some((name, path)) =
            ["--query", "--query-f32", "--query-text"].iter().find_map(|name| Some((*name, args.path(name)?)))
        else {
            return Err(Error::Usage("no query is given: --query FILE or --numbers \"0.5 1 ..\"".into()));
        };
        let bytes = files::read(path, MAX_QUERY_BYTES + 1, &Progress::none())?;
        if bytes.len() > MAX_QUERY_BYTES {
            return Err(Error::file(path, "is over 1,048,576 bytes: it is no query"));
        }
        if name == "--query-text" || name == "--query" && is_text(&bytes) {
            let found = std::str::from_utf8(&bytes)
                .map_err(|_| "is not text".to_string())
                .and_then(|words| numbers(words).map_err(|problem| format!("is read as text: {problem}")));
            let numbers = found.map_err(|problem| {
                let other = if name == "--query" { "; --query-f32 reads it as f32s" } else { "" };
                Error::file(path, problem + other)
            })?;
            return Ok(Self { numbers, guessed: (name == "--query").then_some(bytes.len()) });
        }
        let (fours, rest) = bytes.as_chunks();
        if !rest.is_empty() {
            return Err(Error::file(path, format!("is not whole f32s: it has {} bytes", bytes.len())));
        }
        Ok(Self { numbers: fours.iter().map(|four| f32::from_le_bytes(*four)).collect(), guessed: None })
    }
    /// Says so where a file that was found to be text is as long as f32s would be.
    pub fn tell_guess(&self, dimensions: usize) {
        if self.guessed == Some(dimensions.saturating_mul(4)) {
            let _ = writeln!(
                std::io::stderr(),
                "pivatsohy: the query was read as text, though it is as long as {dimensions} f32s; --query-f32 reads it so"
            );
        }
    }
}

/// Nothing but printable ASCII, blanks and line ends.
fn is_text(bytes: &[u8]) -> bool {
    !bytes.is_empty() && bytes.iter().all(|byte| matches!(byte, b' '..=b'~' | b'\t' | b'\r' | b'\n'))
}

/// Decimal numbers with blanks or commas between them, each the nearest f32.
fn numbers(words: &str) -> Result<Vec<f32>, String> {
    words.split(|c: char| c.is_ascii_whitespace() || c == ',').filter(|word| !word.is_empty()).map(float).collect()
}

/// A decimal number as the nearest f32, which must be finite.
pub fn float(word: &str) -> Result<f32, String> {
    match word.parse::<f32>() {
        Ok(number) if number.is_finite() => Ok(number),
        Ok(_) => Err(format!("`{}` is not a finite f32", text::safe(word))),
        Err(_) => Err(format!("`{}` is not a number", text::safe(word))),
    }
}

/// The ids of `--ids` or `--ids-binary`, in their order; past the bound on them one more is enough for its refusal.
pub fn ids(args: &Args) -> Result<Option<Vec<u64>>, Error> {
    args.one_of(&["--ids", "--ids-binary"])?;
    if let Some(path) = args.path("--ids-binary") {
        let bytes = files::read(path, 8 * (MAX_IDS + 1), &Progress::none())?;
        let (eights, rest) = bytes.as_chunks();
        if !rest.is_empty() {
            return Err(Error::file(path, format!("is not whole u64s: it has {} bytes", bytes.len())));
        }
        return Ok(Some(eights.iter().map(|eight| u64::from_le_bytes(*eight)).collect()));
    }
    args.path("--ids").map(lines_of_ids).transpose()
}

fn lines_of_ids(path: &Path) -> Result<Vec<u64>, Error> {
    let mut reader = BufReader::new(files::open(path)?);
    let (mut ids, mut line, mut number) = (Vec::new(), Vec::new(), 0u64);
    while ids.len() <= MAX_IDS {
        line.clear();
        // No line of an id is nearly as long; a longer one fails below.
        let read = reader.by_ref().take(4096).read_until(b'\n', &mut line).map_err(|error| Error::io(path, &error))?;
        if read == 0 {
            break;
        }
        number += 1;
        let word = String::from_utf8_lossy(line.trim_ascii());
        if !word.is_empty() {
            let id = args::number(&word)
                .map_err(|problem| Error::file(path, format!("line {number}: `{}` {problem}", text::safe(&word))))?;
            ids.push(id);
        }
    }
    ids.shrink_to_fit();
    Ok(ids)
}

#[cfg(test)]
mod tests {
    use super::*;

    #[test]
    fn numbers_are_the_nearest_f32s() {
        assert_eq!(numbers("0.1, -2\t3e-1\n"), Ok(vec![0.1, -2.0, 0.3]));
        assert_eq!(numbers(" "), Ok(vec![]));
        for wrong in ["1 x", "nan", "inf", "1e39", "0x1"] {
            assert!(numbers(wrong).is_err(), "{wrong}");
        }
    }
    #[test]
    fn text_is_told_from_f32s() {
        assert!(is_text(b"0.5 1\r\n"));
        assert!(is_text(b"[1, 2]"));
        assert!(!is_text(&1.0f32.to_le_bytes()));
        assert!(!is_text(b""));
    }
}
