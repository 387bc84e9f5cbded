//! What can go wrong, as it is told on standard error, and the exit status of each.
#![forbid(unsafe_code)]
use crate::{refusal, text};
use std::{
    io::{self, Write},
    path::Path,
};

/// A refusal of the archive: document 01's number and place.
#[derive(Clone, Copy, Debug, PartialEq, Eq)]
pub struct Refusal {
    pub number: u32,
    pub place: u64,
}

#[derive(Debug)]
pub enum Error {
    /// The archive refuses; the words name the file at fault where the number does not.
    Refused(Refusal, String),
    /// The command line is wrong.
    Usage(String),
    /// The same, with the command whose help tells more.
    UsageOf(&'static str, String),
    /// A file cannot be read or written, or is not what it must be.
    File(String),
    /// Whoever read standard output has closed it.
    Closed,
}

impl Error {
    pub fn file(path: &Path, problem: impl std::fmt::Display) -> Self {
        Self::File(format!("{}: {problem}", text::path(path)))
    }
    /// An error of reading or writing `path`.
    pub fn io(path: &Path, error: &io::Error) -> Self {
        let words = match error.kind() {
            io::ErrorKind::NotFound => "no such file or folder".into(),
            io::ErrorKind::PermissionDenied => "permission denied".into(),
            io::ErrorKind::StorageFull => "no space left on the disk".into(),
            _ => error.to_string(),
        };
        Self::file(path, words)
    }
    /// An error of writing standard output.
    pub fn output(error: &io::Error) -> Self {
        match error.kind() {
            io::ErrorKind::BrokenPipe => Self::Closed,
            _ => Self::io(Path::new("standard output"), error),
        }
    }
    pub fn memory(bytes: usize) -> Self {
        Self::File(format!("{} bytes of memory are not to be had", text::grouped(bytes as u64)))
    }
    /// The archive answered what its contract rules out.
    pub fn broken(what: &str) -> Self {
        Self::File(format!("{what} does not fit what was lent: archive and program are not of one version"))
    }
    pub fn of(self, command: &'static str) -> Self {
        match self {
            Self::Usage(words) => Self::UsageOf(command, words),
            other => other,
        }
    }
    pub fn status(&self) -> u8 {
        match self {
            Self::Closed => 0,
            Self::Refused(..) => 1,
            Self::Usage(_) | Self::UsageOf(..) | Self::File(_) => 2,
        }
    }
    /// Tells the error on standard error; where that cannot be written, the exit status alone tells it.
    pub fn tell(&self) {
        let words = match self {
            Self::Closed => return,
            Self::Refused(refused, file) => {
                let file = if file.is_empty() { String::new() } else { format!(" ({file})") };
                format!(
                    "refused {} at {}: {}{file}; {}`pivatsohy explain {}` says what to do",
                    refused.number,
                    refused.place,
                    refusal::line(refused.number),
                    refusal::place_words(*refused),
                    refused.number
                )
            }
            Self::Usage(words) => format!("{words}; `pivatsohy --help` says how it is called"),
            Self::UsageOf(command, words) => format!("{words}; `pivatsohy {command} --help` says how it is called"),
            Self::File(words) => words.clone(),
        };
        let _ = writeln!(io::stderr(), "pivatsohy: {words}");
    }
}
