//! Options and arguments of a command, read by hand: `--name VALUE`, `--name=VALUE`, `-k VALUE`, `-kVALUE`, `--` and `--help`.
#![forbid(unsafe_code)]
use crate::{error::Error, text};
use std::{
    ffi::{OsStr, OsString},
    os::unix::ffi::OsStrExt,
    path::Path,
    str::FromStr,
};

/// What a command takes.
pub struct Spec {
    /// The arguments, all wanted unless `optional`.
    pub arguments: &'static [&'static str],
    pub optional: bool,
    pub flags: &'static [&'static str],
    pub values: &'static [&'static str],
}

pub struct Args {
    arguments: Vec<OsString>,
    options: Vec<(&'static str, OsString)>,
}

impl Args {
    /// The arguments, or none where help is asked for.
    pub fn read(given: impl Iterator<Item = OsString>, spec: &Spec) -> Result<Option<Self>, Error> {
        let mut args = Self { arguments: Vec::new(), options: Vec::new() };
        let mut given = given;
        let mut ended = false;
        while let Some(word) = given.next() {
            let bytes = word.as_bytes();
            if ended || bytes == b"-" || !bytes.starts_with(b"-") {
                args.arguments.push(word);
            } else if bytes == b"--" {
                ended = true;
            } else if bytes == b"--help" || bytes == b"-h" {
                return Ok(None);
            } else {
                args.option(&word, &mut given, spec)?;
            }
        }
        let (found, wanted) = (args.arguments.len(), spec.arguments.len());
        if let Some(name) = spec.arguments.get(found).filter(|_| !spec.optional) {
            return Err(Error::Usage(format!("{name} is not given")));
        }
        if let Some(extra) = args.arguments.get(wanted) {
            return Err(Error::Usage(format!("`{}` is one argument too many", text::safe(&extra.to_string_lossy()))));
        }
        Ok(Some(args))
    }
    fn option(&mut self, word: &OsStr, rest: &mut impl Iterator<Item = OsString>, spec: &Spec) -> Result<(), Error> {
        let bytes = word.as_bytes();
        let (name, joined) = if !bytes.starts_with(b"--") {
            let (name, value) = bytes.split_at(bytes.len().min(2));
            (name, Some(value).filter(|value| !value.is_empty()))
        } else {
            match bytes.iter().position(|&byte| byte == b'=') {
                Some(at) => (bytes.get(..at).unwrap_or_default(), bytes.get(at + 1..)),
                None => (bytes, None),
            }
        };
        let shown = text::safe(&String::from_utf8_lossy(name));
        let find = |names: &[&'static str]| names.iter().copied().find(|known| known.as_bytes() == name);
        let (name, value) = match (find(spec.flags), find(spec.values)) {
            (Some(_), _) if joined.is_some() => {
                return Err(Error::Usage(format!("{shown} takes no value")));
            }
            (Some(name), _) => (name, OsString::new()),
            (None, Some(name)) => {
                let next = joined.map(|value| OsStr::from_bytes(value).to_os_string()).or_else(|| rest.next());
                (name, next.ok_or_else(|| Error::Usage(format!("{shown} wants a value")))?)
            }
            (None, None) => return Err(Error::Usage(format!("there is no option {shown}"))),
        };
        if self.has(name) {
            return Err(Error::Usage(format!("{name} is given twice")));
        }
        self.options.push((name, value));
        Ok(())
    }
    pub fn has(&self, name: &str) -> bool {
        self.value(name).is_some()
    }
    pub fn value(&self, name: &str) -> Option<&OsStr> {
        self.options.iter().find(|(known, _)| *known == name).map(|(_, value)| value.as_os_str())
    }
    pub fn path(&self, name: &str) -> Option<&Path> {
        self.value(name).map(Path::new)
    }
    /// The value as text.
    pub fn text(&self, name: &str) -> Result<Option<&str>, Error> {
        self.value(name)
            .map(|value| value.to_str().ok_or_else(|| Error::Usage(format!("{name} is not UTF-8"))))
            .transpose()
    }
    /// The value as a number of the type asked for, none that is beyond it.
    pub fn number<T: FromStr>(&self, name: &str) -> Result<Option<T>, Error> {
        let Some(text) = self.text(name)? else { return Ok(None) };
        number(text).map(Some).map_err(|words| Error::Usage(format!("{name} `{}` {words}", text::safe(text))))
    }
    pub fn given(&self, place: usize) -> Option<&OsStr> {
        self.arguments.get(place).map(OsString::as_os_str)
    }
    /// The argument at a place, which is there unless the command's arguments are optional.
    pub fn argument(&self, place: usize) -> &Path {
        Path::new(self.given(place).unwrap_or_default())
    }
    /// At most one of the options is given.
    pub fn one_of(&self, names: &[&str]) -> Result<(), Error> {
        let given: Vec<_> = names.iter().copied().filter(|name| self.has(name)).collect();
        match given.as_slice() {
            [first, second, ..] => Err(Error::Usage(format!("{first} and {second} exclude each other"))),
            _ => Ok(()),
        }
    }
}

/// A decimal number of digits alone.
pub fn number<T: FromStr>(text: &str) -> Result<T, &'static str> {
    if text.is_empty() || !text.bytes().all(|byte| byte.is_ascii_digit()) {
        return Err("is not a whole number");
    }
    text.parse().map_err(|_| "is too large")
}
