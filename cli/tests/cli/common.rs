//! What the tests share: running the program, folders of their own, and data.
use std::{
    ffi::OsStr,
    fs,
    path::{Path, PathBuf},
    process::{Command, Stdio},
    sync::atomic::{AtomicUsize, Ordering},
};

pub use crate::copy::copy;

pub const PROGRAM: &str = env!("CARGO_BIN_EXE_pivatsohy");

/// A file of the repository.
pub fn repository(path: &str) -> PathBuf {
    Path::new(env!("CARGO_MANIFEST_DIR")).join("..").join(path)
}
/// A file of the test data; tests/data/README.md says what each is.
pub fn data(path: &str) -> PathBuf {
    repository("cli/tests/data").join(path)
}

/// What a run of the program gave.
#[derive(Debug)]
pub struct Ran {
    pub status: i32,
    pub out: String,
    pub err: String,
}
impl Ran {
    /// It ended with this status, standard output is this, and nothing stands on standard error.
    #[track_caller]
    pub fn gives(&self, out: &str) {
        assert_eq!((self.status, self.out.as_str(), self.err.as_str()), (0, out, ""));
    }
    /// It ended with 2, printed nothing, and said these words.
    #[track_caller]
    pub fn fails(&self, words: &str) {
        assert_eq!((self.status, self.out.as_str()), (2, ""), "{}", self.err);
        assert!(self.err.starts_with("pivatsohy: ") && self.err.contains(words), "{words} in {}", self.err);
        assert!(!self.err.contains("panicked"), "{}", self.err);
    }
    /// It was refused with this number and place.
    #[track_caller]
    pub fn refused(&self, number: u32, place: u64) {
        let start = format!("pivatsohy: refused {number} at {place}: ");
        assert!(self.status == 1 && self.err.starts_with(&start), "{start} in {self:?}");
    }
}

pub fn command<S: AsRef<OsStr>>(args: impl IntoIterator<Item = S>) -> Command {
    let mut command = Command::new(PROGRAM);
    command.args(args).stdin(Stdio::null());
    command
}
pub fn finish(mut command: Command) -> Ran {
    let output = command.output().unwrap();
    Ran {
        status: output.status.code().expect("the program was ended by a signal"),
        out: String::from_utf8(output.stdout).unwrap(),
        err: String::from_utf8(output.stderr).unwrap(),
    }
}
pub fn run<S: AsRef<OsStr>>(args: impl IntoIterator<Item = S>) -> Ran {
    finish(command(args))
}

/// The words of a command line and paths, as one list.
macro_rules! words {
    ($($word:expr),* $(,)?) => { [$(std::ffi::OsString::from($word)),*] };
}
/// Runs the program.
macro_rules! run {
    ($($word:expr),* $(,)?) => { crate::common::run(words![$($word),*]) };
}

/// A folder of its own, removed when dropped.
pub struct Temp(pub PathBuf);
impl Temp {
    pub fn new() -> Self {
        static NEXT: AtomicUsize = AtomicUsize::new(0);
        let name = format!("pivatsohy-{}-{}", std::process::id(), NEXT.fetch_add(1, Ordering::Relaxed));
        let path = std::env::temp_dir().join(name);
        fs::create_dir(&path).unwrap();
        Self(path)
    }
    pub fn join(&self, name: &str) -> PathBuf {
        self.0.join(name)
    }
    pub fn write(&self, name: &str, bytes: impl AsRef<[u8]>) -> PathBuf {
        let path = self.join(name);
        fs::write(&path, bytes).unwrap();
        path
    }
    /// The names in it, sorted.
    pub fn names(&self) -> Vec<String> {
        names(&self.0)
    }
}
impl Drop for Temp {
    fn drop(&mut self) {
        let _ = fs::remove_dir_all(&self.0);
    }
}

pub fn names(folder: &Path) -> Vec<String> {
    let entries = fs::read_dir(folder).unwrap();
    let mut names: Vec<_> = entries.map(|entry| entry.unwrap().file_name().into_string().unwrap()).collect();
    names.sort();
    names
}

/// A copy of the worked example of document 01.
pub fn example(temp: &Temp) -> PathBuf {
    let folder = temp.join("example");
    copy(&repository("example"), &folder);
    folder
}

/// A CSV file of strokes whose numbers are a pattern of the row and the coordinate.
pub fn strokes(temp: &Temp, rows: usize, dimensions: usize) -> PathBuf {
    let mut text = String::new();
    for row in 0..rows {
        text += &format!("{row},stroke {row}");
        for coordinate in 0..dimensions {
            text += &format!(",{}", (row * 31 + coordinate * 17) % 1000);
        }
        text += "\n";
    }
    temp.write("strokes.csv", text)
}
/// A library packed of such strokes.
pub fn packed(temp: &Temp, rows: usize, dimensions: usize) -> PathBuf {
    let (csv, library) = (strokes(temp, rows, dimensions), temp.join("library"));
    let ran = run(words!["pack", &csv, &library, "--metric", "l2", "--model", "m"]);
    assert_eq!(ran.status, 0, "{}", ran.err);
    fs::remove_file(csv).unwrap();
    library
}
