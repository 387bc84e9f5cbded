//! Files: read whole into memory of their size, and written under a temporary name that is renamed once all is on the disk.
#![forbid(unsafe_code)]
use crate::{error::Error, progress::Progress, text};
use std::{
    ffi::OsString,
    fs::{self, File, OpenOptions},
    io::{self, Read, Write},
    path::{Path, PathBuf},
};

const CHUNK: usize = 8 * 1024 * 1024;

/// A vector of zeros, or an error where the memory is not to be had.
pub fn zeros<T: Copy + Default>(count: usize) -> Result<Vec<T>, Error> {
    let mut zeros = Vec::new();
    room(&mut zeros, count)?;
    zeros.resize(count, T::default());
    Ok(zeros)
}

fn room<T>(vector: &mut Vec<T>, count: usize) -> Result<(), Error> {
    vector.try_reserve_exact(count).map_err(|_| Error::memory(count.saturating_mul(size_of::<T>())))
}

/// Opens a file for reading; a folder is none.
pub fn open(path: &Path) -> Result<File, Error> {
    let file = File::open(path).map_err(|error| Error::io(path, &error))?;
    match file.metadata() {
        Ok(metadata) if metadata.is_dir() => Err(Error::file(path, "is a folder and not a file")),
        Ok(_) => Ok(file),
        Err(error) => Err(Error::io(path, &error)),
    }
}

/// The file's length as the system has it.
pub fn length(path: &Path, file: &File) -> Result<u64, Error> {
    file.metadata().map(|metadata| metadata.len()).map_err(|error| Error::io(path, &error))
}

/// Reads a file, at most `most` bytes of it.
pub fn read(path: &Path, most: usize, progress: &Progress) -> Result<Vec<u8>, Error> {
    let words = format!("reading {}", text::path(path));
    progress.stage(&words, 0);
    let mut file = open(path)?;
    let size = usize::try_from(length(path, &file)?).unwrap_or(usize::MAX).min(most);
    progress.stage(&words, size as u64);
    let mut bytes = with_room(size)?;
    append(path, &mut file, most, &mut bytes, progress)?;
    Ok(bytes)
}

/// Appends the file's next bytes, at most `most`.
pub fn append(
    path: &Path,
    file: &mut File,
    most: usize,
    bytes: &mut Vec<u8>,
    progress: &Progress,
) -> Result<(), Error> {
    let mut left = most;
    while left > 0 {
        let next = left.min(CHUNK);
        let read = file.take(next as u64).read_to_end(bytes).map_err(|error| Error::io(path, &error))?;
        if read == 0 {
            break;
        }
        left -= read.min(left);
        progress.done(read as u64);
    }
    Ok(())
}

/// A vector with room for `count` bytes.
pub fn with_room(count: usize) -> Result<Vec<u8>, Error> {
    let mut bytes = Vec::new();
    room(&mut bytes, count)?;
    Ok(bytes)
}

/// A file or folder under a temporary name beside its own, removed when dropped unless it was renamed.
pub struct Temporary {
    path: PathBuf,
    target: PathBuf,
    renamed: bool,
}

impl Temporary {
    /// Makes it by `make` under the name `TARGET.WORD-PROCESS-NUMBER`, the first number that is free: what an interrupted process of the
    /// same number has left stays.
    pub fn new<T>(target: &Path, word: &str, make: fn(&Path) -> io::Result<T>) -> Result<(Self, T), Error> {
        let name = target.file_name().ok_or_else(|| Error::file(target, "is no name for a file"))?;
        let mut number = 0;
        loop {
            let mut name: OsString = name.into();
            name.push(format!(".{word}-{}-{number}", std::process::id()));
            let path = target.with_file_name(name);
            match make(&path) {
                Ok(made) => return Ok((Self { path, target: target.into(), renamed: false }, made)),
                Err(error) if error.kind() == io::ErrorKind::AlreadyExists && number < 1000 => number += 1,
                Err(error) => return Err(Error::io(target, &error)),
            }
        }
    }
    pub fn path(&self) -> &Path {
        &self.path
    }
    /// Gives it its own name, and sees that the disk has it.
    pub fn rename(mut self) -> Result<(), Error> {
        fs::rename(&self.path, &self.target).map_err(|error| Error::io(&self.target, &error))?;
        self.renamed = true;
        sync_folder(parent(&self.target))
    }
}
impl Drop for Temporary {
    fn drop(&mut self) {
        if !self.renamed && fs::remove_file(&self.path).is_err() {
            let _ = fs::remove_dir_all(&self.path);
        }
    }
}

/// Makes a new file.
pub fn create(path: &Path) -> io::Result<File> {
    OpenOptions::new().write(true).create_new(true).open(path)
}

/// Writes a new file, and sees that the disk has it.
pub fn write_new(path: &Path, bytes: &[u8], progress: &Progress) -> Result<(), Error> {
    let mut file = create(path).map_err(|error| Error::io(path, &error))?;
    write(path, &mut file, bytes, progress)
}

/// Writes the bytes and sees that the disk has them.
pub fn write(path: &Path, file: &mut File, bytes: &[u8], progress: &Progress) -> Result<(), Error> {
    progress.stage(&format!("writing {}", text::path(path)), bytes.len() as u64);
    for chunk in bytes.chunks(CHUNK) {
        file.write_all(chunk).map_err(|error| Error::io(path, &error))?;
        progress.done(chunk.len() as u64);
    }
    sync(path, file)
}

pub fn sync(path: &Path, file: &File) -> Result<(), Error> {
    file.sync_all().map_err(|error| Error::io(path, &error))
}

pub fn sync_folder(path: &Path) -> Result<(), Error> {
    File::open(path).and_then(|folder| folder.sync_all()).map_err(|error| Error::io(path, &error))
}

/// The folder that a path lies in.
pub fn parent(path: &Path) -> &Path {
    path.parent().filter(|parent| !parent.as_os_str().is_empty()).unwrap_or(Path::new("."))
}

/// Whether something has this name, a link to nothing too.
pub fn exists(path: &Path) -> Result<bool, Error> {
    match fs::symlink_metadata(path) {
        Ok(_) => Ok(true),
        Err(error) if matches!(error.kind(), io::ErrorKind::NotFound) => Ok(false),
        Err(error) => Err(Error::io(path, &error)),
    }
}
