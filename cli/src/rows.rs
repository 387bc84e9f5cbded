//! The rows that a search goes over: a cache's, or resident ones built from the library.
#![forbid(unsafe_code)]
use crate::{
    args::Args,
    error::Error,
    ffi::{self, Rows},
    files,
    library::{self, Library},
    progress::Progress,
    text,
};
use std::{
    fs::File,
    path::{Path, PathBuf},
};

/// By `--cache` or `--resident`; without them the folder's CACHE if it is there, else resident rows. Also words for where they are from.
pub fn of(args: &Args, library: &mut Library, progress: &Progress) -> Result<(Rows, String), Error> {
    let own = library.folder.join("CACHE");
    let cache = match args.path("--cache") {
        Some(path) => Some(path.to_path_buf()),
        None if !args.has("--resident") && files::exists(&own)? => Some(own),
        None => None,
    };
    match cache {
        Some(path) => cached(args, library, &path, progress),
        None => {
            progress.stage(&format!("encoding {}", text::counted(library.head.rows as u64, "row")), 0);
            let (manifest, segments, head, scratch) = library.lent();
            let rows = Rows::build(manifest, segments, head, scratch)?;
            Ok((rows, "resident rows".into()))
        }
    }
}

fn cached(args: &Args, library: &mut Library, path: &Path, progress: &Progress) -> Result<(Rows, String), Error> {
    let place = library::place(args, library)?;
    let (manifest, _, _, scratch) = library.lent();
    let size = ffi::cache_size(manifest, &place, scratch)?;
    let (path, lease) = data(path)?;
    // One byte too many is enough for its refusal.
    let cache = files::read(&path, size.saturating_add(1), progress)?;
    drop(lease);
    progress.stage("opening the cache", 0);
    let rows = Rows::open(manifest, cache, &place, scratch)?;
    Ok((rows, format!("the cache {}", text::path(&path))))
}

/// The file of a cache: itself, or DATA in a cache folder of vecnook, held against those who write it.
fn data(path: &Path) -> Result<(PathBuf, Option<File>), Error> {
    if !path.is_dir() {
        return Ok((path.into(), None));
    }
    let marker = path.join("LEASE");
    if !files::exists(&marker)? {
        return Ok((path.join("DATA"), None));
    }
    let lease = files::open(&marker)?;
    match lease.try_lock_shared() {
        Ok(()) => Ok((path.join("DATA"), Some(lease))),
        Err(std::fs::TryLockError::WouldBlock) => Err(Error::file(path, "is in use: its cache is being written")),
        Err(std::fs::TryLockError::Error(error)) => Err(Error::io(&marker, &error)),
    }
}
