//! `prepare`: writes the cache of a library.
#![forbid(unsafe_code)]
use crate::{
    args::{Args, Spec},
    error::Error,
    ffi, files,
    files::Temporary,
    library::{self, Kind},
    progress::Progress,
    text,
};
use std::{
    fs::{self, File, OpenOptions, TryLockError},
    io::Read,
    path::Path,
};

pub const SPEC: Spec =
    Spec { arguments: &["LIBRARY", "CACHE"], optional: false, flags: &["--force"], values: &["--platform", "--root"] };

const LEASE: &[u8; 8] = b"VECSQ8L1";
const MAGIC: &[u8; 8] = b"VECSQ801";

pub fn run(args: &Args) -> Result<(), Error> {
    let (folder, target) = (args.argument(0), args.argument(1));
    let progress = Progress::new();
    let mut library = library::open(folder, &progress)?;
    let place = library::place(args, &library)?;
    // What stands in the way is told before the work.
    let (file, _lock) = match library.kind {
        Kind::Folder => (target.to_path_buf(), None),
        Kind::Store => (target.join("DATA"), managed(folder, target)?),
    };
    replaceable(&file, args.has("--force"))?;
    progress.stage(&format!("encoding {}", text::counted(library.head.rows as u64, "row")), 0);
    let (manifest, segments, _, scratch) = library.lent();
    let (cache, info) = ffi::cache_prepare(manifest, segments, &place, scratch)?;
    match library.kind {
        Kind::Store if !files::exists(target)? => write_folder(target, &cache, &progress)?,
        Kind::Store => {
            // vecnook's own word for a cache that is not yet whole.
            write(&file, "pending", &cache, &progress)?;
        }
        Kind::Folder => write(&file, "tmp", &cache, &progress)?,
    }
    drop(progress);
    text::print(&format!(
        "{}: {}, generation {}, sequence {}, {} of {}\n",
        text::path(&file),
        text::counted(info.cache_bytes, "byte"),
        info.generation,
        info.sequence,
        text::counted(library.head.rows as u64, "stroke"),
        text::grouped(library.head.dimensions as u64)
    ))
}

fn write(target: &Path, word: &str, cache: &[u8], progress: &Progress) -> Result<(), Error> {
    let (temporary, mut file) = Temporary::new(target, word, files::create)?;
    files::write(temporary.path(), &mut file, cache, progress)?;
    temporary.rename()
}

/// A new cache folder of vecnook: LEASE and DATA.
fn write_folder(target: &Path, cache: &[u8], progress: &Progress) -> Result<(), Error> {
    let (temporary, ()) = Temporary::new(target, "tmp", |path| fs::create_dir(path))?;
    for (name, bytes) in [("LEASE", LEASE.as_slice()), ("DATA", cache)] {
        files::write_new(&temporary.path().join(name), bytes, progress)?;
    }
    files::sync_folder(temporary.path())?;
    temporary.rename()
}

/// A store's cache lies in a folder of its own outside the store, as vecnook has it. Where the folder is there already, it must be
/// such a one, and is locked against others who read or write its cache.
fn managed(store: &Path, target: &Path) -> Result<Option<File>, Error> {
    let canonical = |path: &Path| fs::canonicalize(path).map_err(|error| Error::io(path, &error));
    let name = target.file_name().ok_or_else(|| Error::file(target, "is no name for a cache"))?;
    let (store, real) = (canonical(store)?, canonical(files::parent(target))?.join(name));
    if real.starts_with(&store) || store.starts_with(&real) {
        return Err(Error::Usage("the cache of a store must lie outside the store".into()));
    }
    if !files::exists(target)? {
        return Ok(None);
    }
    let path = target.join("LEASE");
    let is_folder = fs::symlink_metadata(target).is_ok_and(|metadata| metadata.is_dir());
    if !is_folder || !starts_with(&path, LEASE)? {
        return Err(Error::file(target, "is there and is no cache folder of vecnook, which a store's cache needs"));
    }
    let lease = OpenOptions::new().read(true).write(true).open(&path).map_err(|error| Error::io(&path, &error))?;
    match lease.try_lock() {
        Ok(()) => Ok(Some(lease)),
        Err(TryLockError::WouldBlock) => Err(Error::file(target, "is in use by another program")),
        Err(TryLockError::Error(error)) => Err(Error::io(&path, &error)),
    }
}

/// What has the name is not there, or, with `--force`, is a cache.
fn replaceable(file: &Path, force: bool) -> Result<(), Error> {
    if !files::exists(file)? {
        return Ok(());
    }
    if !force {
        return Err(Error::file(file, "is there already; --force replaces a cache"));
    }
    if !starts_with(file, MAGIC)? {
        return Err(Error::file(file, "is there and is no cache: --force replaces none but a cache"));
    }
    Ok(())
}

/// Whether there is a file that starts with these bytes.
fn starts_with(path: &Path, bytes: &[u8; 8]) -> Result<bool, Error> {
    if !files::exists(path)? {
        return Ok(false);
    }
    let mut start = [0; 8];
    Ok(files::open(path)?.read_exact(&mut start).is_ok() && start == *bytes)
}
