//! Libraries on the disk: a folder with MANIFEST and SEGMENTS, or a vecnook store. Both are read into memory and checked.
//!
//! Files are read and not mapped: what is lent to a call must not change while it runs.
#![forbid(unsafe_code)]
use crate::{
    args::Args,
    bounds::MAX_MANIFEST_BYTES,
    crc32,
    error::{Error, Refusal},
    ffi::{self, Head, Manifest, Place, Scratch},
    files,
    progress::Progress,
    text,
};
use std::{
    fs::{self, File},
    io,
    os::unix::ffi::OsStrExt,
    path::{Path, PathBuf},
};

#[derive(Clone, Copy, PartialEq, Eq)]
pub enum Kind {
    Folder,
    Store,
}

/// A library that the proved check has accepted.
pub struct Library {
    pub kind: Kind,
    pub folder: PathBuf,
    pub manifest: Vec<u8>,
    pub segments: Vec<u8>,
    pub head: Head,
    pub scratch: Scratch,
    expected_crc: u32,
}

impl Library {
    /// What is lent to a call that makes rows of it.
    pub fn lent(&mut self) -> (Manifest<'_>, &[u8], &Head, &mut Scratch) {
        let manifest = Manifest { bytes: &self.manifest, expected_crc: self.expected_crc };
        (manifest, &self.segments, &self.head, &mut self.scratch)
    }
    pub fn metric(&self) -> &'static str {
        match self.head.metric {
            0 => "squared L2",
            1 => "cosine",
            _ => "inner product",
        }
    }
}

/// Reads and checks a library.
pub fn open(folder: &Path, progress: &Progress) -> Result<Library, Error> {
    let kind = kind(folder)?;
    let pinned = match kind {
        Kind::Folder => None,
        Kind::Store => Some(Pinned::open(folder, progress)?),
    };
    let inside = pinned.as_ref().map_or(folder, |pinned| &pinned.folder);
    // One byte more than a manifest may have is enough for its refusal.
    let manifest = files::read(&inside.join("MANIFEST"), MAX_MANIFEST_BYTES + 1, progress)?;
    let own_crc = manifest.last_chunk().map_or(0, |four| u32::from_le_bytes(*four));
    let expected_crc = pinned.as_ref().map_or(own_crc, |pinned| pinned.crc);
    let lent = Manifest { bytes: &manifest, expected_crc };
    let mut scratch = Scratch::new(&manifest)?;
    progress.stage("checking the manifest", 0);
    let head = ffi::manifest_check(lent, &mut scratch)?;
    let lengths = segment_lengths(&manifest, &head)?;
    let segments = match &pinned {
        None => read_segments(&folder.join("SEGMENTS"), &lengths, progress)?,
        Some(pinned) => {
            pinned.agrees(folder, &manifest, &head)?;
            pinned.read_segments(&lengths, progress)?
        }
    };
    progress.stage(&format!("checking {}", text::counted(head.rows as u64, "row")), 0);
    let head = ffi::library_check(lent, &segments, &mut scratch)?;
    Ok(Library { kind, folder: folder.into(), manifest, expected_crc, segments, head, scratch })
}

fn kind(folder: &Path) -> Result<Kind, Error> {
    let metadata = fs::metadata(folder).map_err(|error| Error::io(folder, &error))?;
    if !metadata.is_dir() {
        return Err(Error::file(folder, "is not a folder: a library is one"));
    }
    match (files::exists(&folder.join("CURRENT"))?, files::exists(&folder.join("MANIFEST"))?) {
        (true, true) => {
            Err(Error::file(folder, "has both CURRENT, a store's, and MANIFEST, a folder's: which is meant?"))
        }
        (true, false) => Ok(Kind::Store),
        (false, true) => Ok(Kind::Folder),
        (false, false) => Err(Error::file(folder, "has neither MANIFEST nor CURRENT: it is no library")),
    }
}

/// The lengths of an accepted manifest's segments, from the table behind its counts.
fn segment_lengths(manifest: &[u8], head: &Head) -> Result<Vec<usize>, Error> {
    let table = 61 + head.model.len();
    let lengths = (0..head.segments).map(|segment| {
        let at = table + 12 * segment;
        let eight = manifest.get(at..at + 8)?.try_into().ok()?;
        usize::try_from(u64::from_le_bytes(eight)).ok()
    });
    lengths.collect::<Option<_>>().ok_or_else(|| Error::broken("the segment table"))
}
fn total(lengths: &[usize]) -> Result<usize, Error> {
    lengths.iter().try_fold(0usize, |sum, &length| sum.checked_add(length)).ok_or_else(|| Error::memory(usize::MAX))
}

/// SEGMENTS, of which one byte too many is enough for its refusal.
fn read_segments(path: &Path, lengths: &[usize], progress: &Progress) -> Result<Vec<u8>, Error> {
    files::read(path, total(lengths)?.saturating_add(1), progress)
}

/// A store's current generation, held against removal by its publisher while this is kept, as vecnook's readers hold it.
struct Pinned {
    folder: PathBuf,
    generation: u64,
    crc: u32,
    _lease: Option<File>,
}

impl Pinned {
    fn open(store: &Path, progress: &Progress) -> Result<Self, Error> {
        progress.stage("waiting for the store's publisher", 0);
        let gate = shared_lock(&store.join("GATE"))?;
        let path = store.join("CURRENT");
        let bytes = files::read(&path, 25, progress)?;
        let (generation, crc) = current(&bytes)
            .ok_or_else(|| Error::file(&path, "is damaged: it does not name a generation and its checksum"))?;
        let folder = store.join(format!("gen-{generation:016x}"));
        let lease = shared_lock(&folder.join("LEASE"))?;
        drop(gate);
        Ok(Self { folder, generation, crc, _lease: lease })
    }
    /// The manifest is the one that CURRENT and STORE speak of.
    fn agrees(&self, store: &Path, manifest: &[u8], head: &Head) -> Result<(), Error> {
        if head.generation != self.generation {
            let words = format!("is of generation {}, but CURRENT names {}", head.generation, self.generation);
            return Err(Error::file(&self.folder.join("MANIFEST"), words));
        }
        let path = store.join("STORE");
        if !files::exists(&path)? {
            return Ok(());
        }
        let mut wanted = b"VECSTOR1".to_vec();
        wanted.extend(manifest.get(24..49 + head.model.len()).unwrap_or_default());
        wanted.extend(crc32::of(&wanted).to_le_bytes());
        if files::read(&path, wanted.len() + 1, &Progress::none())? != wanted {
            return Err(Error::file(
                &path,
                "is damaged, or of another configuration or model than the generation's MANIFEST",
            ));
        }
        Ok(())
    }
    /// The segments' files, one behind the other in one buffer.
    fn read_segments(&self, lengths: &[usize], progress: &Progress) -> Result<Vec<u8>, Error> {
        let total = total(lengths)?;
        let mut segments = files::with_room(total)?;
        progress.stage(&format!("reading {}", text::path(&self.folder)), total as u64);
        for (number, &wanted) in lengths.iter().enumerate() {
            let path = self.folder.join(format!("segment-{number:04}.bin"));
            let mut file = files::open(&path)?;
            let found = files::length(&path, &file)?;
            let before = segments.len();
            if found == wanted as u64 {
                files::append(&path, &mut file, wanted, &mut segments, progress)?;
            }
            if segments.len() - before != wanted {
                // Document 01's 5 for the length of the segments; each file has its own.
                let words = format!("{} has {found} bytes, the manifest says {wanted}", text::path(&path));
                return Err(Error::Refused(Refusal { number: 5, place: 0 }, words));
            }
        }
        Ok(segments)
    }
}

/// A lock that keeps the publisher from removing what is read; none where the file is not there, since then nothing is removed.
fn shared_lock(path: &Path) -> Result<Option<File>, Error> {
    match File::open(path) {
        Ok(file) => file.lock_shared().map(|()| Some(file)).map_err(|error| Error::io(path, &error)),
        Err(error) if error.kind() == io::ErrorKind::NotFound => Ok(None),
        Err(error) => Err(Error::io(path, &error)),
    }
}

/// Generation and manifest CRC-32 of CURRENT: `VECCUR01`, u64, u32, and the CRC-32 of these.
fn current(bytes: &[u8]) -> Option<(u64, u32)> {
    let (body, crc) = bytes.split_last_chunk()?;
    let (generation, expected) = body.strip_prefix(b"VECCUR01")?.split_first_chunk()?;
    let (generation, expected) = (u64::from_le_bytes(*generation), u32::from_le_bytes(expected.try_into().ok()?));
    (crc32::of(body) == u32::from_le_bytes(*crc) && generation != 0).then_some((generation, expected))
}

/// What a library's caches are made for: `--platform` and `--root`; else a folder's PLACE; else this platform and the folder's canonical
/// path, as vecnook has them.
pub fn place(args: &Args, library: &Library) -> Result<Place, Error> {
    let path = library.folder.join("PLACE");
    let (mut platform, mut root) = (None, None);
    if library.kind == Kind::Folder && files::exists(&path)? {
        let bytes = files::read(&path, 2 * 1024 * 1024, &Progress::none())?;
        let mut parts = bytes.splitn(2, |&byte| byte == b'\n').map(<[u8]>::to_vec);
        (platform, root) = (parts.next(), parts.next());
        if root.is_none() {
            return Err(Error::file(&path, "has no newline between platform and root"));
        }
    }
    let canonical = || match fs::canonicalize(&library.folder) {
        Ok(path) => Ok(path.as_os_str().as_bytes().to_vec()),
        Err(error) => Err(Error::io(&library.folder, &error)),
    };
    let given = |name| args.value(name).map(|value| value.as_bytes().to_vec());
    Ok(Place {
        platform: given("--platform").or(platform).unwrap_or_else(|| std::env::consts::OS.into()),
        root: given("--root").or(root).map_or_else(canonical, Ok)?,
    })
}

#[cfg(test)]
mod tests {
    #[test]
    fn current_is_read_by_its_layout() {
        let mut bytes = b"VECCUR01".to_vec();
        bytes.extend(7u64.to_le_bytes());
        bytes.extend(0x1234_5678u32.to_le_bytes());
        bytes.extend(super::crc32::of(&bytes).to_le_bytes());
        assert_eq!(super::current(&bytes), Some((7, 0x1234_5678)));
        for at in 0..bytes.len() {
            let mut wrong = bytes.clone();
            wrong[at] ^= 1;
            assert_eq!(super::current(&wrong), None, "{at}");
            assert_eq!(super::current(&bytes[..at]), None, "{at}");
        }
    }
}
