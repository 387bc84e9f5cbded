//! The Rust's side: stores laid out from bytes, and document 01's number for each of its errors.
use crate::library::{Written, seal, u32_at, u64_at};
use std::{
    fs,
    os::unix::ffi::OsStrExt,
    path::{Path, PathBuf},
};
use vecnook::{Error, ErrorKind, Result, generation::Snapshot};

fn sealed(parts: &[&[u8]]) -> Vec<u8> {
    let mut out = parts.concat();
    out.extend([0; 4]);
    seal(&mut out);
    out
}

/// A store at a path, its files written from a library's bytes.
pub struct Store {
    pub root: PathBuf,
    generation: PathBuf,
}
impl Store {
    /// All but STORE and the segments. `expected_crc` is what CURRENT names. The Rust has no generation 0: its manifest lies in 1's directory.
    pub fn lay(root: PathBuf, written: &Written, expected_crc: u32) -> Self {
        let _ = fs::remove_dir_all(&root);
        let number = u64_at(&written.manifest, 8).max(1);
        let generation = root.join(format!("gen-{number:016x}"));
        fs::create_dir_all(&generation).unwrap();
        fs::write(root.join("GATE"), b"").unwrap();
        fs::write(generation.join("LEASE"), b"").unwrap();
        fs::write(generation.join("MANIFEST"), &written.manifest).unwrap();
        fs::write(root.join("CURRENT"), sealed(&[b"VECCUR01", &number.to_le_bytes(), &expected_crc.to_le_bytes()])).unwrap();
        Store { root, generation }
    }
    /// What the Rust says of the manifest alone. It reads STORE first and wants it to agree with the manifest; one that agrees with none is
    /// written here, so that an accepted manifest is refused as another store's.
    pub fn manifest(&self) -> Option<Error> {
        let none = [1u32, 2, 2, 0, 0].map(u32::to_le_bytes).concat();
        fs::write(self.root.join("STORE"), sealed(&[b"VECSTOR1", &none, &[0], &1u32.to_le_bytes(), b"?"])).unwrap();
        match Snapshot::open(&self.root) {
            Err(error) if text(&error) == "generation identity/configuration mismatch" => None,
            Err(error) => Some(error),
            Ok(_) => panic!("a library of the model `?`"),
        }
    }
    /// Opens the store of an accepted manifest. The last file takes the bytes left over, so that the Rust sees a wrong length.
    pub fn open(&self, written: &Written) -> Result<Snapshot> {
        self.agreeing(&written.manifest);
        let mut rest = &written.segments[..];
        let parts = written.parts();
        for (n, &(_, length)) in parts.iter().enumerate() {
            let cut = if n + 1 == parts.len() { rest.len() } else { length.min(rest.len()) };
            fs::write(self.segment(n), &rest[..cut]).unwrap();
            rest = &rest[cut..];
        }
        Snapshot::open(&self.root)
    }
    /// Writes the STORE that agrees with a manifest.
    pub fn agreeing(&self, manifest: &[u8]) {
        let model = u32_at(manifest, 45) as usize;
        fs::write(self.root.join("STORE"), sealed(&[b"VECSTOR1", &manifest[24..49 + model]])).unwrap();
    }
    pub fn segment(&self, number: usize) -> PathBuf {
        self.generation.join(format!("segment-{number:04}.bin"))
    }
    pub fn bytes(&self) -> &[u8] {
        self.root.as_os_str().as_bytes()
    }
}

/// A directory with a cache of these bytes.
pub fn lay_cache(directory: &Path, cache: &[u8]) {
    fs::create_dir_all(directory).unwrap();
    fs::write(directory.join("LEASE"), b"VECSQ8L1").unwrap();
    fs::write(directory.join("DATA"), cache).unwrap();
}

/// The `ErrorKind` that document 01 has for a number.
pub fn kind(number: u32) -> ErrorKind {
    match number {
        7 | 10 | 13 | 16..=19 | 24 => ErrorKind::InvalidInput,
        8 | 9 => ErrorKind::Capacity,
        _ => ErrorKind::Corrupt,
    }
}
fn text(error: &Error) -> &str {
    match error {
        Error::Corrupt(text) | Error::InvalidInput(text) => text,
        Error::Capacity { resource, .. } => resource,
        _ => "",
    }
}
/// What was asked of the Rust when it refused.
#[derive(Clone, Copy, Debug)]
pub enum Stage {
    Manifest,
    Segments,
    Cache,
    Search,
}
/// Document 01's number, told from the text of the Rust's error.
pub fn number(stage: Stage, error: &Error) -> u32 {
    match (stage, text(error)) {
        (Stage::Manifest, "unsupported generation metric")
        | (Stage::Manifest, "invalid generation model length")
        | (Stage::Manifest, "invalid generation model UTF-8")
        | (Stage::Manifest, "invalid generation configuration")
        | (Stage::Manifest, "invalid generation identity") => 2,
        (Stage::Manifest, "file checksum mismatch") | (Stage::Manifest, "CURRENT/manifest checksum binding mismatch") => 3,
        (Stage::Manifest, "overlapping or missing segment rows") | (Stage::Manifest, "segment coverage mismatch") => 4,
        (Stage::Manifest, _) => 1,
        (Stage::Segments, "file checksum mismatch") | (Stage::Segments, "segment/manifest checksum binding mismatch") => 6,
        (Stage::Segments, _) => 5,
        (Stage::Cache, "invalid SQ8 cache disk/buffer bounds") => 7,
        (Stage::Cache, "SQ8 code bytes") => 8,
        (Stage::Cache, "SQ8 cache bytes including lease") => 9,
        (Stage::Cache, "SQ8 source path exceeds bound") => 10,
        (Stage::Cache, "SQ8 cache length/source mismatch") | (Stage::Cache, "unsupported SQ8 cache") => 12,
        (Stage::Cache, "invalid SQ8 code") | (Stage::Cache, "invalid SQ8 scale/norm") | (Stage::Cache, "zero cosine SQ8 code") => 14,
        (Stage::Cache, "file checksum mismatch") => 15,
        (Stage::Cache, s) if s.starts_with("SQ8 cache identity differs") => 13,
        (Stage::Search, "generation K exceeds 10000") => 17,
        (Stage::Search, "SQ8 candidate limit must be K..=65536") => 18,
        (Stage::Search, "eligible ID list exceeds generation record bound") => 19,
        (Stage::Search, "non-finite cached candidate distance") => 22,
        (Stage::Search, "coordinates must be finite (no NaN/infinity)") | (Stage::Search, "cosine requires a nonzero vector") => 16,
        (Stage::Search, s) if s.starts_with("expected ") => 16,
        (stage, _) => panic!("no number for this at {stage:?}: {error}"),
    }
}
