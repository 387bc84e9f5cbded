//! Published libraries, the slices lent of them and the Rust's snapshot; and the entries that make and check them: library check, preparing,
//! opening, building. Before it is timed each is held to the Rust's answer.
//!
//! Rows of standard normal coordinates, metadata of 0 to 40 bytes (uniform) of letters and a tenth `é`, ids of 64 random bits, so that the rows
//! lie out of id order; published with the default options, so in segments of up to 16 MiB.
use crate::{
    random::Rng,
    table::{Line, floor},
    timing::processor_times,
};
use archive::{Manifest, Place};
use std::{
    cell::Cell,
    fs,
    path::{Path, PathBuf},
};
use vecnook::{
    Config, EmbeddingSpace, Metric,
    beside::{self, Temp},
    generation::{PublishOptions, Publisher, QuantizedCacheOptions, Snapshot},
};

fn publish(root: &Path, rows: usize, dimensions: usize, metric: Metric) {
    let mut rng = Rng(5);
    let space = EmbeddingSpace::new("bench", dimensions, metric);
    let mut publisher = Publisher::create(root, Config::new(dimensions).with_metric(metric), space).unwrap();
    let mut builder = publisher.begin(0, PublishOptions::default()).unwrap();
    for _ in 0..rows {
        let vector: Vec<f32> = (0..dimensions).map(|_| rng.normal()).collect();
        let (length, mut metadata) = (rng.next() % 41, String::new());
        while (metadata.len() as u64) < length {
            let letter = rng.next();
            let two = letter % 10 == 0 && metadata.len() as u64 + 2 <= length;
            metadata.push(if two { 'é' } else { (b'a' + (letter / 10 % 26) as u8) as char });
        }
        builder.add(rng.next(), &vector, &metadata).unwrap();
    }
    drop(builder.commit().unwrap());
}

/// What is lent of a library, as the entries left it.
pub struct Library {
    temp: Temp,
    pub rows: usize,
    pub dimensions: usize,
    pub metric: Metric,
    pub snapshot: Snapshot,
    pub manifest: Vec<u8>,
    pub segments: Vec<u8>,
    root: Vec<u8>,
    pub cache: Vec<u8>,
    pub cache_state: [u8; archive::CACHE_STATE],
    pub codes: Vec<i8>,
    pub scales: Vec<f64>,
    pub norms: Vec<i64>,
    pub resident_state: [u8; archive::RESIDENT_STATE],
    scratch: Vec<u64>,
}

const OPTIONS: fn() -> QuantizedCacheOptions = QuantizedCacheOptions::default;

impl Library {
    pub fn new(rows: usize, dimensions: usize, metric: Metric) -> Self {
        let temp = Temp::new("bench");
        let root = temp.0.join("store");
        publish(&root, rows, dimensions, metric);
        let (manifest, segments) = beside::published(&root);
        let mut library = Library {
            rows,
            dimensions,
            metric,
            snapshot: Snapshot::open(&root).unwrap(),
            manifest,
            segments,
            root: fs::canonicalize(&root).unwrap().into_os_string().into_encoded_bytes(),
            cache: Vec::new(),
            cache_state: [0; archive::CACHE_STATE],
            codes: vec![0; rows * dimensions],
            scales: vec![0.0; rows],
            norms: vec![0; rows],
            resident_state: [0; archive::RESIDENT_STATE],
            scratch: vec![0; rows],
            temp,
        };
        library.snapshot.prepare_quantized_cache(library.directory(), OPTIONS()).unwrap();
        let theirs = fs::read(library.directory().join("DATA")).unwrap();
        library.cache = vec![0; theirs.len()];
        library.check();
        library.prepare();
        library.open();
        library.build();
        assert!(library.cache == theirs, "the caches differ");
        // building is held to the cache's rows
        let end = theirs.len() - 4;
        for (n, row) in theirs[end - rows * (dimensions + 16)..end].chunks_exact(dimensions + 16).enumerate() {
            let parameters = [library.scales[n].to_le_bytes(), library.norms[n].to_le_bytes()].concat();
            let codes = &library.codes[n * dimensions..][..dimensions];
            assert!(row[..16] == parameters && row[16..].iter().zip(codes).all(|(&a, &b)| a as i8 == b), "row {n}");
        }
        library
    }
    /// Of the Rust's cache.
    pub fn directory(&self) -> PathBuf {
        self.temp.0.join("cache")
    }
    /// The cache's rows.
    pub fn cached_rows(&self) -> &[u8] {
        let end = self.cache.len() - 4;
        &self.cache[end - self.rows * (self.dimensions + 16)..end]
    }
    pub fn resident_rows(&self) -> [&[u8]; 3] {
        fn bytes<T>(slice: &[T]) -> &[u8] {
            unsafe { slice.align_to().1 }
        }
        [bytes(&self.codes), bytes(&self.scales), bytes(&self.norms)]
    }
    pub fn ids(&self) -> Vec<u64> {
        self.snapshot.ids().collect()
    }

    fn check(&mut self) {
        let (mut head, mut place) = ([0; archive::HEAD], 0);
        let mut manifest = lent(&self.manifest, &mut self.scratch);
        assert_eq!(manifest.library_check(&self.segments, &mut head, &mut place), 0);
    }
    fn prepare(&mut self) {
        let (mut info, mut place) = ([0; 5], 0);
        let mut manifest = lent(&self.manifest, &mut self.scratch);
        assert_eq!(manifest.prepare(&self.segments, at(&self.root), &mut self.cache, &mut info, &mut place), 0);
    }
    fn open(&mut self) {
        let mut place = 0;
        let mut manifest = lent(&self.manifest, &mut self.scratch);
        assert_eq!(manifest.open(&self.cache, at(&self.root), &mut self.cache_state, &mut place), 0);
    }
    fn build(&mut self) {
        let mut place = 0;
        let mut manifest = lent(&self.manifest, &mut self.scratch);
        let number =
            manifest.build(&self.segments, &mut self.codes, &mut self.scales, &mut self.norms, &mut self.resident_state, &mut place);
        assert_eq!(number, 0);
    }

    /// The four entries beside the Rust's. The Rust works on files: its opening of a store reads all of them, preparing and building read each
    /// record by a call, and preparing writes and syncs the cache. Its snapshot was opened before, so that preparing, opening and building do
    /// not test the manifest as ours do.
    pub fn entries(&mut self, runs: usize) -> Vec<Line> {
        let (store, directory) = (self.temp.0.join("store"), self.directory());
        let fresh = Cell::new(0);
        let next = self.temp.0.join("fresh");
        let floors = [floor(&[&self.manifest, &self.segments]), floor(&[&self.segments]), floor(&[&self.cache]), floor(&[&self.segments])];
        // the snapshot is lent to the Rust's side while ours writes the slices
        let snapshot = Snapshot::open(&store).unwrap();
        let times = [
            processor_times(runs, 1, || self.check(), || drop(Snapshot::open(&store).unwrap())),
            processor_times(
                runs,
                1,
                || self.prepare(),
                || {
                    let directory = next.join(fresh.replace(fresh.get() + 1).to_string());
                    fs::create_dir_all(&next).unwrap();
                    snapshot.prepare_quantized_cache(&directory, OPTIONS()).unwrap();
                },
            ),
            processor_times(runs, 1, || self.open(), || drop(snapshot.quantize_cached(&directory, OPTIONS()).unwrap())),
            processor_times(runs, 1, || self.build(), || drop(snapshot.quantize().unwrap())),
        ];
        let _ = fs::remove_dir_all(&next);
        ["library check", "prepare", "open", "build"]
            .iter()
            .zip(times)
            .zip(floors)
            .map(|((what, times), floor)| Line { what: what.to_string(), times, floor, peer: None })
            .collect()
    }
}
fn lent<'a>(manifest: &'a [u8], scratch: &'a mut [u64]) -> Manifest<'a> {
    let crc = u32::from_le_bytes(manifest[manifest.len() - 4..].try_into().unwrap());
    Manifest { bytes: manifest, expected_crc: crc, scratch }
}
fn at(root: &[u8]) -> Place<'_> {
    let options = OPTIONS();
    let platform = std::env::consts::OS.as_bytes();
    Place { platform, root, max_cache_bytes: options.max_cache_bytes, buffer_bytes: options.buffer_bytes }
}
