//! The crate root of the published sources, whose own lib.rs is not published. The modules included first are the unchanged text; what is
//! written out below them stands in for missing files. A stand-in is a bare type or stops the program: of all of them only `Neighbor` is
//! reached.
#![allow(dead_code, unused_imports)]

include!(concat!(env!("OUT_DIR"), "/modules.rs"));

pub use collection::EmbeddingSpace;
pub use config::{Config, Metric};
pub use error::{Error, ErrorKind, Result};
pub use index::{Record, VectorIndex};

/// Ways in to what is `pub(crate)`.
pub mod inside {
    use crate::{Metric, math};
    pub fn crc32(bytes: &[u8]) -> u32 {
        crate::storage::crc32(bytes)
    }
    pub fn distance(metric: Metric, query: &[f32], vector: &[f32]) -> f64 {
        math::distance(metric, &math::Query::new(query, metric), vector, norm(metric, vector))
    }
    pub fn distance_four(metric: Metric, query: &[f32], vectors: [&[f32]; 4]) -> [f64; 4] {
        let norms = vectors.map(|v| norm(metric, v));
        math::distance_four(metric, &math::Query::new(query, metric), vectors, norms)
    }
    fn norm(metric: Metric, vector: &[f32]) -> f64 {
        if metric == Metric::Cosine { math::inverse_norm(vector) } else { 0.0 }
    }
}

/// For the programs that run it beside the archive.
pub mod beside {
    use crate::generation::GenerationSearchReport;
    use std::{
        env, fs,
        path::{Path, PathBuf},
    };

    /// A directory under the system's temporary one, removed when dropped: the first of NAME-0 to NAME-9 that is not there yet, so that one
    /// program after the other has the same path, which a cache's identity holds.
    pub struct Temp(pub PathBuf);
    impl Temp {
        pub fn new(name: &str) -> Self {
            let mut paths = (0..10).map(|n| env::temp_dir().join(format!("{name}-{n}")));
            let path = paths.find(|path| fs::create_dir(path).is_ok()).expect("no directory can be made under TMPDIR");
            Temp(fs::canonicalize(path).unwrap())
        }
    }
    impl Drop for Temp {
        fn drop(&mut self) {
            let _ = fs::remove_dir_all(&self.0);
        }
    }

    /// Manifest and segments of the first generation that was published at `root` after the empty one.
    pub fn published(root: &Path) -> (Vec<u8>, Vec<u8>) {
        let directory = root.join("gen-0000000000000002");
        let parts = (0..).map(|n| directory.join(format!("segment-{n:04}.bin"))).take_while(|file| file.exists());
        (fs::read(directory.join("MANIFEST")).unwrap(), parts.flat_map(|file| fs::read(file).unwrap()).collect())
    }

    /// A report as the archive has it: generation, sequence, eligible, measured, complete, approximate, count.
    pub fn numbers(report: &GenerationSearchReport) -> [u64; 7] {
        [
            report.generation,
            report.sequence,
            report.eligible_count as u64,
            report.original_distance_computations as u64,
            report.complete.into(),
            report.approximate.into(),
            report.neighbors.len() as u64,
        ]
    }
}

/// The text of `EmbeddingSpace`, cut from collection.rs.
mod collection {
    use crate::{Config, Error, Metric, Result};
    include!(concat!(env!("OUT_DIR"), "/embedding_space.rs"));
}

// ---- stand-ins ----

/// One result, as generation.rs builds it.
#[derive(Clone, Debug, PartialEq)]
pub struct Neighbor {
    pub id: u64,
    pub distance: f64,
    pub metadata: String,
}
/// As storage.rs takes it apart.
pub enum Mutation<'a> {
    Put { id: u64, vector: &'a [f32], metadata: &'a str },
    Delete { id: u64 },
}
pub struct BatchReport;
pub struct SearchOptions;
pub struct SearchReason;
pub struct SearchStrategy;
mod rng {
    pub struct Rng;
}
/// The published head of index.rs, which has `Record`, and what storage.rs wants besides.
mod index {
    include!(concat!(env!("OUT_DIR"), "/index.rs"));

    impl Record {
        pub(crate) fn encoded_len(&self) -> usize {
            unimplemented!()
        }
    }
    pub struct GraphState;
    pub struct VectorIndex;
    pub struct Capacity {
        pub physical_nodes: usize,
    }
    impl VectorIndex {
        pub fn config(&self) -> &Config {
            unimplemented!()
        }
        pub fn len(&self) -> usize {
            unimplemented!()
        }
        pub fn capacity(&self) -> Capacity {
            unimplemented!()
        }
        pub fn records(&self) -> std::slice::Iter<'_, Record> {
            unimplemented!()
        }
    }
}
mod graph {
    use crate::{Config, Result, VectorIndex, index::GraphState};
    use std::path::Path;
    pub fn write(_: &Path, _: &VectorIndex, _: u64, _: u32) -> Result<()> {
        unimplemented!()
    }
    pub fn read(_: &Path, _: &Config, _: u64, _: u32, _: usize) -> Result<GraphState> {
        unimplemented!()
    }
}
