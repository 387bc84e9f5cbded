//! Both searches of all ids and of a random tenth, beside `search` and `search_ids` of the Rust's `CachedQuantizedSnapshot` and
//! `QuantizedSnapshot`, and the agreement count beside the Rust's search and exact search, from which it is worked out. Queries of standard
//! normal coordinates, in turn. First both are held to agree on two of them: ids, distance bits, metadata and report.
//!
//! The Rust's cache and segments are files: it reads the cache in blocks of 1 MiB and each candidate's record by a call of its own.
use crate::{
    library::Library,
    random::Rng,
    table::{Line, Peer, floor},
    timing::processor_times,
};
use archive::{Lent, Rows, Search};
use std::cell::Cell;
use vecnook::{
    Result,
    beside::numbers,
    generation::{GenerationSearchReport, QuantizedCacheOptions, ScalarKernel},
};

pub const QUERIES: usize = 5;
/// k and limit.
pub const SIZES: [(usize, usize); 5] = [(10, 10), (10, 1000), (1000, 1000), (10, 65_536), (1000, 65_536)];

/// The slices that a search writes, made once.
struct Room {
    id_work: Vec<u64>,
    work: [Vec<u64>; 2],
    answers: [Vec<u64>; 3],
    distances: Vec<f64>,
    lengths: Vec<u32>,
    report: [u64; 7],
    agreement: [u64; 1],
}
impl Room {
    fn new(k: usize, limit: usize, wanted: usize) -> Self {
        Room {
            id_work: vec![0; wanted],
            work: [(); 2].map(|()| vec![0; limit]),
            answers: [(); 3].map(|()| vec![0; k]),
            distances: vec![0.0; k],
            lengths: vec![0; k],
            report: [0; 7],
            agreement: [0],
        }
    }
    fn call(&mut self, search: &Search, agreement: bool) {
        let [keys, candidates] = &mut self.work;
        let [ids, rows, starts] = &mut self.answers;
        let (id_work, distances, lengths) = (&mut self.id_work[..], &mut self.distances[..], &mut self.lengths[..]);
        let mut lent = Lent { id_work, keys, candidates, ids, distances, rows, starts, lengths };
        let mut place = 0;
        let number = if agreement {
            archive::agreement(search, &mut lent, &mut self.agreement, &mut place)
        } else {
            archive::search(search, &mut lent, &mut self.report, &mut place)
        };
        assert_eq!((number, place), (0, 0));
    }
    fn agrees(&self, segments: &[u8], found: &GenerationSearchReport) {
        assert_eq!(self.report, numbers(found));
        let [ids, _, starts] = &self.answers;
        for (n, neighbor) in found.neighbors.iter().enumerate() {
            assert_eq!((ids[n], self.distances[n].to_bits()), (neighbor.id, neighbor.distance.to_bits()), "place {n}");
            let metadata = &segments[starts[n] as usize..][..self.lengths[n] as usize];
            assert_eq!(metadata, neighbor.metadata.as_bytes(), "place {n}");
        }
    }
}

type Answer = Result<GenerationSearchReport>;

/// `peers` are another program's times of these searches of all ids, with the rows in memory.
pub fn searches(library: &Library, runs: usize, sizes: &[(usize, usize)], peers: &[Peer]) -> Vec<Line> {
    let mut rng = Rng(7);
    let queries: Vec<Vec<f32>> = (0..QUERIES).map(|_| (0..library.dimensions).map(|_| rng.normal()).collect()).collect();
    let mut ids = library.ids();
    for n in 0..library.rows / 10 {
        ids.swap(n, n + (rng.next() % (library.rows - n) as u64) as usize);
    }
    ids.truncate(library.rows / 10);
    let options = QuantizedCacheOptions::default();
    let cached = library.snapshot.quantize_cached(library.directory(), options).unwrap();
    let resident = library.snapshot.quantize().unwrap();
    let cached_search = |s: &Search| match s.wanted {
        None => cached.search(s.query, s.k, s.limit),
        Some(ids) => cached.search_ids(s.query, s.k, s.limit, &ScalarKernel, ids),
    };
    let resident_search = |s: &Search| match s.wanted {
        None => resident.search(s.query, s.k, s.limit),
        Some(ids) => resident.search_ids(s.query, s.k, s.limit, &ScalarKernel, ids),
    };
    let of_cache = Rows::Cached { state: &library.cache_state, cache: &library.cache };
    let of_resident =
        Rows::Resident { state: &library.resident_state, codes: &library.codes, scales: &library.scales, norms: &library.norms };
    // one reading of the rows, and of the records that are measured
    let floors = [floor(&[library.cached_rows()]), floor(&library.resident_rows())];
    let records = floor(&[&library.segments]);
    let ways: [(&str, Rows, &dyn Fn(&Search) -> Answer, f64); 2] =
        [("cached", of_cache, &cached_search, floors[0]), ("resident", of_resident, &resident_search, floors[1])];
    let mut lines = Vec::new();
    for &(k, limit) in sizes {
        for wanted in [None, Some(&ids[..])] {
            for (name, rows, theirs, floor) in ways {
                let of = |query| Search { manifest: &library.manifest, segments: &library.segments, rows, wanted, query, k, limit };
                let mut room = Room::new(k, limit, wanted.map_or(0, <[u64]>::len));
                for query in &queries[..2] {
                    room.call(&of(query), false);
                    room.agrees(&library.segments, &theirs(&of(query)).unwrap());
                }
                let turn = |at: &Cell<usize>| &queries[at.replace((at.get() + 1) % QUERIES)][..];
                let (mine, its) = (Cell::new(0), Cell::new(0));
                let times = processor_times(runs, 1, || room.call(&of(turn(&mine)), false), || drop(theirs(&of(turn(&its))).unwrap()));
                let part = if wanted.is_some() { ", a tenth" } else { "" };
                let floor = floor + records * room.report[3] as f64 / library.rows as f64;
                let timed = wanted.is_none() && name == "resident";
                let peer = peers.iter().find(|p| timed && p.is(library, k, limit)).map(|p| p.milliseconds * 1e6);
                lines.push(Line { what: format!("{name}, k {k}, limit {limit}{part}"), times, floor, peer });
            }
        }
    }
    let (k, limit) = (10, 1000);
    let of = |query| Search { manifest: &library.manifest, segments: &library.segments, rows: of_cache, wanted: None, query, k, limit };
    let mut room = Room::new(k, limit, 0);
    let worked_out = |query: &[f32]| {
        let (list, exact) = (cached.search(query, k, limit).unwrap(), library.snapshot.search_exact(query, k).unwrap());
        list.neighbors.iter().zip(&exact.neighbors).filter(|(a, b)| a.id == b.id).count() as u64
    };
    for query in &queries[..2] {
        room.call(&of(query), true);
        assert_eq!(room.agreement[0], worked_out(query));
    }
    let (mine, its) = (Cell::new(0), Cell::new(0));
    let turn = |at: &Cell<usize>| &queries[at.replace((at.get() + 1) % QUERIES)][..];
    let times = processor_times(runs, 1, || room.call(&of(turn(&mine)), true), || _ = worked_out(turn(&its)));
    lines.push(Line { what: format!("agreement cached, k {k}, limit {limit}"), times, floor: floors[0] + records, peer: None });
    lines
}
