//! One library, undamaged: its check, its cache, its resident rows, its searches.
use crate::{
    library::{self, Kind, METRICS, Plan, Rng, Written},
    ours::{Cached, Check, Found, Lent, Listed, Ours, Refusal, Resident, Short, holds, same},
    store::{self, Stage, Store},
};
use archive::{Place, Record, Rows, Search};
use std::{collections::BTreeSet, fs, path::Path};
use vecnook::{
    Config, EmbeddingSpace, Error, Metric, Result, beside,
    generation::{
        CachedQuantizedSnapshot, GenerationSearchReport, PublishOptions, Publisher, QuantizedCacheOptions, QuantizedSnapshot, ScalarKernel,
        Snapshot,
    },
    inside,
};

pub const PLATFORM: &str = std::env::consts::OS;

/// A library and what the Rust has of it.
pub struct Library {
    pub plan: Plan,
    pub written: Written,
    pub store: Store,
    pub snapshot: Snapshot,
    /// Rising, as the rows are.
    pub ids: Vec<u64>,
    pub options: QuantizedCacheOptions,
    /// The Rust's cache.
    pub cache: Vec<u8>,
}
impl Library {
    pub fn place(&self) -> Place<'_> {
        place(self.store.bytes(), self.options)
    }
    pub fn facts(&self) -> String {
        let Plan { metric, dimensions, kind, segments, .. } = &self.plan;
        format!("{} rows × {dimensions}, {}, {kind:?}, {} segments", self.ids.len(), metric.name(), segments.len())
    }
    fn metric(&self) -> u32 {
        METRICS.iter().position(|&m| m == self.plan.metric).unwrap() as u32
    }
}
pub fn place(root: &[u8], options: QuantizedCacheOptions) -> Place<'_> {
    Place { platform: PLATFORM.as_bytes(), root, max_cache_bytes: options.max_cache_bytes, buffer_bytes: options.buffer_bytes }
}

/// By the Rust's publisher, which makes no segment under 64 KiB but the last and numbers its generations from 2.
fn published(rng: &mut Rng, root: &Path, plan: &Plan) -> Written {
    let config = Config::new(plan.dimensions).with_metric(plan.metric).with_m(plan.m as usize).with_ef_construction(plan.ef as usize);
    let space = EmbeddingSpace::new(plan.model.clone(), plan.dimensions, plan.metric);
    let mut publisher = Publisher::create(root, config.with_seed(plan.seed), space).unwrap();
    let bytes = rng.pick(&[64 << 10, 64 << 10, 100_000]);
    let mut builder = publisher.begin(plan.sequence, PublishOptions::default().with_segment_bytes(bytes)).unwrap();
    for row in &plan.rows {
        builder.add(row.id, &row.vector, &row.metadata).unwrap();
    }
    drop(builder.commit().unwrap());
    let (manifest, segments) = beside::published(root);
    Written { manifest, segments }
}

pub fn library(rng: &mut Rng, temp: &Path) -> Library {
    let mut plan = Plan::random(rng);
    let name = rng.pick(&["s", "store", "sto re", "zé널"]);
    let written = if rng.once_in(24) {
        plan.generation = 2;
        published(rng, &temp.join("published"), &plan)
    } else {
        plan.written()
    };
    let _ = fs::remove_dir_all(temp.join("published"));
    laid(temp.join(name), plan, written)
}
/// The library of these bytes, which the Rust accepts.
pub fn laid(root: std::path::PathBuf, plan: Plan, written: Written) -> Library {
    let store = Store::lay(root, &written, written.stored_crc());
    let snapshot = store.open(&written).unwrap();
    let ids = snapshot.ids().collect();
    Library { plan, written, store, snapshot, ids, options: QuantizedCacheOptions::default(), cache: Vec::new() }
}

/// Ours against the Rust's: both accept, or ours refuses by the number of the Rust's error and that number's kind.
pub fn judged(ours: Refusal, stage: Stage, theirs: Option<&Error>) -> Check {
    match theirs {
        None if ours.0 == 0 => Ok(()),
        Some(error) if ours.0 == store::number(stage, error) && error.kind() == store::kind(ours.0) => Ok(()),
        _ => Err(format!("{stage:?}: ours {} at {}, the Rust's {theirs:?}", ours.0, ours.1)),
    }
}

/// The check, sizing, preparing, opening and building.
pub fn entries(ours: &mut Ours, library: &mut Library, lent: &Lent, temp: &Path) -> Check<(Cached, Resident)> {
    let (refusal, head) = ours.manifest_check(lent, false)?;
    judged(refusal, Stage::Manifest, None)?;
    ours.tally.answer("manifest check", 0);
    let (refusal, again) = ours.library_check(lent, false)?;
    judged(refusal, Stage::Segments, None)?;
    holds("manifest and library check return one head", *head == *again)?;
    ours.tally.answer("library check", 0);
    let rows = library.ids.len();
    if rows > 0 && ours.rng.once_in(4) {
        let refusals = [ours.manifest_check(lent, true)?.0, ours.library_check(lent, true)?.0];
        same("a short scratch", &refusals, &[(11, 0); 2])?;
        ours.tally.rule("11");
    }

    // the Rust's own size, from a cache with the default limit, and then at times the least limit that lets it pass
    let directory = temp.join("cache");
    let _ = fs::remove_dir_all(&directory);
    let dimensions = library.plan.dimensions;
    if ours.rng.once_in(3) {
        library.options =
            library.options.with_buffer_bytes(ours.rng.pick(&[dimensions + 16, dimensions + 17, 3 * dimensions + 50, 16 << 20]));
    }
    let info = library.snapshot.prepare_quantized_cache(&directory, library.options).unwrap();
    if ours.rng.once_in(3) {
        library.options = library.options.with_max_cache_bytes(info.cache_bytes + 8);
    }
    library.cache = fs::read(directory.join("DATA")).unwrap();
    let size = library.cache.len();
    let (refusal, ours_size) = ours.cache_size(lent, library.place())?;
    judged(refusal, Stage::Cache, None)?;
    same("cache size", &ours_size, &(info.cache_bytes as u64))?;
    ours.tally.answer("cache size", 0);
    let slack = ours.rng.pick(&[0, 0, 1, 100]);
    let (refusal, ours_info, cache) = ours.prepare(lent, library.place(), size + slack)?;
    judged(refusal, Stage::Cache, None)?;
    let theirs = [info.generation, info.sequence, info.cache_bytes as u64, info.code_bytes as u64, info.parameter_bytes as u64];
    same("info", &ours_info, &theirs)?;
    if cache[..size] != library.cache {
        let at = (0..size).find(|&n| cache[n] != library.cache[n]).unwrap();
        return Err(format!("cache bytes: byte {at} of {size} is {}, the Rust's {}", cache[at], library.cache[at]));
    }
    holds("bytes past the cache's size stay", ours.stays(&cache[size..]))?;
    ours.tally.answer("prepare", 0);
    ours.tally.values("caches", 1);
    ours.tally.cache_bytes += size as u64;
    ours.tally.values("info", 5);
    if ours.rng.once_in(4) {
        let short = ours.rng.below(size);
        let refusal = ours.prepare(lent, library.place(), short)?.0;
        same("a short cache", &refusal, &(11, 0))?;
        ours.tally.rule("11");
    }

    drop(library.snapshot.quantize_cached(&directory, library.options).unwrap());
    let (refusal, cached) = ours.open(lent, library.place(), &library.cache, false)?;
    judged(refusal, Stage::Cache, None)?;
    ours.tally.answer("open", 0);

    let used = [rows * dimensions, rows, rows];
    let lengths = used.map(|n| n + ours.rng.pick(&[0, 0, 3]));
    let (refusal, resident) = ours.build(lent, lengths, used)?;
    judged(refusal, Stage::Cache, None)?;
    let first = size - 4 - rows * (dimensions + 16);
    for (n, row) in library.cache[first..size - 4].chunks_exact(dimensions + 16).enumerate() {
        let codes = &resident.codes[n * dimensions..][..dimensions];
        let parameters = (resident.scales[n].to_bits(), resident.norms[n] as u64);
        same("scale and norm of a resident row", &parameters, &(library::u64_at(row, 0), library::u64_at(row, 8)))?;
        holds("codes of a resident row", row[16..].iter().zip(codes).all(|(&theirs, &ours)| theirs as i8 == ours))?;
    }
    ours.tally.answer("build", 0);
    ours.tally.values("resident rows", rows);
    if rows > 0 && ours.rng.once_in(4) {
        let mut short = used;
        let which = ours.rng.below(3);
        short[which] = ours.rng.below(used[which]);
        let refusal = ours.build(lent, short, used)?.0;
        same("a short resident slice", &refusal, &(11, 0))?;
        ours.tally.rule("11");
    }
    Ok((cached, resident))
}

/// What is asked of all four searches.
pub struct Question {
    pub query: Vec<f32>,
    pub k: usize,
    pub limit: usize,
    pub wanted: Option<Vec<u64>>,
}
/// Mostly one that is answered.
pub fn question(rng: &mut Rng, library: &Library) -> Question {
    let (plan, rows) = (&library.plan, library.ids.len());
    let mut query = match rng.below(6) {
        0 if rows > 0 => plan.rows[rng.below(rows)].vector.clone(),
        1 => library::vector(rng, Kind::Mixed, plan.metric, plan.dimensions),
        _ => library::vector(rng, plan.kind, plan.metric, plan.dimensions),
    };
    let mut k = rng.pick(&[0, 1, 1, 2, 5, 10, 10, rows / 2, rows, rows + 3, 100]);
    let mut limit = k + rng.pick(&[0, 0, 0, 1, 3, 10, rows / 8, rows, 1000]);
    let wanted = rng.once_in(2).then(|| {
        let known = if rows == 0 { 0 } else { rng.pick(&[0, 1, rows / 10, rows / 2, rows, 2 * rows]) };
        let unknown = rng.pick(&[0, 1, 5]);
        let mut ids: Vec<u64> = (0..known).map(|_| library.ids[rng.below(rows)]).collect();
        for _ in 0..unknown {
            let id = rng.next() >> rng.pick(&[0, 24, 44]);
            ids.insert(rng.below(ids.len() + 1), id);
        }
        ids
    });
    if rng.once_in(10) {
        match rng.below(7) {
            0 => k = rng.pick(&[10_001, usize::MAX]),
            1 => limit = rng.pick(&[65_537, usize::MAX]),
            2 => (k, limit) = (k + 1, k),
            3 => query = vec![0.0; plan.dimensions],
            4 => query.truncate(rng.below(plan.dimensions)),
            5 => query.push(1.0),
            _ => {
                let at = rng.below(plan.dimensions);
                query[at] = rng.pick(&[f32::NAN, f32::INFINITY, f32::NEG_INFINITY, -0.0]);
            }
        }
    }
    Question { query, k, limit, wanted }
}

/// The Rust's rows, cached or resident.
pub enum Theirs<'a> {
    Cached(CachedQuantizedSnapshot<'a>),
    Resident(QuantizedSnapshot<'a>),
}
impl Theirs<'_> {
    fn search(&self, q: &Question) -> Result<GenerationSearchReport> {
        match (self, &q.wanted) {
            (Self::Cached(rows), None) => rows.search(&q.query, q.k, q.limit),
            (Self::Cached(rows), Some(ids)) => rows.search_ids(&q.query, q.k, q.limit, &ScalarKernel, ids),
            (Self::Resident(rows), None) => rows.search(&q.query, q.k, q.limit),
            (Self::Resident(rows), Some(ids)) => rows.search_ids(&q.query, q.k, q.limit, &ScalarKernel, ids),
        }
    }
}

/// A search and its agreement count against the Rust's.
pub fn searched(ours: &mut Ours, library: &Library, lent: &Lent, rows: Rows, theirs: &Theirs, q: &Question) -> Check<Found> {
    both(ours, library, lent, rows, theirs, q).map_err(|difference| {
        let ids = q.wanted.as_ref().map_or("all ids".into(), |ids| format!("{} ids", ids.len()));
        format!("{difference}\n  k {}, limit {}, {ids}", q.k, q.limit)
    })
}
fn both(ours: &mut Ours, library: &Library, lent: &Lent, rows: Rows, theirs: &Theirs, q: &Question) -> Check<Found> {
    let search = Search {
        manifest: &lent.manifest,
        segments: &lent.segments,
        rows,
        wanted: q.wanted.as_deref(),
        query: &q.query,
        k: q.k,
        limit: q.limit,
    };
    let answer = theirs.search(q);
    let count = library.ids.len();
    let found = ours.search(search, count, false, Short::None)?;
    let agreed = ours.search(search, count, true, Short::None)?;
    let (entry, agreement_entry) = match (theirs, &q.wanted) {
        (Theirs::Cached(_), None) => ("search cached", "agreement cached"),
        (Theirs::Cached(_), Some(_)) => ("search cached of ids", "agreement cached of ids"),
        (Theirs::Resident(_), None) => ("search resident", "agreement resident"),
        (Theirs::Resident(_), Some(_)) => ("search resident of ids", "agreement resident of ids"),
    };
    judged(found.refusal, Stage::Search, answer.as_ref().err())?;
    judged(agreed.refusal, Stage::Search, answer.as_ref().err())?;
    ours.tally.answer(entry, found.refusal.0);
    ours.tally.answer(agreement_entry, agreed.refusal.0);
    let Ok(answer) = answer else { return Ok(found) };
    same("report", &found.report, &beside::numbers(&answer))?;
    ours.tally.values("report", 7);
    for found in [&found, &agreed] {
        listed(library, &lent.segments, &found.list, &answer)?;
        for what in ["ids", "distance bits", "rows", "metadata"] {
            ours.tally.values(what, answer.neighbors.len());
        }
    }
    // the same ids at the same places of the Rust's list and of its exact search
    let allowed: Option<BTreeSet<u64>> = q.wanted.as_ref().map(|ids| ids.iter().copied().collect());
    let exact = library
        .snapshot
        .search_filtered(&q.query, q.k, &ScalarKernel, |id, _| allowed.as_ref().is_none_or(|ids| ids.contains(&id)))
        .unwrap();
    let alike = answer.neighbors.iter().zip(&exact.neighbors).filter(|(a, b)| a.id == b.id).count();
    same("agreement", &agreed.agreement, &(alike as u64))?;
    ours.tally.values("agreement counts", 1);
    if alike < answer.neighbors.len() {
        ours.tally.values("agreement counts under k", 1);
    }
    Ok(found)
}
/// Place by place.
fn listed(library: &Library, segments: &[u8], list: &[Listed], answer: &GenerationSearchReport) -> Check {
    same("places listed", &list.len(), &answer.neighbors.len())?;
    for (n, (ours, theirs)) in list.iter().zip(&answer.neighbors).enumerate() {
        let row = library.ids.binary_search(&theirs.id).unwrap() as u64;
        same(
            &format!("id, distance bits and row of place {n}"),
            &(ours.id, ours.bits, ours.row),
            &(theirs.id, theirs.distance.to_bits(), row),
        )?;
        let metadata = segments.get(ours.start as usize..).and_then(|rest| rest.get(..ours.length as usize));
        same(&format!("metadata of place {n}"), &metadata, &Some(theirs.metadata.as_bytes()))?;
    }
    Ok(())
}

/// Four distances in one call, on records of the library and on vectors that are refused.
pub fn four(ours: &mut Ours, library: &Library) -> Check {
    let plan = &library.plan;
    let rows = plan.rows.len();
    if rows == 0 {
        return Ok(());
    }
    let query = library::vector(ours.rng, plan.kind, plan.metric, plan.dimensions);
    let vectors = [0; 4].map(|_| &plan.rows[ours.rng.below(rows)].vector[..]);
    let (number, bits) = ours.four(library.metric(), &query, vectors)?;
    let theirs = inside::distance_four(plan.metric, &query, vectors).map(f64::to_bits);
    same("four distances", &(number, bits), &(0, theirs))?;
    let single = vectors.map(|v| inside::distance(plan.metric, &query, v).to_bits());
    same("four single distances", &bits, &single)?;
    ours.tally.answer("four distances", 0);
    ours.tally.values("distance bits", 4);
    if ours.rng.once_in(2) {
        let mut five = [&query[..], vectors[0], vectors[1], vectors[2], vectors[3]].map(<[f32]>::to_vec);
        let which = ours.rng.below(5);
        let at = ours.rng.below(plan.dimensions);
        let mut metric = library.metric();
        match ours.rng.below(if plan.metric == Metric::Cosine { 5 } else { 4 }) {
            0 => five[which].truncate(at),
            1 => five[which].push(0.5),
            2 => metric = ours.rng.pick(&[3, u32::MAX]),
            3 => five[which][at] = ours.rng.pick(&[f32::NAN, f32::INFINITY, f32::NEG_INFINITY]),
            _ => five[which].fill(-0.0),
        }
        let answer = ours.four(metric, &five[0], [&five[1], &five[2], &five[3], &five[4]])?;
        same("four distances refused", &answer, &(16, [0; 4]))?;
        ours.tally.rule("16 of four distances");
    }
    Ok(())
}

/// A list as a slice of records; one too short is 20.
pub fn records(ours: &mut Ours, list: &[Listed]) -> Check {
    let slack = ours.rng.pick(&[0, 1, 4]);
    let (number, records) = ours.records(list, list.len(), list.len() + slack)?;
    let expected: Vec<Record> = list.iter().map(|p| Record { distance: f64::from_bits(p.bits), id: p.id, row: p.row }).collect();
    same("records", &(number, records), &(0, expected))?;
    ours.tally.rule("records");
    let (count, length) =
        if list.is_empty() || ours.rng.once_in(2) { (list.len() + 1, list.len() + 9) } else { (list.len(), list.len() - 1) };
    same("records refused", &ours.records(list, count, length)?.0, &20)?;
    ours.tally.rule("20 of records");
    Ok(())
}

/// A call with one slice too short: 20 where the Rust answers, or its own refusal.
pub fn short(ours: &mut Ours, library: &Library, lent: &Lent, rows: Rows, theirs: &Theirs, q: &Question) -> Check {
    let count = library.ids.len();
    let wanted = q.wanted.as_deref();
    if q.limit.min(count) == 0 && wanted.is_none_or(<[u64]>::is_empty) {
        return Ok(());
    }
    let search = Search { manifest: &lent.manifest, segments: &lent.segments, rows, wanted, query: &q.query, k: q.k, limit: q.limit };
    let answer = theirs.search(&Question { query: q.query.clone(), k: q.k, limit: q.limit, wanted: Some(Vec::new()) });
    let expected = answer.err().map_or(20, |error| store::number(Stage::Search, &error));
    let agreement = ours.rng.once_in(2);
    same("a short slice", &ours.search(search, count, agreement, Short::Any)?.refusal, &(expected, 0))?;
    ours.tally.rule("20");
    Ok(())
}
