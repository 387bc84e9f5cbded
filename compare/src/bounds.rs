//! The bounds of document 01: on each side of a bound the archive does as the Rust.
use crate::{
    guard::{self, PAGE},
    library::{Kind, METRICS, Plan, Rng, Written, u32_at, vector},
    ours::{Check, Lent, Ours, same},
    store::{Stage, Store},
    tally::Tally,
    whole::{self, Library, Question, Theirs},
};
use std::{fs, path::Path, time::Instant};
use vecnook::{Metric, generation::QuantizedCacheOptions, generation::Snapshot, inside::crc32};

const SEGMENT: usize = 67_108_864;

pub fn run(seed: u64, temp: &Path, tally: &mut Tally) -> Check {
    unsafe extern "C" {
        fn setrlimit(resource: i32, limit: *const [u64; 2]) -> i32;
    }
    // 1,024 segment files open at once
    unsafe { setrlimit(7, &[4096, 4096]) };
    let mut rng = Rng(seed);
    let ours = &mut Ours { rng: &mut rng, tally };
    for (n, metric) in METRICS.into_iter().enumerate() {
        let plan = plan(ours.rng, 1_000_000, [3, 8, 5][n], metric, Kind::Normal, 0);
        timed(&format!("1,000,000 rows, {}", metric.name()), || large(ours, temp, plan))?;
        let plan = plan_of_segments(ours.rng, 1024, metric);
        timed(&format!("1,024 segments, {}", metric.name()), || common(ours, temp, plan))?;
        let plan = plan_of_dimensions(ours.rng, metric);
        timed(&format!("4,096 dimensions, {}", metric.name()), || common(ours, temp, plan))?;
    }
    let mut plan = plan(ours.rng, 300, 9, Metric::SquaredL2, Kind::Normal, 0);
    for row in &mut plan.rows {
        row.metadata = ["é", "a", "널", "\u{10ffff}"][ours.rng.below(4)].repeat(16_384);
        row.metadata.truncate(16_384 / 12 * 12);
        row.metadata.extend(std::iter::repeat_n('z', 16_384 - row.metadata.len()));
    }
    timed("metadata of 16,384", || common(ours, temp, plan))?;
    timed("one more than each bound of a manifest", || over(ours, temp))?;
    // 131,072 rows of 4,096 coordinates are 536,870,912; then one row more
    timed("536,870,912 codes", || streamed(ours, temp, 131_072, 4096, 0))?;
    timed("536,875,008 codes", || too_many_codes(ours, temp))?;
    timed("segments past 2^32", || streamed(ours, temp, 368_478, 2, 12_000))
}

fn timed(what: &str, part: impl FnOnce() -> Check) -> Check {
    let start = Instant::now();
    part().map_err(|difference| format!("{what}: {difference}"))?;
    println!("{what}: {:.0} s", start.elapsed().as_secs_f64());
    Ok(())
}

fn plan(rng: &mut Rng, rows: usize, dimensions: usize, metric: Metric, kind: Kind, width: usize) -> Plan {
    let mut plan = Plan::of(rng, rows, dimensions, metric, kind, width);
    plan.model.push('m');
    plan
}
fn plan_of_segments(rng: &mut Rng, segments: usize, metric: Metric) -> Plan {
    let mut plan = plan(rng, 3 * segments, 7, metric, Kind::Mixed, 20);
    plan.segments = vec![1; segments];
    for _ in 0..2 * segments {
        let n = rng.below(segments);
        plan.segments[n] += 1;
    }
    plan
}
fn plan_of_dimensions(rng: &mut Rng, metric: Metric) -> Plan {
    let mut plan = plan(rng, 500, 4096, metric, Kind::Clusters, 9);
    for row in plan.rows.iter_mut().step_by(3) {
        row.vector = vector(rng, Kind::Mixed, metric, 4096);
    }
    plan
}

/// All that is compared of a library, with these questions.
fn compared(ours: &mut Ours, temp: &Path, mut library: Library, lent: Lent, questions: &[Question]) -> Check {
    ours.tally.libraries += 1;
    ours.tally.rows += library.ids.len() as u64;
    let (cached, resident) = whole::entries(ours, &mut library, &lent, temp)?;
    let theirs = [
        Theirs::Cached(library.snapshot.quantize_cached(temp.join("cache"), library.options).unwrap()),
        Theirs::Resident(library.snapshot.quantize().unwrap()),
    ];
    for (rows, theirs) in [cached.rows(), resident.rows()].into_iter().zip(&theirs) {
        for question in questions {
            whole::searched(ours, &library, &lent, rows, theirs, question)?;
        }
    }
    whole::four(ours, &library)
}
fn common(ours: &mut Ours, temp: &Path, plan: Plan) -> Check {
    let written = plan.written();
    let library = whole::laid(temp.join("store"), plan, written);
    let questions: Vec<Question> = (0..24).map(|_| whole::question(ours.rng, &library)).collect();
    let lent = ours.lend(&library.written, library.written.stored_crc(), library.ids.len());
    compared(ours, temp, library, lent, &questions)
}

/// k 10,000, limit 65,536 and 1,000,000 ids, and one more of each.
fn large(ours: &mut Ours, temp: &Path, mut plan: Plan) -> Check {
    plan.segments = vec![400_000, 1, 599_999];
    let written = plan.written();
    let library = whole::laid(temp.join("store"), plan, written);
    let rows = library.ids.len();
    let mut query = || vector(ours.rng, Kind::Normal, library.plan.metric, library.plan.dimensions);
    let queries: Vec<Vec<f32>> = (0..9).map(|_| query()).collect();
    let repeated = |rng: &mut Rng, count: usize| (0..count).map(|_| library.ids[rng.below(rows)]).collect::<Vec<_>>();
    let mut questions = Vec::new();
    for (query, (k, limit, ids)) in queries.into_iter().zip([
        (10_000, 65_536, None),
        (10_000, 65_536, Some(1_000_000)),
        (10_000, 10_000, None),
        (1, 1, Some(1_000_000)),
        (10, 1000, Some(100_000)),
        (0, 65_536, Some(1_000_000)),
        (10_001, 65_536, None),
        (10_000, 65_537, None),
        (10, 10, Some(1_000_001)),
    ]) {
        questions.push(Question { query, k, limit, wanted: ids.map(|count| repeated(ours.rng, count)) });
    }
    let lent = ours.lend(&library.written, library.written.stored_crc(), rows);
    compared(ours, temp, library, lent, &questions)
}

/// Manifests with one segment, row, dimension or byte too many: the Rust refuses them as ours does.
fn over(ours: &mut Ours, temp: &Path) -> Check {
    let segments = plan_of_segments(ours.rng, 1025, Metric::SquaredL2);
    let rows = plan(ours.rng, 1_000_001, 1, Metric::SquaredL2, Kind::Normal, 0);
    let dimensions = plan(ours.rng, 3, 4097, Metric::SquaredL2, Kind::Normal, 0);
    let mut metadata = plan(ours.rng, 3, 4, Metric::SquaredL2, Kind::Normal, 0);
    metadata.rows[1].metadata = "m".repeat(16_385);
    let mut model = plan(ours.rng, 3, 4, Metric::SquaredL2, Kind::Normal, 0);
    model.model = "m".repeat(513);
    // 4,093 records of 16,396 bytes, 33 of metadata and the CRC-32 are 64 MiB and 1
    let mut length = plan(ours.rng, 4093, 4096, Metric::SquaredL2, Kind::Ties, 0);
    length.rows[4092].metadata = "m".repeat(33);
    for (plan, number) in [(segments, 1), (rows, 1), (dimensions, 2), (metadata, 1), (model, 2), (length, 1)] {
        let written = plan.written();
        refused(ours, temp, &written, number)?;
    }
    // a manifest of 64 MiB goes on to its metric byte, one longer does not
    let mut written = plan(ours.rng, 1, 1, Metric::SquaredL2, Kind::Normal, 0).written();
    written.manifest[44] = 3;
    for (length, number) in [(67_108_864, 2), (67_108_865, 1)] {
        written.manifest.resize(length, 0);
        refused(ours, temp, &written, number)?;
    }
    Ok(())
}
fn refused(ours: &mut Ours, temp: &Path, written: &Written, number: u32) -> Check {
    let theirs = Store::lay(temp.join("damaged"), written, written.stored_crc()).manifest();
    let lent = ours.lend(written, written.stored_crc(), 1_000_001);
    for refusal in [ours.manifest_check(&lent, false)?.0, ours.library_check(&lent, false)?.0] {
        whole::judged(refusal, Stage::Manifest, theirs.as_ref())?;
        same("past a bound", &refusal, &(number, 0))?;
        ours.tally.answer("manifest check", number);
    }
    Ok(())
}

/// A library whose segments are files of whole pages, so that they can be lent mapped: random coordinates, `metadata` bytes in a row and
/// more in the last row of a segment.
fn mapped(temp: &Path, rng: &mut Rng, rows: usize, dimensions: usize, metadata: usize) -> (Library, Lent) {
    let plan = plan(rng, 0, dimensions, Metric::SquaredL2, Kind::Normal, 0);
    let parts = temp.join("parts");
    fs::create_dir_all(&parts).unwrap();
    let record = 12 + 4 * dimensions + metadata;
    let (mut table, mut entries, mut left) = (Vec::new(), Vec::new(), rows);
    while left > 0 {
        let count = left.min((SEGMENT - 4) / record);
        let mut part = Vec::with_capacity(SEGMENT);
        for n in 0..count {
            let more = if n + 1 == count { (count * record + 4).next_multiple_of(PAGE) - count * record - 4 } else { 0 };
            // an odd factor: distinct ids out of order
            let (id, length) = (((left - n) as u64).wrapping_mul(0x9e37_79b9_7f4a_7c15), metadata + more);
            entries.push((id, [table.len() as u32, part.len() as u32, length as u32]));
            part.extend(id.to_le_bytes());
            part.extend((length as u32).to_le_bytes());
            for _ in 0..dimensions {
                // finite, of magnitude under 2
                part.extend((rng.next() as u32 & 0xbfff_ffff).to_le_bytes());
            }
            part.extend(format!("{id:016x}").bytes().chain(std::iter::repeat(b'm')).take(length));
        }
        let crc = crc32(&part);
        part.extend(crc.to_le_bytes());
        fs::write(parts.join(table.len().to_string()), &part).unwrap();
        table.push((part.len() as u64, crc));
        left -= count;
    }
    entries.sort();
    let written = Written { manifest: plan.manifest(&table, &entries), segments: Vec::new() };
    let store = Store::lay(temp.join("store"), &written, written.stored_crc());
    store.agreeing(&written.manifest);
    for n in 0..table.len() {
        fs::rename(parts.join(n.to_string()), store.segment(n)).unwrap();
    }
    let files: Vec<fs::File> = (0..table.len()).map(|n| fs::File::open(store.segment(n)).unwrap()).collect();
    let lent = Lent {
        manifest: guard::Guarded::of(rng.side(), &written.manifest).frozen(),
        segments: guard::mapped(&files),
        expected_crc: written.stored_crc(),
        rows,
    };
    let snapshot = Snapshot::open(&store.root).unwrap();
    let ids = snapshot.ids().collect();
    (Library { plan, written, store, snapshot, ids, options: QuantizedCacheOptions::default(), cache: Vec::new() }, lent)
}
fn streamed(ours: &mut Ours, temp: &Path, rows: usize, dimensions: usize, metadata: usize) -> Check {
    let (library, lent) = mapped(temp, ours.rng, rows, dimensions, metadata);
    let mut question = |k, limit, ids: Option<Vec<u64>>| {
        let query = vector(ours.rng, Kind::Normal, Metric::SquaredL2, dimensions);
        Question { query, k, limit, wanted: ids }
    };
    let (layout, parts) = (library.written.layout(), library.written.parts());
    let segment = |row: usize| u32_at(&library.written.manifest, layout.entries + 20 * row + 8) as usize;
    let part = library.ids.iter().copied().step_by(7).collect();
    let last = (0..rows).filter(|&row| segment(row) + 1 == parts.len()).map(|row| library.ids[row]).collect();
    let questions = [question(100, 1000, None), question(1000, 2000, Some(part)), question(90, 90, Some(last))];
    println!("  {} bytes of segments, the last from {} on", lent.segments.len(), parts.last().unwrap().0);
    compared(ours, temp, library, lent, &questions)
}
/// 8 at sizing, preparing, opening and building.
fn too_many_codes(ours: &mut Ours, temp: &Path) -> Check {
    let (library, lent) = mapped(temp, ours.rng, 131_073, 4096, 0);
    let snapshot = &library.snapshot;
    let theirs = [
        snapshot.prepare_quantized_cache(temp.join("none"), library.options).err(),
        snapshot.prepare_quantized_cache(temp.join("none"), library.options).err(),
        snapshot.quantize_cached(temp.join("none"), library.options).err(),
        snapshot.quantize().err(),
    ];
    let ours_refuse = [
        ours.cache_size(&lent, library.place())?.0,
        ours.prepare(&lent, library.place(), 100)?.0,
        ours.open(&lent, library.place(), &[], false)?.0,
        ours.build(&lent, [0; 3], [0; 3])?.0,
    ];
    for (n, refusal) in ours_refuse.into_iter().enumerate() {
        whole::judged(refusal, Stage::Cache, theirs[n].as_ref())?;
        same("past a bound", &refusal, &(8, 0))?;
        ours.tally.answer(["cache size", "prepare", "open", "build"][n], 8);
    }
    Ok(())
}
