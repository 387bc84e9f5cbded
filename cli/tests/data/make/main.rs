//! Writes the data of the program's tests into the folder named, by the published Rust. README.md says what each file is.
#[path = "../../cli/copy.rs"]
mod copy;

use copy::copy;
use std::{
    fmt::Write,
    fs,
    path::{Path, PathBuf},
};
use vecnook::{
    Config, EmbeddingSpace, Metric, Neighbor,
    generation::{
        CachedQuantizedSnapshot, GenerationSearchReport, PublishOptions, Publisher, QuantizedCacheOptions,
        ScalarKernel, Snapshot,
    },
};

/// Where the store stands while the Rust writes it, and where the tests put it: its cache names this root.
const HOME: &str = "/dev/shm/pivatsohy-test";

/// SplitMix64.
struct Rng(u64);
impl Rng {
    fn next(&mut self) -> u64 {
        self.0 = self.0.wrapping_add(0x9e37_79b9_7f4a_7c15);
        let mut z = self.0;
        z = (z ^ (z >> 30)).wrapping_mul(0xbf58_476d_1ce4_e5b9);
        z = (z ^ (z >> 27)).wrapping_mul(0x94d0_49bb_1331_11eb);
        z ^ (z >> 31)
    }
    fn vector(&mut self, dimensions: usize) -> Vec<f32> {
        let unit = |bits: u64| (bits >> 40) as f32 / (1 << 24) as f32;
        (0..dimensions).map(|_| (0..12).map(|_| unit(self.next())).sum::<f32>() - 6.0).collect()
    }
}

type Stroke = (u64, String, Vec<f32>);

fn publish(root: &Path, metric: Metric, sequence: u64, strokes: &[Stroke], bytes: usize, before: usize) -> Snapshot {
    let dimensions = strokes[0].2.len();
    let space = EmbeddingSpace::new("pump é", dimensions, metric);
    let mut publisher = Publisher::create(root, Config::new(dimensions).with_metric(metric), space).unwrap();
    let mut add = |count: usize, sequence| {
        let mut builder = publisher.begin(sequence, PublishOptions::default().with_segment_bytes(bytes)).unwrap();
        for (id, metadata, vector) in &strokes[..count] {
            builder.add(*id, vector, metadata).unwrap();
        }
        builder.commit().unwrap()
    };
    if before > 0 {
        add(before, 1);
    }
    add(strokes.len(), sequence)
}

/// The list program's output.
fn plain(snapshot: &Snapshot, report: &GenerationSearchReport) -> String {
    let ids: Vec<u64> = snapshot.ids().collect();
    let mut out = format!(
        "generation {} sequence {} eligible {} measured {} complete {} approximate {}\n",
        report.generation,
        report.sequence,
        report.eligible_count,
        report.original_distance_computations,
        u8::from(report.complete),
        u8::from(report.approximate)
    );
    for (place, found) in report.neighbors.iter().enumerate() {
        let row = ids.binary_search(&found.id).unwrap();
        writeln!(out, "{} {} {:016x} {row}", place + 1, found.id, found.distance.to_bits()).unwrap();
    }
    out
}

/// Lists by the Rust, of all ids and of those handed in, and the places at which they and the exact list have the same id.
fn lists(out: &Path, snapshot: &Snapshot, cached: &CachedQuantizedSnapshot, query: &[f32], wanted: &[u64]) {
    let mut agreements = String::new();
    for (k, limit) in [(0, 0), (1, 1), (3, 5), (10, 10), (20, 30), (100, 1000)] {
        for ids in [None, Some(wanted)] {
            let (found, again, name) = match ids {
                None => (cached.search(query, k, limit), snapshot.quantize().unwrap().search(query, k, limit), ""),
                Some(ids) => (
                    cached.search_ids(query, k, limit, &ScalarKernel, ids),
                    snapshot.quantize().unwrap().search_ids(query, k, limit, &ScalarKernel, ids),
                    "-ids",
                ),
            };
            let (found, again) = (found.unwrap(), again.unwrap());
            assert_eq!(plain(snapshot, &found), plain(snapshot, &again));
            fs::write(out.join(format!("list-{k}-{limit}{name}")), plain(snapshot, &found)).unwrap();
            let exact = snapshot
                .search_filtered(query, k, &ScalarKernel, |id, _| ids.is_none_or(|ids| ids.contains(&id)))
                .unwrap();
            let same = found.neighbors.iter().zip(&exact.neighbors).filter(|(a, b)| a.id == b.id).count();
            writeln!(agreements, "{k} {limit} {} {same} {}", u8::from(ids.is_some()), found.neighbors.len()).unwrap();
            if (k, name) == (100, "") {
                let words = |n: &Neighbor| match n.metadata.len() {
                    length if length > 100 => format!("{}\t{length} bytes\n", n.id),
                    _ => format!("{}\t{:?}\n", n.id, n.metadata),
                };
                fs::write(out.join("metadata"), found.neighbors.iter().map(words).collect::<String>()).unwrap();
            }
        }
    }
    fs::write(out.join("agreements"), agreements).unwrap();
}

/// A field of CSV, quoted where it must be and where `always`.
fn field(words: &str, always: bool) -> String {
    if always || words.contains([',', '"', '\n', '\r']) {
        format!("\"{}\"", words.replace('"', "\"\""))
    } else {
        words.into()
    }
}

fn main() {
    let out = PathBuf::from(std::env::args().nth(1).expect("the folder of the data"));
    for name in ["store", "cache", "packed", "expected"] {
        let _ = fs::remove_dir_all(out.join(name));
        fs::create_dir(out.join(name)).unwrap();
    }
    let home = Path::new(HOME);
    let _ = fs::remove_dir_all(home);
    fs::create_dir(home).unwrap();

    // A store of two segments: forty strokes with short metadata, four with long. Their first coordinate is so much larger than the
    // others that the codes tell little, and the list often differs from the exact one.
    let mut rng = Rng(11);
    let rough = |mut vector: Vec<f32>| {
        vector[0] += 200.0;
        vector
    };
    let odd =
        ["", "pump 7, valve \"B\"", "\u{1b}[31mred\u{7}\t\\", "größe 널 \u{1f600}", "\u{202e}turned\n\u{9b}", "\0"];
    let strokes: Vec<Stroke> = (0..44)
        .map(|n| {
            let metadata = if n < 40 { odd[n % odd.len()].into() } else { format!("{n}").repeat(8192) };
            (if n == 9 { u64::MAX } else { rng.next() >> 1 }, metadata, rough(rng.vector(6)))
        })
        .collect();
    let store = home.join("store");
    let snapshot = publish(&store, Metric::SquaredL2, 7, &strokes, 64 * 1024, 3);
    assert_eq!((snapshot.generation(), snapshot.segment_count()), (3, 2));
    let cache = home.join("cache");
    snapshot.prepare_quantized_cache(&cache, QuantizedCacheOptions::default()).unwrap();
    let query = rough(rng.vector(6));
    fs::write(out.join("query.f32"), query.iter().flat_map(|x| x.to_le_bytes()).collect::<Vec<u8>>()).unwrap();
    fs::write(out.join("query.txt"), query.iter().map(|x| format!("{x} ")).collect::<String>() + "\n").unwrap();
    let mut wanted: Vec<u64> = strokes.iter().step_by(3).map(|stroke| stroke.0).collect();
    wanted.extend([5, wanted[0]]);
    fs::write(out.join("ids.txt"), wanted.iter().map(|id| format!("{id}\n")).collect::<String>()).unwrap();
    let cached = snapshot.quantize_cached(&cache, QuantizedCacheOptions::default()).unwrap();
    lists(&out.join("expected"), &snapshot, &cached, &query, &wanted);
    drop(cached);
    copy(&store, &out.join("store"));
    copy(&cache, &out.join("cache"));

    // What `pack` must write of a file of strokes: the publisher's own manifest and segment.
    let strokes: Vec<Stroke> = (0..25)
        .map(|n| {
            (
                rng.next() >> (n * 2),
                odd[n % odd.len()].into(),
                rng.vector(5).iter().map(|x| x * 10f32.powi(n as i32 - 12)).collect(),
            )
        })
        .collect();
    let mut csv = String::new();
    for (n, (id, metadata, vector)) in strokes.iter().enumerate() {
        let numbers: String =
            vector.iter().map(|x| if n % 2 == 0 { format!(",{x}") } else { format!(", {x:e}") }).collect();
        csv += &format!("{id},{}{numbers}{}", field(metadata, n % 5 == 1), if n % 3 == 0 { "\r\n" } else { "\n" });
        if n % 7 == 3 {
            csv += "\n";
        }
    }
    fs::write(out.join("strokes.csv"), csv).unwrap();
    let packed = publish(&home.join("packed"), Metric::Cosine, 9, &strokes, 64 * 1024 * 1024, 0);
    assert_eq!((packed.generation(), packed.segment_count()), (2, 1));
    let folder = home.join("packed/gen-0000000000000002");
    for (from, to) in [("MANIFEST", "MANIFEST"), ("segment-0000.bin", "SEGMENTS")] {
        fs::copy(folder.join(from), out.join("packed").join(to)).unwrap();
    }
    drop((snapshot, packed));
    fs::remove_dir_all(home).unwrap();
}
