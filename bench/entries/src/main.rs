//! Times the archive's entries beside the Rust's at default flags, on the same random data, in alternated runs of the thread's processor
//! time, and prints the tables of docs/SPEED.md:
//!
//!     entries [--runs N] [--peer FILE] [library | search | growth | ROWSxDIMENSIONS] ..
//!     entries export DIRECTORY [ROWSxDIMENSIONS ..]
//!
//! Without words it prints all. `export` writes the vectors and queries of the libraries, by rising id, for another program to time.
mod library;
#[path = "../../src/random.rs"]
mod random;
mod search;
mod table;
#[path = "../../src/timing.rs"]
mod timing;

use library::Library;
use random::Rng;
use search::SIZES;
use std::fs;
use table::{Line, Peer, floor};
use vecnook::Metric;

const SHAPES: [(usize, usize); 6] = [(100_000, 128), (100_000, 100), (100_000, 17), (10_000, 1024), (1_000_000, 32), (1_000_000, 8)];
const METRICS: [Metric; 3] = [Metric::SquaredL2, Metric::Cosine, Metric::InnerProduct];

fn main() {
    let mut words: Vec<String> = std::env::args().skip(1).collect();
    if words.first().is_some_and(|word| word == "export") {
        return export(&words[1], &shapes(&words[2..]));
    }
    let mut value = |name: &str| {
        let at = words.iter().position(|word| word == name)?;
        words.remove(at);
        Some(words.remove(at))
    };
    let runs = value("--runs").map_or(11, |runs| runs.parse().unwrap());
    let peers = value("--peer").and_then(|file| fs::read_to_string(file).ok()).map(|text| Peer::read(&text)).unwrap_or_default();
    // words that are no shape name parts
    let (named, parts): (Vec<String>, Vec<String>) = words.into_iter().partition(|word| word.starts_with(|c: char| c.is_ascii_digit()));
    let asked = |part: &str| parts.is_empty() || parts.iter().any(|word| word == part);
    let shapes = shapes(&named);
    machine();
    if asked("library") {
        println!("\n## Library check, preparing, opening, building\n\nSquared L2.\n");
        let mut lines = Vec::new();
        for &(rows, dimensions) in &shapes {
            for line in Library::new(rows, dimensions, Metric::SquaredL2).entries(runs) {
                lines.push(Line { what: format!("{rows} × {dimensions}, {}", line.what), ..line });
            }
        }
        table::print(&lines);
    }
    if asked("search") {
        for &(rows, dimensions) in &shapes {
            println!("\n## Searches of {rows} × {dimensions}\n");
            let of = |metric| search::searches(&Library::new(rows, dimensions, metric), runs, &SIZES, &peers);
            table::print_metrics(&METRICS.map(Metric::name), &METRICS.map(of));
        }
    }
    if asked("growth") {
        println!("\n## Growth, measured\n\nSquared L2; searches of k 10 and limit 10. Ours in nanoseconds a row.\n");
        growth(runs);
    }
}

/// Those named, or all.
fn shapes(named: &[String]) -> Vec<(usize, usize)> {
    let mut shapes = SHAPES.to_vec();
    shapes.retain(|(rows, dimensions)| named.is_empty() || named.contains(&format!("{rows}x{dimensions}")));
    shapes
}

/// Processor, cores, and the bandwidth of the reading loop over bytes that fit each cache and over bytes that fit none.
fn machine() {
    let info = fs::read_to_string("/proc/cpuinfo").unwrap_or_default();
    let model = info.lines().find_map(|line| line.strip_prefix("model name")).map_or("?", |name| name.trim_start_matches([' ', '\t', ':']));
    println!("{model}, {} cores", info.lines().filter(|line| line.starts_with("processor")).count());
    for bytes in [32 << 10, 1 << 20, 64 << 20, 1 << 30] {
        let data = vec![1u8; bytes];
        let parts: Vec<&[u8]> = (0..(16usize << 20).div_ceil(bytes)).map(|_| &data[..]).collect();
        println!("- reading {} KiB: {:.1} GB/s", bytes >> 10, (bytes * parts.len()) as f64 / floor(&parts));
    }
}

fn growth(runs: usize) {
    println!("| | library check | prepare | open | build | cached | resident | agreement |");
    println!("|---|---|---|---|---|---|---|---|");
    for (rows, dimensions) in
        [(10_000, 32), (100_000, 32), (1_000_000, 32), (20_000, 8), (20_000, 32), (20_000, 128), (20_000, 512), (20_000, 2048)]
    {
        let mut library = Library::new(rows, dimensions, Metric::SquaredL2);
        let mut lines = library.entries(runs);
        lines.extend(search::searches(&library, runs, &SIZES[..1], &[]).into_iter().filter(|line| !line.what.contains("tenth")));
        let cells: Vec<String> = lines.iter().map(|line| format!("{:.1}", line.times.ours.median / rows as f64)).collect();
        println!("| {rows} × {dimensions} | {} |", cells.join(" | "));
    }
}

fn export(directory: &str, shapes: &[(usize, usize)]) {
    for &(rows, dimensions) in shapes {
        let library = Library::new(rows, dimensions, Metric::SquaredL2);
        let mut vectors = Vec::with_capacity(4 * rows * dimensions);
        for id in library.ids() {
            let record = library.snapshot.get(id).unwrap().unwrap();
            vectors.extend(record.vector.iter().flat_map(|x| x.to_le_bytes()));
        }
        fs::write(format!("{directory}/{rows}x{dimensions}"), vectors).unwrap();
        let mut rng = Rng(7);
        let queries: Vec<u8> = (0..search::QUERIES * dimensions).flat_map(|_| rng.normal().to_le_bytes()).collect();
        fs::write(format!("{directory}/{rows}x{dimensions}.queries"), queries).unwrap();
    }
}
