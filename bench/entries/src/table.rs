//! Lines of the table, and the floor beside each: one reading of what must be read, by a plain loop in this program.
use crate::{
    library::Library,
    timing::{Times, processor_times},
};
use std::hint::black_box;

pub struct Line {
    pub what: String,
    pub times: Times,
    /// Nanoseconds.
    pub floor: f64,
    pub peer: Option<f64>,
}

/// Another program's time: `ROWS DIMENSIONS METRIC K LIMIT MILLISECONDS` on a line.
pub struct Peer {
    rows: usize,
    dimensions: usize,
    metric: String,
    k: usize,
    limit: usize,
    pub milliseconds: f64,
}
impl Peer {
    pub fn read(text: &str) -> Vec<Self> {
        text.lines()
            .map(|line| {
                let words: Vec<&str> = line.split(' ').collect();
                let number = |n: usize| words[n].parse().unwrap();
                let (rows, dimensions, k, limit) = (number(0), number(1), number(3), number(4));
                Peer { rows, dimensions, metric: words[2].into(), k, limit, milliseconds: words[5].parse().unwrap() }
            })
            .collect()
    }
    pub fn is(&self, library: &Library, k: usize, limit: usize) -> bool {
        (self.rows, self.dimensions, self.k, self.limit) == (library.rows, library.dimensions, k, limit)
            && self.metric == library.metric.name()
    }
}

/// Nanoseconds to add up these bytes as words of 8.
pub fn floor(parts: &[&[u8]]) -> f64 {
    let sum = |bytes: &[u8]| {
        let (head, words, tail) = unsafe { bytes.align_to::<u64>() };
        let odd = head.iter().chain(tail).fold(0, |sum, &byte| sum + u64::from(byte));
        words.iter().fold(odd, |sum: u64, &word| sum.wrapping_add(word))
    };
    let read = || black_box(parts).iter().for_each(|bytes| _ = black_box(sum(bytes)));
    processor_times(11, 1, || (), read).theirs.median
}

fn ms(ns: f64) -> String {
    if ns < 1e6 { format!("{:.3}", ns / 1e6) } else { format!("{:.2}", ns / 1e6) }
}
impl Line {
    /// Milliseconds, and how many floors they are.
    fn ours(&self) -> String {
        let ours = self.times.ours.median;
        format!("{} ({:.1})", ms(ours), ours / self.floor)
    }
    /// Median, and the tenth of the runs below and above.
    fn ratio(&self) -> String {
        let ratio = self.times.ratio;
        format!("{:.2} ({:.2} to {:.2})", ratio.median, ratio.low, ratio.high)
    }
}

/// One line an entry.
pub fn print(lines: &[Line]) {
    println!("| | ours, ms (floors) | Rust, ms | ours / Rust | floor, ms |");
    println!("|---|---|---|---|---|");
    for line in lines {
        println!("| {} | {} | {} | {} | {} |", line.what, line.ours(), ms(line.times.theirs.median), line.ratio(), ms(line.floor));
    }
}
/// One line a search, with the metrics side by side.
pub fn print_metrics(names: &[&str], metrics: &[Vec<Line>]) {
    print!("| |");
    names.iter().for_each(|name| print!(" {name}: ours, ms (floors) | ours / Rust | FAISS, ms |"));
    println!(" floor, ms |");
    println!("|---|{}---|", "---|---|---|".repeat(names.len()));
    for (n, line) in metrics[0].iter().enumerate() {
        print!("| {} |", line.what);
        for lines in metrics {
            print!(" {} | {} | {} |", lines[n].ours(), lines[n].ratio(), lines[n].peer.map_or(String::new(), ms));
        }
        println!(" {} |", ms(line.floor));
    }
}
