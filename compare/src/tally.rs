//! What was compared, and how often.
use std::{collections::BTreeMap, fmt::Display};

#[derive(Default)]
pub struct Tally {
    pub libraries: u64,
    pub rows: u64,
    pub calls: u64,
    /// Of all caches compared; each counts as one value.
    pub cache_bytes: u64,
    /// Answers held against the Rust's, by entry.
    answers: BTreeMap<&'static str, u64>,
    /// The values in them.
    values: BTreeMap<&'static str, u64>,
    /// Answers that the Rust does not have, held against document 01's rule.
    rules: BTreeMap<&'static str, u64>,
    numbers: BTreeMap<u32, u64>,
}
fn listed<K: Display>(counts: &BTreeMap<K, u64>) -> String {
    counts.iter().map(|(what, count)| format!("{what} {count}")).collect::<Vec<_>>().join(", ")
}
impl Tally {
    pub fn answer(&mut self, entry: &'static str, number: u32) {
        *self.answers.entry(entry).or_default() += 1;
        *self.numbers.entry(number).or_default() += 1;
    }
    pub fn values(&mut self, what: &'static str, count: usize) {
        *self.values.entry(what).or_default() += count as u64;
    }
    pub fn rule(&mut self, what: &'static str) {
        *self.rules.entry(what).or_default() += 1;
    }
    pub fn compared(&self) -> u64 {
        self.answers.values().sum()
    }
    pub fn print(&self) {
        println!("{} libraries, {} rows, {} calls of the archive", self.libraries, self.rows, self.calls);
        println!("answers equal to the Rust's: {} ({})", self.compared(), listed(&self.answers));
        println!("by number: {}", listed(&self.numbers));
        println!("values in them: {} ({})", self.values.values().sum::<u64>(), listed(&self.values));
        println!("bytes of these caches: {}", self.cache_bytes);
        println!("by document 01 alone: {} ({})", self.rules.values().sum::<u64>(), listed(&self.rules));
    }
}
