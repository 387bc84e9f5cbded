//! See README.md.
mod bounds;
mod damage;
mod guard;
mod library;
mod ours;
#[path = "../../bench/src/random.rs"]
mod random;
mod store;
mod tally;
mod whole;

use library::Rng;
use ours::{Check, Ours};
use std::{
    path::Path,
    process::ExitCode,
    sync::atomic::Ordering,
    time::{Duration, Instant},
};
use tally::Tally;
use vecnook::beside::Temp;
use whole::{Library, Theirs};

/// All that is compared of the library that a seed makes.
fn one(seed: u64, temp: &Path, tally: &mut Tally) -> Check {
    guard::SEED.store(seed, Ordering::Relaxed);
    let mut rng = Rng(seed);
    let library = whole::library(&mut rng, temp);
    let facts = library.facts();
    compared(&mut Ours { rng: &mut rng, tally }, library, temp).map_err(|difference| format!("seed {seed}: {difference}\n  {facts}"))
}
fn compared(ours: &mut Ours, mut library: Library, temp: &Path) -> Check {
    ours.tally.libraries += 1;
    ours.tally.rows += library.ids.len() as u64;
    let lent = ours.lend(&library.written, library.written.stored_crc(), library.ids.len());
    let (cached, resident) = whole::entries(ours, &mut library, &lent, temp)?;
    let theirs = [
        Theirs::Cached(library.snapshot.quantize_cached(temp.join("cache"), library.options).unwrap()),
        Theirs::Resident(library.snapshot.quantize().unwrap()),
    ];
    let rows = [cached.rows(), resident.rows()];
    for _ in 0..8 {
        let question = whole::question(ours.rng, &library);
        for (&rows, theirs) in rows.iter().zip(&theirs) {
            let found = whole::searched(ours, &library, &lent, rows, theirs, &question)?;
            if ours.rng.once_in(8) {
                whole::records(ours, &found.list)?;
                whole::short(ours, &library, &lent, rows, theirs, &question)?;
            }
        }
    }
    whole::four(ours, &library)?;
    damage::all(ours, &library, temp)?;
    damage::altered(ours, &library, &cached, &resident)
}

struct Args(Vec<String>);
impl Args {
    fn has(&self, name: &str) -> bool {
        self.0.iter().any(|a| a == name)
    }
    fn number(&self, name: &str) -> Option<u64> {
        let at = self.0.iter().position(|a| a == name)?;
        Some(self.0.get(at + 1).and_then(|v| v.parse().ok()).unwrap_or_else(|| panic!("{name} wants a number")))
    }
}

fn main() -> ExitCode {
    let args = Args(std::env::args().skip(1).collect());
    guard::report_faults();
    let temp = Temp::new("compare");
    let mut tally = Tally::default();
    let start = Instant::now();
    let first = args.number("--seed").unwrap_or(1);
    if args.has("--bounds") {
        return ended(bounds::run(first, &temp.0, &mut tally), &tally);
    }
    let seconds = args.number("--seconds").map(Duration::from_secs);
    let count = args.number("--count").unwrap_or(if seconds.is_some() { u64::MAX } else { 1000 });
    let mut seed = first;
    while seed - first < count && seconds.is_none_or(|most| start.elapsed() < most) {
        if let Err(difference) = one(seed, &temp.0, &mut tally) {
            return ended(Err(difference), &tally);
        }
        seed += 1;
    }
    println!("seeds {first} to {}, {:.0} s", seed - 1, start.elapsed().as_secs_f64());
    ended(Ok(()), &tally)
}
/// The counts, or the difference.
fn ended(check: Check, tally: &Tally) -> ExitCode {
    match check {
        Ok(()) => {
            tally.print();
            println!("{} passed, 0 failed", tally.compared());
            ExitCode::SUCCESS
        }
        Err(difference) => {
            println!("{difference}");
            println!("{} passed, 1 failed", tally.compared());
            ExitCode::FAILURE
        }
    }
}
