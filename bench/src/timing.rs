//! Ratios of times, for this program and bench/entries; each uses a part.
#![allow(dead_code)]
use std::time::Instant;

pub fn record(v: &[f32]) -> Vec<u8> {
    v.iter().flat_map(|x| x.to_le_bytes()).collect()
}

/// The median, and what a tenth of the runs stay below and above.
#[derive(Clone, Copy)]
pub struct Spread {
    pub median: f64,
    pub low: f64,
    pub high: f64,
}
impl Spread {
    fn of(mut runs: Vec<f64>) -> Self {
        runs.sort_by(f64::total_cmp);
        let tenth = runs.len() / 10;
        Spread { median: runs[runs.len() / 2], low: runs[tenth], high: runs[runs.len() - 1 - tenth] }
    }
}

/// Over alternated runs, each of some calls: ours / theirs, and the nanoseconds of a call of each.
#[derive(Clone, Copy)]
pub struct Times {
    pub ratio: Spread,
    pub ours: Spread,
    pub theirs: Spread,
}

pub fn times(runs: usize, calls: u32, ours: impl FnMut(), theirs: impl FnMut()) -> Times {
    let start = Instant::now();
    times_by(|| start.elapsed().as_nanos() as f64, runs, calls, ours, theirs)
}

/// The same of the thread's processor time, which other programs disturb less. It counts what the kernel does for the thread, such as copying
/// a file's pages, and no waiting.
pub fn processor_times(runs: usize, calls: u32, ours: impl FnMut(), theirs: impl FnMut()) -> Times {
    times_by(processor_time, runs, calls, ours, theirs)
}

/// Nanoseconds of the thread's processor time (Linux, CLOCK_THREAD_CPUTIME_ID).
fn processor_time() -> f64 {
    unsafe extern "C" {
        fn clock_gettime(clock: i32, time: *mut [i64; 2]) -> i32;
    }
    let mut time = [0; 2];
    assert_eq!(unsafe { clock_gettime(3, &mut time) }, 0);
    time[0] as f64 * 1e9 + time[1] as f64
}

fn times_by(clock: impl Fn() -> f64, runs: usize, calls: u32, mut ours: impl FnMut(), mut theirs: impl FnMut()) -> Times {
    let timed = |f: &mut dyn FnMut()| {
        let start = clock();
        for _ in 0..calls {
            f();
        }
        (clock() - start) / f64::from(calls)
    };
    timed(&mut ours);
    timed(&mut theirs);
    let mut all = [Vec::new(), Vec::new(), Vec::new()];
    for run in 0..runs {
        let (a, b) = if run % 2 == 0 {
            let a = timed(&mut ours);
            (a, timed(&mut theirs))
        } else {
            let b = timed(&mut theirs);
            (timed(&mut ours), b)
        };
        all[0].push(a / b);
        all[1].push(a);
        all[2].push(b);
    }
    let [ratio, ours, theirs] = all.map(Spread::of);
    Times { ratio, ours, theirs }
}

/// The median of ours / theirs.
pub fn ratio(ours: impl FnMut(), theirs: impl FnMut()) -> f64 {
    times(41, 4, ours, theirs).ratio.median
}
