//! Progress on standard error: what is at work, once it has taken over a second, and only where standard error is a terminal.
#![forbid(unsafe_code)]
use std::{
    io::{self, IsTerminal, Write},
    sync::{Arc, Condvar, Mutex, MutexGuard, PoisonError},
    thread::{self, JoinHandle},
    time::{Duration, Instant},
};

#[derive(Default)]
struct State {
    stage: String,
    done: u64,
    total: u64,
    ended: bool,
}

#[derive(Default)]
struct Shared {
    state: Mutex<State>,
    changed: Condvar,
}
impl Shared {
    fn state(&self) -> MutexGuard<'_, State> {
        self.state.lock().unwrap_or_else(PoisonError::into_inner)
    }
}

pub struct Progress {
    shared: Arc<Shared>,
    thread: Option<JoinHandle<()>>,
}

impl Progress {
    pub fn new() -> Self {
        let shared = Arc::new(Shared::default());
        let seen = shared.clone();
        let thread =
            io::stderr().is_terminal().then(|| thread::Builder::new().spawn(move || show(&seen)).ok()).flatten();
        Self { shared, thread }
    }
    /// Progress of work too short to be told.
    pub fn none() -> Self {
        Self { shared: Arc::default(), thread: None }
    }
    /// Names what is now at work. `total` is the bytes or lines ahead, 0 where they are not known.
    pub fn stage(&self, words: &str, total: u64) {
        let mut state = self.shared.state();
        (state.stage, state.done, state.total) = (words.into(), 0, total);
    }
    pub fn done(&self, more: u64) {
        self.shared.state().done += more;
    }
    /// Takes away what stands on the terminal, before something else is written there.
    pub fn end(&mut self) {
        self.shared.state().ended = true;
        self.shared.changed.notify_all();
        if let Some(thread) = self.thread.take() {
            let _ = thread.join();
        }
    }
}
impl Drop for Progress {
    fn drop(&mut self) {
        self.end();
    }
}

fn show(shared: &Shared) {
    let start = Instant::now();
    let mut shown = 0;
    let mut state = shared.state();
    while !state.ended {
        (state, _) = shared.changed.wait_timeout(state, Duration::from_secs(1)).unwrap_or_else(PoisonError::into_inner);
        if state.ended {
            break;
        }
        let part = match state.total {
            0 => String::new(),
            total => format!(" {} %", state.done.saturating_mul(100) / total),
        };
        let line = format!("{}{part} ({} s)", state.stage, start.elapsed().as_secs());
        let _ = write!(io::stderr(), "\r{line:shown$}");
        shown = line.chars().count();
    }
    if shown > 0 {
        let _ = write!(io::stderr(), "\r{:shown$}\r", "");
    }
}
