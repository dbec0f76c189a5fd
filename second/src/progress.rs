//! How far a long run has come, on standard error: standard output keeps the
//! results alone.

use std::sync::atomic::{AtomicU64, Ordering};
use std::sync::Mutex;
use std::time::{Duration, Instant};

/// The time between two lines, so that a short run says nothing.
const PAUSE: Duration = Duration::from_secs(5);

/// Several workers may share it.
pub struct Progress {
    what: String,
    all: u64,
    done: AtomicU64,
    said: Mutex<Instant>,
}

impl Progress {
    pub fn new(what: &str, all: u64) -> Progress {
        Progress {
            what: what.to_string(),
            all,
            done: AtomicU64::new(0),
            said: Mutex::new(Instant::now()),
        }
    }

    /// One more is done.
    pub fn step(&self) {
        let done = self.done.fetch_add(1, Ordering::Relaxed) + 1;
        let mut said = self.said.lock().expect("a worker panicked");
        if said.elapsed() >= PAUSE {
            *said = Instant::now();
            eprintln!("{}: {done} of {}", self.what, self.all);
        }
    }
}
