//! How far a drive has come, told on a terminal.

use std::io::{stderr, IsTerminal};
use std::sync::atomic::{AtomicU64, Ordering};
use std::sync::Mutex;
use std::time::{Duration, Instant};

/// The time between two lines.
const PAUSE: Duration = Duration::from_secs(2);

pub struct Progress {
    rounds: u64,
    done: AtomicU64,
    /// When the last line was written; None where nobody would see it.
    told: Option<Mutex<Instant>>,
}

impl Progress {
    pub fn of(rounds: u64) -> Self {
        let seen = stderr().is_terminal();
        Progress {
            rounds,
            done: AtomicU64::new(0),
            told: seen.then(|| Mutex::new(Instant::now())),
        }
    }

    /// One more round is done.
    pub fn step(&self) {
        let done = self.done.fetch_add(1, Ordering::Relaxed) + 1;
        // A worker that finds another one telling goes on.
        let told = self.told.as_ref().and_then(|told| told.try_lock().ok());
        let Some(mut told) = told else {
            return;
        };
        if told.elapsed() >= PAUSE {
            *told = Instant::now();
            eprint!("\r{done} of {} rounds ", self.rounds);
        }
    }

    /// Takes the line away.
    pub fn end(&self) {
        if self.told.is_some() {
            eprint!("\r{:40}\r", "");
        }
    }
}
