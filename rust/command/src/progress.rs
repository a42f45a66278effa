//! A sign of life on the terminal while a run takes long. Where standard
//! error is no terminal, or a dumb one, nothing is written.

use crate::paint::is_dumb;
use std::io::{self, IsTerminal, Write};
use std::sync::mpsc::{channel, RecvTimeoutError};
use std::thread;
use std::time::{Duration, Instant};

const EVERY: Duration = Duration::from_secs(1);

/// Does the work; meanwhile the seconds since its beginning are shown.
pub fn shown<T>(work: impl FnOnce() -> T) -> T {
    shown_if(true, work)
}

/// As [`shown`], if it is wanted.
pub fn shown_if<T>(is_wanted: bool, work: impl FnOnce() -> T) -> T {
    if !is_wanted || is_dumb() || !io::stderr().is_terminal() {
        return work();
    }
    let (done, wait) = channel::<()>();
    thread::scope(|scope| {
        scope.spawn(move || {
            let began = Instant::now();
            let mut written = false;
            while wait.recv_timeout(EVERY) == Err(RecvTimeoutError::Timeout) {
                let _ = write!(io::stderr(), "\rrunning, {} s", began.elapsed().as_secs());
                written = true;
            }
            if written {
                let _ = write!(io::stderr(), "\r\x1b[K");
            }
        });
        let outcome = work();
        drop(done);
        outcome
    })
}
