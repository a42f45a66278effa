//! The folders that the fuzzer writes to.

use std::fs::{self, File};
use std::os::unix::fs::FileExt;
use std::path::{Path, PathBuf};
use std::process;
use std::sync::atomic::{AtomicU64, Ordering};

/// Where failed inputs are kept.
pub fn folder() -> PathBuf {
    Path::new(env!("CARGO_MANIFEST_DIR")).join("../../target/fuzz")
}

/// A folder of a worker's own, which is removed with it. Where the process is
/// killed, by an overflown stack or from outside, it stays, and its file
/// `round` says which round was under way.
pub struct Scratch {
    folder: PathBuf,
    round: File,
}

impl Scratch {
    /// # Panics
    /// If the folder cannot be made.
    pub fn new() -> Self {
        static NEXT: AtomicU64 = AtomicU64::new(0);
        let (process, number) = (process::id(), NEXT.fetch_add(1, Ordering::Relaxed));
        let folder = folder().join(format!("worker-{process}-{number}"));
        fs::create_dir_all(&folder).expect("a folder under target/");
        let round = File::create(folder.join("round")).expect("a file under target/");
        Scratch { folder, round }
    }

    /// Says which round is under way.
    ///
    /// # Panics
    /// If that cannot be written.
    pub fn begin(&self, seed: u64, round: u64) {
        let said = format!("--seed {seed} --round {round:<20}\n");
        let outcome = self.round.write_all_at(said.as_bytes(), 0);
        outcome.expect("a file under target/");
    }

    pub fn path(&self, name: &str) -> PathBuf {
        self.folder.join(name)
    }
}

impl Drop for Scratch {
    fn drop(&mut self) {
        // What is left there harms nobody.
        let _ = fs::remove_dir_all(&self.folder);
    }
}
