//! A round in which a property does not hold.

use crate::round::Input;
use crate::scratch::folder;
use std::path::PathBuf;
use std::{fmt, fs, io};

pub struct Failure {
    pub seed: u64,
    pub round: u64,
    pub property: &'static str,
    /// What was found.
    pub fault: String,
    pub input: Input,
}

impl Failure {
    /// Writes the input to a file of its own, and gives its path.
    pub fn keep(&self) -> io::Result<PathBuf> {
        let (seed, round) = (self.seed, self.round);
        let ending = if self.input.is_text { "ws" } else { "sheet" };
        let path = folder().join(format!("failed-{seed}-{round}.{ending}"));
        fs::create_dir_all(folder())?;
        fs::write(&path, &self.input.bytes)?;
        path.canonicalize()
    }
}

/// The most characters of a fault that are shown.
const MOST: usize = 2_000;

impl fmt::Display for Failure {
    fn fmt(&self, out: &mut fmt::Formatter) -> fmt::Result {
        let (seed, round) = (self.seed, self.round);
        let fault: String = self.fault.chars().take(MOST).collect();
        writeln!(out, "FAILED: {}", self.property)?;
        writeln!(out, "  {}", fault.trim_end())?;
        write!(out, "  again: make fuzz SEED={seed} ROUND={round}")
    }
}
