//! Sheets made to be run, and what each run is lent.
//!
//! - [`program::runnable`]: accepted sheets that loop, recurse, nest arrays
//!   and fill records, mostly with filled variables;
//! - [`short::short`]: accepted sheets that are done in a few steps;
//! - [`settling::settling`]: well-formed sheets that lead up to one call of a
//!   procedure with a rights name;
//! - [`trial::trial`]: well-formed sheets that lead up to one instruction on
//!   operands of any types, filled or blank, most of which check refuses.
//!
//! A first run with [`plenty`] tells the need, by which [`around`] makes the
//! runs at and around it; [`families`] puts this together by seed, and
//! [`stops`] says what must come up.

mod chooser;
pub mod families;
mod filling;
mod generics;
pub mod program;
pub mod settling;
pub mod short;
mod statements;
pub mod stops;
pub mod trial;
mod writer;

use crate::random::Random;
use reference::machine::{Need, Outcome, Resources};

/// A sheet and what it is run with.
#[derive(Clone, Debug, PartialEq)]
pub struct Run {
    pub sheet: Vec<u8>,
    pub input: Vec<u32>,
    pub fuel: u64,
    pub memory_words: usize,
    /// The words that the output holds before the run.
    pub output: Vec<u32>,
}

impl Run {
    /// Makes the run on a machine that takes sheet, input, fuel, words of
    /// memory and output; gives what it says and the whole output after it.
    pub fn on(
        &self,
        machine: impl Fn(&[u8], &[u32], u64, usize, &mut [u32]) -> Outcome,
    ) -> (Outcome, Vec<u32>) {
        let mut output = self.output.clone();
        let outcome = machine(
            &self.sheet,
            &self.input,
            self.fuel,
            self.memory_words,
            &mut output,
        );
        (outcome, output)
    }

    /// What the run must leave in the output: the words put, then the old
    /// words.
    pub fn output_after(&self, put: &[u32]) -> Vec<u32> {
        let mut output = self.output.clone();
        output[..put.len()].copy_from_slice(put);
        output
    }

    pub fn resources(&self) -> Resources<'_> {
        Resources {
            input: &self.input,
            fuel: self.fuel,
            memory_words: self.memory_words,
            output_words: self.output.len(),
        }
    }
}

/// A run that is lent more than most sheets use.
pub fn plenty(random: &mut Random, sheet: Vec<u8>) -> Run {
    let rich = random.one_in(40);
    let count = random.between(12, 24);
    Run {
        sheet,
        input: (0..count).map(|_| word(random)).collect(),
        fuel: if rich { 2_000 } else { 300 },
        memory_words: if rich { 3_000 } else { 400 },
        output: (0..count).map(|_| word(random)).collect(),
    }
}

/// Small numbers, the largest, and any.
fn word(random: &mut Random) -> u32 {
    match random.below(8) {
        0 => random.word() as u32,
        1 => u32::MAX - random.below(2) as u32,
        _ => random.below(4) as u32,
    }
}

/// The runs that are lent one less than the need, the need and one more, of
/// each resource alone and of all by chance, and one cut short.
pub fn around(random: &mut Random, run: &Run, need: Need) -> Vec<Run> {
    let mut all = Vec::new();
    for change in [-1, 0, 1] {
        all.push(with_fuel(run, need.steps, change));
        all.push(with_memory(run, need.memory_words, change));
        all.push(with_input(run, need.input, change));
        all.push(with_output(run, need.output, change));
    }
    let mut chance = || random.between(0, 2) as i64 - 1;
    let mixed = with_memory(run, need.memory_words, chance());
    let mixed = with_input(&mixed, need.input, chance());
    let mixed = with_output(&mixed, need.output, chance());
    all.push(with_fuel(&mixed, need.steps, chance()));
    let short = random.below(need.steps as usize + 1) as u64;
    all.push(with_fuel(run, short, 0));
    all
}

fn with_fuel(run: &Run, steps: u64, change: i64) -> Run {
    let fuel = steps.saturating_add_signed(change);
    Run {
        fuel,
        ..run.clone()
    }
}

fn with_memory(run: &Run, need: usize, change: i64) -> Run {
    let memory_words = need.saturating_add_signed(change as isize);
    Run {
        memory_words,
        ..run.clone()
    }
}

fn with_input(run: &Run, need: usize, change: i64) -> Run {
    let mut input = run.input.clone();
    input.resize(need.saturating_add_signed(change as isize), 7);
    Run {
        input,
        ..run.clone()
    }
}

fn with_output(run: &Run, need: usize, change: i64) -> Run {
    let mut output = run.output.clone();
    output.resize(need.saturating_add_signed(change as isize), 7);
    Run {
        output,
        ..run.clone()
    }
}
