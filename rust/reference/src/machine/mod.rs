//! The two machines, written apart from each other.
//!
//! [`plain`] runs accepted sheets and tests neither kinds nor rights;
//! [`watched`] runs every well-formed sheet, keeps the carried rights beside
//! each filled cell, and tests everything. [`together`] runs both on an
//! accepted sheet and sees that the watched one has nothing to object to.

mod outcome;
pub mod plain;
pub mod together;
pub mod watched;

use crate::{access, parse, Program, Refusal};
pub use outcome::{Outcome, Place, Stop, MAX_MEMORY};

/// What a run is lent, apart from the sheet.
#[derive(Clone, Copy, Debug)]
pub struct Resources<'a> {
    /// "Reads" in document 01.
    pub input: &'a [u32],
    pub fuel: u64,
    /// "Bench" in document 01.
    pub memory_words: usize,
    /// "Report" in document 01.
    pub output_words: usize,
}

/// What a run came to use: the least that it can be lent to go the same way.
#[derive(Clone, Copy, Debug, Default, PartialEq, Eq)]
pub struct Need {
    pub input: usize,
    pub steps: u64,
    pub memory_words: usize,
    pub output: usize,
}

/// All that can be told of a run on the watched machine that has ended.
#[derive(Clone, Debug, PartialEq)]
pub struct Ended {
    pub outcome: Outcome,
    pub need: Need,
    /// The words put.
    pub output: Vec<u32>,
    /// The code of the instruction stopped at; None before main's frame opens.
    pub code: Option<u8>,
    /// The tests of that instruction that fail, in their order: none where it
    /// was not tested, or main returned.
    pub failures: Vec<watched::Failure>,
}

impl Ended {
    /// The end of a run whose main frame does not fit.
    fn at_start(stop: Stop) -> Self {
        Ended {
            outcome: Outcome::at_start(stop),
            need: Need::default(),
            output: Vec::new(),
            code: None,
            failures: Vec::new(),
        }
    }
}

/// Runs an accepted sheet on the plain machine. The words put stand at the
/// beginning of the output, the others are as they were.
///
/// # Panics
/// If the machine is stuck, which must not be on an accepted sheet.
pub fn run(
    sheet: &[u8],
    input: &[u32],
    fuel: u64,
    memory_words: usize,
    output: &mut [u32],
) -> Outcome {
    let resources = Resources {
        input,
        fuel,
        memory_words,
        output_words: output.len(),
    };
    match accepted(sheet, memory_words) {
        Ok(program) => plain::run(&program, resources, output),
        Err(refusal) => Outcome::from(refusal),
    }
}

/// Runs a well-formed sheet on the watched machine; otherwise like [`run`].
pub fn watch(
    sheet: &[u8],
    input: &[u32],
    fuel: u64,
    memory_words: usize,
    output: &mut [u32],
) -> Outcome {
    let resources = Resources {
        input,
        fuel,
        memory_words,
        output_words: output.len(),
    };
    match wellformed(sheet, memory_words) {
        Ok(program) => watched::run(&program, resources, output),
        Err(refusal) => Outcome::from(refusal),
    }
}

/// The program of a sheet that run does not refuse.
pub fn accepted(sheet: &[u8], memory_words: usize) -> Result<Program, Refusal> {
    let program = parse(sheet)?;
    access::check(&program)?;
    outcome::check_memory(memory_words)?;
    Ok(program)
}

/// The program of a sheet that watch does not refuse.
pub fn wellformed(sheet: &[u8], memory_words: usize) -> Result<Program, Refusal> {
    let program = parse(sheet)?;
    outcome::check_memory(memory_words)?;
    Ok(program)
}
