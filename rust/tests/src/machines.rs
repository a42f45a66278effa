//! The proved machines in the form of the second engine's, in a memory lent
//! full of random words.

use crate::memory::Memory;
use reference::{Outcome, Stop};
use wennathig::{run_into, watch_into, Machine};

/// Like [`reference::run`].
///
/// # Panics
/// If the memory is not all zero after a stop or not unchanged after a
/// refusal, if a word beside it was written, or if the number and the reply
/// mean no outcome of a run.
pub fn run(
    sheet: &[u8],
    input: &[u32],
    fuel: u64,
    memory_words: usize,
    output: &mut [u32],
) -> Outcome {
    let outcome = answer(run_into, sheet, input, fuel, memory_words, output);
    let watched = [Stop::WrongKind, Stop::MissingRight].map(|stop| stop as u64);
    assert!(!watched.contains(&outcome.number()), "{outcome:?}");
    outcome
}

/// Like [`reference::watch`], and panics like [`run`].
pub fn watch(
    sheet: &[u8],
    input: &[u32],
    fuel: u64,
    memory_words: usize,
    output: &mut [u32],
) -> Outcome {
    let outcome = answer(watch_into, sheet, input, fuel, memory_words, output);
    let checked = matches!(outcome.number(), 6..=9 | 20 | 21);
    assert!(!checked, "{outcome:?}");
    outcome
}

fn answer(
    machine: Machine,
    sheet: &[u8],
    input: &[u32],
    fuel: u64,
    memory_words: usize,
    output: &mut [u32],
) -> Outcome {
    // The words are the same for the same run, and others for the next.
    let seed = fuel ^ (sheet.len() as u64) << 32 ^ (input.len() as u64) << 48;
    let mut memory = Memory::random(seed, memory_words);
    let mut reply = [u64::MAX; 5];
    let number = machine(sheet, input, fuel, memory.lent(), output, &mut reply);
    let outcome = Outcome::from_reply(number, reply);
    let outcome = outcome.unwrap_or_else(|| panic!("no outcome: {number}, {reply:?}"));
    match outcome {
        Outcome::Refused { .. } => memory.assert_unchanged(),
        Outcome::Stopped { .. } => memory.assert_zero(),
    }
    outcome
}
