//! What a sheet is run with.

use generator::runs::Run;
use generator::Random;
use reference::machine::MAX_MEMORY;

/// A run that is lent plenty of some things and little of others.
pub fn lent(random: &mut Random, sheet: Vec<u8>) -> Run {
    let fuel = match random.below(32) {
        0 => 5_000,
        1..=4 => random.below(20),
        _ => random.below(500),
    };
    let memory_words = match random.below(48) {
        0 => MAX_MEMORY + random.below(2),
        1..=9 => random.below(40),
        _ => 300 + random.below(300),
    };
    Run {
        sheet,
        input: words(random),
        fuel: fuel as u64,
        memory_words,
        output: words(random),
    }
}

/// A few words or none: small ones, the largest, any.
fn words(random: &mut Random) -> Vec<u32> {
    let count = match random.below(4) {
        0 => random.below(3),
        _ => random.between(8, 24),
    };
    let word = |random: &mut Random| match random.below(8) {
        0 => random.word() as u32,
        1 => u32::MAX - random.below(2) as u32,
        _ => random.below(6) as u32,
    };
    (0..count).map(|_| word(random)).collect()
}
