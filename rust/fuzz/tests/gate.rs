//! A short drive with a fixed seed, in which everything must hold, and every
//! kind of input and of answer must come up.

use fuzz::drive::{drive, Found};
use std::sync::LazyLock;

const SEED: u64 = 1;
const ROUNDS: u64 = 8_000;

static FOUND: LazyLock<Found> = LazyLock::new(|| drive(SEED, ROUNDS));

#[test]
fn all_properties_hold() {
    for (property, (count, kept)) in &FOUND.failures {
        println!("{count} rounds in which this does not hold: {property}");
        for failure in kept {
            let kept = failure.keep();
            println!("{failure}\n  the input: {kept:?}");
        }
    }
    assert!(FOUND.failures.is_empty());
}

#[test]
fn every_kind_of_input_and_answer_comes_up() {
    println!("{}", FOUND.counts);
    let lacking = FOUND.counts.lacking();
    assert!(lacking.is_empty(), "never came up: {lacking:?}");
}

#[test]
fn a_seed_decides_everything() {
    let counts = |seed| drive(seed, 300).counts.to_string();
    assert_eq!(counts(7), counts(7));
    assert_ne!(counts(7), counts(8));
}
