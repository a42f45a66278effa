//! What is frozen: small sheets of all kinds, and what each is run with.
//! Sheets that have much in common follow each other, since each is kept as
//! its difference to the one before.

mod chance;
mod lacking;
mod listed;

use super::answers::OLD_WORD;
use super::ENTRIES;
use generator::runs::families::{ANY_ACCEPTED, RUNNABLE, TRIALS};
use generator::runs::Run;
use generator::Random;
use reference::machine::watched::examine;
use reference::machine::{wellformed, Ended, Need};
use std::collections::BTreeSet;

/// A kind, and a sheet with what it is run with.
pub type Drawn = (String, Run);

/// As many as are frozen. The last kind goes on for as long as is asked.
pub fn all(seed: u64) -> Vec<Drawn> {
    let random = &mut Random::new(seed);
    let mut all = listed::hand_written();
    all.extend(listed::in_large_memory());
    all.extend(listed::at_limits());
    all.extend(listed::of_showcase(random));
    all.extend(listed::editions());
    all.extend(listed::long());
    all.extend(listed::large());
    all.extend(listed::loops());
    all.extend(chance::flawed(seed).take(1_792));
    all.extend(chance::around_the_need(seed).take(450));
    for (family, count) in &[(RUNNABLE, 1_000), (TRIALS, 1_000), (ANY_ACCEPTED, 600)] {
        all.extend(chance::varied(random, family, seed).take(*count));
    }
    all.extend(chance::by_chance(random).take(400));
    all.extend(lacking::lacking(seed, &all));
    let mut seen = BTreeSet::new();
    let endless = all.into_iter().chain(chance::sound_and_damaged(random));
    let new = endless.filter(|(_, run)| freezable(run) && seen.insert(key(run)));
    let named = new.map(|(kind, run)| (kind.replace(' ', "_"), with_old_report(run)));
    named.take(ENTRIES).collect()
}

/// Whether the file and the test stay small with it. What edition 2 means is
/// not for edition 1 to say.
fn freezable(run: &Run) -> bool {
    const MOST_INPUT: usize = 40;
    const MOST_STEPS: u64 = 100_000;
    let ends = || ended(run).is_none_or(|ended| ended.need.steps <= MOST_STEPS);
    run.input.len() <= MOST_INPUT && !run.sheet.starts_with(b"HD\x02") && ends()
}

/// The end of a run on the watched machine, if the sheet is well-formed.
fn ended(run: &Run) -> Option<Ended> {
    let program = wellformed(&run.sheet, run.memory_words).ok()?;
    Some(examine(&program, run.resources()))
}

/// What the run of a well-formed sheet comes to use.
fn need(run: &Run) -> Need {
    ended(run).expect("the layout is right").need
}

/// What tells one entry from another.
fn key(run: &Run) -> (Vec<u8>, Vec<u32>, u64, usize, usize) {
    let Run { sheet, input, .. } = run.clone();
    (sheet, input, run.fuel, run.memory_words, run.output.len())
}

/// The same with a report of which only the length has to be kept.
fn with_old_report(mut run: Run) -> Run {
    run.output.fill(OLD_WORD);
    run
}

/// A sheet that is lent what all others are: it is mostly refused.
fn drawn(kind: impl Into<String>, sheet: Vec<u8>) -> Drawn {
    let run = Run {
        sheet,
        input: vec![3, 0, 1, 2, 1],
        fuel: 200,
        memory_words: 100,
        output: vec![OLD_WORD; 6],
    };
    (kind.into(), run)
}
