//! Runs that run and watch refuse: both engines say the same, the output and
//! the memory stay as they were.

use comparison::workers::on_all_processors;
use comparison::{agreed_run, agreed_watch};
use generator::breach::Flaw;
use generator::damage::{damaged, random_bytes};
use generator::runs::families::{MISDECLARED, SETTLING, TRIALS};
use generator::runs::plenty;
use generator::runs::program::runnable;
use generator::Random;
use reference::machine::MAX_MEMORY;
use reference::Outcome;
use std::collections::BTreeMap;

const SEEDS: u64 = 8_000;

/// How often a machine gave each number of a refusal, and how many runs were
/// stopped.
#[derive(Default)]
struct Answers {
    refused: BTreeMap<u8, usize>,
    stopped: usize,
}

impl Answers {
    fn add(&mut self, outcome: Outcome) {
        match outcome {
            Outcome::Refused { number, .. } => *self.refused.entry(number).or_default() += 1,
            Outcome::Stopped { .. } => self.stopped += 1,
        }
    }

    fn merge(&mut self, other: Answers) {
        self.stopped += other.stopped;
        for (number, count) in other.refused {
            *self.refused.entry(number).or_default() += count;
        }
    }

    /// Just these refusals have come up, and stops besides.
    fn assert_refused(&self, numbers: impl IntoIterator<Item = u8>) {
        println!("refused {:?}, stopped {}", self.refused, self.stopped);
        assert!(self.refused.keys().copied().eq(numbers));
        assert!(self.stopped > 0);
    }
}

#[derive(Default)]
struct Seen {
    run: Answers,
    watch: Answers,
}

/// Sheets most of which are refused.
fn sheets(random: &mut Random, seed: u64) -> Vec<Vec<u8>> {
    let sound = runnable(random);
    let flaws = Flaw::all();
    let flaw = flaws[random.below(flaws.len())].build(random);
    let mut all = vec![
        random_bytes(random),
        damaged(random, &sound),
        flaw.broken.encode(),
        TRIALS.sheet(seed).encode(),
        MISDECLARED.sheet(seed).encode(),
        SETTLING.sheet(seed).encode(),
    ];
    if random.one_in(50) {
        all.push(random.bytes(reference::MAX_SHEET + 1));
    }
    all
}

fn compare(random: &mut Random, sheet: Vec<u8>, seen: &mut Seen) -> Result<(), String> {
    let mut lent = plenty(random, sheet);
    if random.one_in(40) {
        lent.memory_words = MAX_MEMORY + random.below(3);
    }
    seen.run.add(agreed_run(&lent)?);
    seen.watch.add(agreed_watch(&lent)?);
    Ok(())
}

#[test]
fn refused_runs_change_nothing() {
    let mut whole = Seen::default();
    let parts = on_all_processors(SEEDS, |seeds| {
        let mut seen = Seen::default();
        for seed in seeds {
            let mut random = Random::new(seed);
            for sheet in sheets(&mut random, seed) {
                compare(&mut random, sheet, &mut seen)
                    .unwrap_or_else(|fault| panic!("{seed}: {fault}"));
            }
        }
        seen
    });
    for part in parts {
        whole.run.merge(part.run);
        whole.watch.merge(part.watch);
    }
    whole.run.assert_refused((1..=10).chain([20, 21]));
    whole.watch.assert_refused((1..=5).chain([10]));
}
