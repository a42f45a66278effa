//! Many rounds on all processors.

use crate::counts::Counts;
use crate::failure::Failure;
use crate::progress::Progress;
use crate::round::Worker;
use comparison::workers::on_all_processors;
use std::collections::BTreeMap;

/// The failures of one property that are kept; the others are only counted.
const KEPT: usize = 3;

#[derive(Default)]
pub struct Found {
    pub counts: Counts,
    /// By property: how often it did not hold, and the first failures.
    pub failures: BTreeMap<&'static str, (u64, Vec<Failure>)>,
}

impl Found {
    fn add(&mut self, failure: Failure) {
        let (count, kept) = self.failures.entry(failure.property).or_default();
        *count += 1;
        kept.push(failure);
        Found::shorten(kept);
    }

    fn merge(&mut self, other: Found) {
        self.counts.merge(other.counts);
        for (property, (count, failures)) in other.failures {
            let (whole, kept) = self.failures.entry(property).or_default();
            *whole += count;
            kept.extend(failures);
            Found::shorten(kept);
        }
    }

    /// The first rounds, so that the number of workers changes nothing.
    fn shorten(kept: &mut Vec<Failure>) {
        kept.sort_by_key(|failure| failure.round);
        kept.truncate(KEPT);
    }
}

/// Tries all rounds below the number.
pub fn drive(seed: u64, rounds: u64) -> Found {
    let progress = Progress::of(rounds);
    let parts = on_all_processors(rounds, |part| {
        let worker = Worker::start();
        let mut found = Found::default();
        for round in part {
            let failures = worker.try_round(seed, round, &mut found.counts);
            failures.into_iter().for_each(|failure| found.add(failure));
            progress.step();
        }
        found
    });
    progress.end();
    let mut whole = Found::default();
    for part in parts {
        whole.merge(part);
    }
    whole
}
