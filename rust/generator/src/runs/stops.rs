//! Which stops can come up at which code, by which test, and which tests of
//! one instruction can fail together, so that their order shows.

use reference::machine::watched::{Failure, Phase};
use reference::machine::{Ended, Outcome, Stop};
use std::collections::{BTreeMap, BTreeSet};
use std::fmt::Debug;

/// A stop at a code: by a test, or by none (11 and 12); no code stands for 17
/// before main's frame opens.
pub type Site = (Option<u8>, Stop, Option<Phase>);

/// Two tests of a code that fail together with different numbers, the first
/// of which gives the stop.
pub type Order = (u8, Failure, Failure);

const BLANK: Failure = failure(Phase::Blank, Stop::Blank);
const KIND: Failure = failure(Phase::Kind, Stop::WrongKind);
const RIGHT: Failure = failure(Phase::Right, Stop::MissingRight);
const FORM: Failure = failure(Phase::Form, Stop::WrongKind);
/// What check refuses with 20 and 21.
const UNSETTLED: Failure = failure(Phase::Settling, Stop::WrongKind);
const SHORT: Failure = failure(Phase::Settling, Stop::MissingRight);
const INDEX: Failure = failure(Phase::Index, Stop::PastEnd);
const INPUT: Failure = failure(Phase::Resource, Stop::InputEnded);
const OUTPUT: Failure = failure(Phase::Resource, Stop::OutputFull);
const MEMORY: Failure = failure(Phase::Resource, Stop::MemoryFull);
const MOVED_BLANK: Failure = failure(Phase::Movement, Stop::Blank);
const MOVED_KIND: Failure = failure(Phase::Movement, Stop::WrongKind);
const MOVED_RIGHT: Failure = failure(Phase::Movement, Stop::MissingRight);

const fn failure(phase: Phase, stop: Stop) -> Failure {
    Failure { phase, stop }
}

/// The tests that can stop an accepted sheet, with their codes.
const ACCEPTED: [(Failure, &[u8]); 6] = [
    (BLANK, &[2, 3, 4, 5, 8, 9, 10, 11, 12, 14, 15]),
    (INDEX, &[10, 11]),
    (INPUT, &[7]),
    (OUTPUT, &[8]),
    (MEMORY, &[9, 13, 16]),
    (MOVED_BLANK, &[6, 10, 11, 14, 15, 16, 17]),
];

/// Those that can stop only a sheet that check refuses.
const REFUSED: [(Failure, &[u8]); 7] = [
    (FORM, &[16, 17]),
    (UNSETTLED, &[16]),
    (SHORT, &[16]),
    (KIND, &[2, 3, 4, 5, 8, 9, 10, 11, 12, 14, 15]),
    (RIGHT, &[10, 11, 12, 14, 15]),
    (
        MOVED_KIND,
        &[1, 2, 3, 4, 6, 7, 10, 11, 12, 13, 14, 15, 16, 17],
    ),
    (MOVED_RIGHT, &[6, 10, 11, 14, 15, 16, 17]),
];

/// The tests that compare sets of rights.
pub fn stops_by_sets() -> BTreeSet<Failure> {
    BTreeSet::from([UNSETTLED, SHORT, MOVED_KIND, MOVED_RIGHT])
}

fn sites(tests: &[(Failure, &[u8])]) -> Vec<Site> {
    tests
        .iter()
        .flat_map(|&(failure, codes)| {
            codes
                .iter()
                .map(move |&code| (Some(code), failure.stop, Some(failure.phase)))
        })
        .collect()
}

/// Every stop of accepted sheets.
pub fn accepted_sites() -> Vec<Site> {
    let mut all = sites(&ACCEPTED);
    all.push((Some(17), Stop::Done, None));
    all.push((None, Stop::MemoryFull, None));
    all.extend((1..=17).map(|code| (Some(code), Stop::FuelSpent, None)));
    all
}

/// Every stop of well-formed sheets on the watched machine.
pub fn wellformed_sites() -> Vec<Site> {
    let mut all = accepted_sites();
    all.extend(sites(&REFUSED));
    all
}

/// The orders that accepted sheets can show.
const ACCEPTED_ORDERS: [(Failure, Failure, &[u8]); 3] = [
    (BLANK, OUTPUT, &[8]),
    (INDEX, MOVED_BLANK, &[11]),
    (MEMORY, MOVED_BLANK, &[16]),
];

/// The orders that only sheets that check refuses can show.
const REFUSED_ORDERS: [(Failure, Failure, &[u8]); 35] = [
    (FORM, SHORT, &[16]),
    (UNSETTLED, SHORT, &[16]),
    (UNSETTLED, MEMORY, &[16]),
    (UNSETTLED, MOVED_BLANK, &[16]),
    (UNSETTLED, MOVED_RIGHT, &[16]),
    (SHORT, MEMORY, &[16]),
    (SHORT, MOVED_BLANK, &[16]),
    (SHORT, MOVED_KIND, &[16]),
    (FORM, MEMORY, &[16]),
    (FORM, MOVED_BLANK, &[16]),
    (FORM, MOVED_RIGHT, &[16]),
    (BLANK, KIND, &[2, 3, 4, 9, 10, 11]),
    (BLANK, RIGHT, &[10, 11]),
    (BLANK, MOVED_KIND, &[2, 3, 4, 11, 12, 15]),
    (BLANK, MOVED_RIGHT, &[2, 3, 4, 11, 12, 15]),
    (KIND, RIGHT, &[10, 11, 12, 14, 15]),
    (KIND, OUTPUT, &[8]),
    (KIND, MEMORY, &[9]),
    (KIND, MOVED_BLANK, &[11, 15]),
    (KIND, MOVED_RIGHT, &[2, 3, 4, 11, 12, 15]),
    (RIGHT, INDEX, &[10, 11]),
    (RIGHT, MOVED_BLANK, &[10, 11, 14, 15]),
    (RIGHT, MOVED_KIND, &[10, 11, 12, 14, 15]),
    (INDEX, MOVED_KIND, &[11]),
    (INDEX, MOVED_RIGHT, &[11]),
    (INPUT, MOVED_KIND, &[7]),
    (INPUT, MOVED_RIGHT, &[7]),
    (MEMORY, MOVED_KIND, &[13, 16]),
    (MEMORY, MOVED_RIGHT, &[13, 16]),
    // Within one binding, and from one movement to the next.
    (MOVED_BLANK, MOVED_KIND, &[16]),
    (MOVED_BLANK, MOVED_RIGHT, &[16]),
    (
        MOVED_KIND,
        MOVED_RIGHT,
        &[1, 2, 3, 4, 6, 7, 10, 11, 12, 13, 14, 15, 16, 17],
    ),
    (MOVED_KIND, MOVED_BLANK, &[16]),
    (MOVED_RIGHT, MOVED_BLANK, &[16]),
    (MOVED_RIGHT, MOVED_KIND, &[16, 17]),
];

fn orders(pairs: &[(Failure, Failure, &[u8])]) -> Vec<Order> {
    pairs
        .iter()
        .flat_map(|&(first, later, codes)| codes.iter().map(move |&code| (code, first, later)))
        .collect()
}

pub fn accepted_orders() -> Vec<Order> {
    orders(&ACCEPTED_ORDERS)
}

pub fn wellformed_orders() -> Vec<Order> {
    let mut all = accepted_orders();
    all.extend(orders(&REFUSED_ORDERS));
    all
}

/// Counts what has come up.
#[derive(Clone, Debug, Default)]
pub struct Coverage {
    pub runs: usize,
    pub steps: u64,
    pub sites: BTreeMap<Site, usize>,
    pub orders: BTreeMap<Order, usize>,
}

impl Coverage {
    pub fn add(&mut self, ended: &Ended) {
        let Outcome::Stopped { stop, steps, .. } = ended.outcome else {
            return;
        };
        self.runs += 1;
        self.steps += steps;
        let first = ended.failures.first();
        let site = (ended.code, stop, first.map(|failure| failure.phase));
        *self.sites.entry(site).or_default() += 1;
        if let (Some(code), Some(&first)) = (ended.code, first) {
            let later = ended.failures.iter().copied();
            for later in later.filter(|later| later.stop != first.stop) {
                *self.orders.entry((code, first, later)).or_default() += 1;
            }
        }
    }

    pub fn merge(&mut self, other: Coverage) {
        self.runs += other.runs;
        self.steps += other.steps;
        for (site, count) in other.sites {
            *self.sites.entry(site).or_default() += count;
        }
        for (order, count) in other.orders {
            *self.orders.entry(order).or_default() += count;
        }
    }

    /// What should have come up and has not, and what has come up and is not
    /// possible.
    pub fn faults(&self, sites: &[Site], orders: &[Order]) -> Vec<String> {
        let mut faults = self.site_faults(sites);
        faults.extend(differences(orders, &self.orders));
        faults
    }

    /// The same of the stops alone.
    pub fn site_faults(&self, sites: &[Site]) -> Vec<String> {
        differences(sites, &self.sites)
    }
}

fn differences<Key: Ord + Debug>(possible: &[Key], counts: &BTreeMap<Key, usize>) -> Vec<String> {
    let lacking = possible.iter().filter(|key| !counts.contains_key(key));
    let lacking = lacking.map(|key| format!("never: {key:?}"));
    let strange = counts.keys().filter(|key| !possible.contains(key));
    let strange = strange.map(|key| format!("not possible: {key:?}"));
    lacking.chain(strange).collect()
}
