//! Trials for what has not come up by itself.

use super::{ended, freezable, need, Drawn};
use generator::runs::families::TRIALS;
use generator::runs::stops::{wellformed_orders, wellformed_sites, Coverage};

/// Runs for each stop at each code, and for each two tests of an instruction
/// whose order shows, that none of the others has.
pub fn lacking(first: u64, others: &[Drawn]) -> Vec<Drawn> {
    let mut seen = Coverage::default();
    let kept = others.iter().filter(|(_, run)| freezable(run));
    let ends = kept.filter_map(|(_, run)| ended(run));
    ends.for_each(|ended| seen.add(&ended));
    let (sites, orders) = (wellformed_sites(), wellformed_orders());
    let runs = (first << 32..).flat_map(|seed| TRIALS.runs(seed, need));
    let mut runs = runs.filter(freezable);
    let mut all = Vec::new();
    while !seen.faults(&sites, &orders).is_empty() {
        let run = runs.next().expect("there are trials without end");
        let before = (seen.sites.len(), seen.orders.len());
        ended(&run).iter().for_each(|ended| seen.add(ended));
        if before != (seen.sites.len(), seen.orders.len()) {
            all.push((String::from("run:trials, a rare stop"), run));
        }
    }
    all
}
