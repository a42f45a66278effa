//! Both engines on the sheets at the limits of document 01, and which limits
//! have come up.

use comparison::workers::on_all_processors;
use comparison::{agreed, agreed_run, agreed_watch};
use generator::bounds::{level_of, Bound, Family, Seen, FAMILIES, LEVELS};
use reference::{Edition, Verdict};
use std::collections::BTreeMap;

type Counts = BTreeMap<Seen, usize>;

fn number(verdict: Verdict) -> u8 {
    match verdict {
        Verdict::Accepted => 0,
        Verdict::Refused { number, .. } => number,
    }
}

/// Check, run and watch agree on both engines, and give the numbers that the
/// family knows.
fn compare(Bound { run, seen }: &Bound) -> Result<(), String> {
    let check = number(agreed(&run.sheet)?);
    let by_run = agreed_run(run)?.number();
    let by_watch = agreed_watch(run)?.number();
    let due_run = if seen.check == 0 {
        seen.watch
    } else {
        seen.check
    };
    let found = (check, by_run, by_watch);
    let due = (seen.check, due_run.into(), seen.watch.into());
    match found == due {
        true => Ok(()),
        false => Err(format!("check, run and watch say {found:?}, not {due:?}")),
    }
}

/// All positions of a family in an edition.
fn compare_family(family: &Family, edition: Edition) -> Counts {
    let positions = (family.count)(edition) as u64;
    let parts = on_all_processors(positions, |seeds| {
        let mut counts = Counts::new();
        for seed in seeds {
            let bound = family.bound(edition, seed);
            let name = family.name;
            compare(&bound).unwrap_or_else(|fault| panic!("{name} {seed}: {fault}"));
            *counts.entry(bound.seen).or_default() += 1;
        }
        counts
    });
    let mut whole = Counts::new();
    for (seen, count) in parts.into_iter().flatten() {
        *whole.entry(seen).or_default() += count;
    }
    whole
}

#[test]
fn engines_agree_at_every_limit() {
    for family in &FAMILIES {
        for edition in Edition::ALL {
            let counts = compare_family(family, edition);
            let sheets: usize = counts.values().sum();
            let (name, limits) = (family.name, counts.len());
            println!("{name}, {edition:?}: {sheets} runs, {limits} limits and results");
            let due = (family.due)(edition).into_iter();
            let lacking: Vec<Seen> = due.filter(|seen| !counts.contains_key(seen)).collect();
            assert!(lacking.is_empty(), "{name}, {edition:?}: never {lacking:?}");
        }
    }
}

/// Types that are equal for two levels of elements or more and differ below
/// come up in every use that check refuses, and not by luck.
#[test]
fn types_differ_in_the_third_level_and_deeper() {
    for edition in Edition::ALL {
        let counts = compare_family(&LEVELS, edition);
        for check in [7, 8] {
            let refused = counts.iter().filter(|(seen, _)| seen.check == check);
            let deep = refused.filter(|(seen, _)| level_of(seen) >= 3);
            let pairs: usize = deep.map(|(_, count)| count).sum();
            println!("{edition:?}: {pairs} pairs refused with {check}");
            assert!(pairs >= 450, "only {pairs} pairs refused with {check}");
        }
    }
}
