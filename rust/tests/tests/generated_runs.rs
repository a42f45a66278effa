//! The proved run and watch against the second engine on generated runs, and
//! what has come up in them.

use comparison::rights::stopped_by_high_rights;
use comparison::workers::on_all_processors;
use comparison::{machines, same};
use generator::runs::families::{Family, ANY_ACCEPTED, MISDECLARED, RUNNABLE, SETTLING, TRIALS};
use generator::runs::stops::{
    accepted_orders, accepted_sites, stops_by_sets, wellformed_orders, wellformed_sites, Coverage,
    Order, Site,
};
use generator::runs::Run;
use reference::machine::watched::Failure;
use reference::machine::{self, together, watched, Ended};
use reference::{Edition, Outcome, Program, Stop};
use std::collections::{BTreeMap, BTreeSet};

/// Families and how many seeds of each are run.
type Families = [(Family, u64)];
const ACCEPTED: &Families = &[(RUNNABLE, 11_000), (ANY_ACCEPTED, 3_000)];
const WELLFORMED: &Families = &[(TRIALS, 19_000), (MISDECLARED, 4_000), (SETTLING, 3_000)];

/// What has come up in the runs of sheets of one edition that check accepts,
/// and of those that it refuses.
#[derive(Default)]
struct Seen {
    accepted: Coverage,
    refused: Coverage,
    /// What has stopped a run for a right above 15.
    by_high_rights: BTreeSet<Failure>,
}

impl Seen {
    fn merge(&mut self, other: Seen) {
        self.accepted.merge(other.accepted);
        self.refused.merge(other.refused);
        self.by_high_rights.extend(other.by_high_rights);
    }

    fn runs(&self) -> usize {
        self.accepted.runs + self.refused.runs
    }

    fn whole(&self) -> Coverage {
        let mut whole = self.accepted.clone();
        whole.merge(self.refused.clone());
        whole
    }
}

/// An accepted sheet: the second engine's machines go together, and condition
/// 3 is looked at after every step; the proved run and watch end as they do,
/// in every part.
fn compare_accepted(program: &Program, lent: &Run) -> Result<Ended, String> {
    let ended = together::run(program, lent.resources())?;
    let due = (ended.outcome, lent.output_after(&ended.output));
    same(lent, due.clone(), lent.on(machines::run))?;
    same(lent, due, lent.on(machines::watch))?;
    Ok(ended)
}

/// A sheet that check refuses: the proved watch ends as the second engine's.
fn compare_refused(program: &Program, lent: &Run) -> Result<Ended, String> {
    let ended = watched::examine(program, lent.resources());
    let due = (ended.outcome, lent.output_after(&ended.output));
    same(lent, due, lent.on(machines::watch))?;
    Ok(ended)
}

/// The same run with all the fuel that there can be, if it ends without it.
fn without_limit(program: &Program, lent: &Run) -> Option<Run> {
    let Outcome::Stopped { stop, .. } = watched::examine(program, lent.resources()).outcome else {
        return None;
    };
    let fuel = u64::MAX;
    (stop != Stop::FuelSpent).then(|| Run {
        fuel,
        ..lent.clone()
    })
}

type ByEdition = BTreeMap<Edition, Seen>;

/// All runs of one seed of a family.
fn compare_seed(family: &Family, seed: u64, all_seen: &mut ByEdition) {
    let sheet = family.sheet(seed);
    let seen = all_seen.entry(sheet.edition()).or_default();
    let sheet = sheet.encode();
    let program = machine::wellformed(&sheet, 0).expect("the layout is right");
    let accepted = machine::accepted(&sheet, 0).is_ok();
    assert!(accepted || !family.accepted, "{} {seed}", family.name);
    let (compare, coverage): (fn(&Program, &Run) -> _, _) = match accepted {
        true => (compare_accepted, &mut seen.accepted),
        false => (compare_refused, &mut seen.refused),
    };
    let need = |first: &Run| watched::examine(&program, first.resources()).need;
    let mut all = family.runs(seed, need);
    let stopped = stopped_by_high_rights(&program, all[0].resources());
    seen.by_high_rights.extend(stopped);
    all.extend(without_limit(&program, &all[0]));
    for lent in &all {
        let ended = compare(&program, lent);
        let name = family.name;
        coverage.add(&ended.unwrap_or_else(|fault| panic!("{name} {seed}: {fault}")));
    }
}

/// The runs of all families, on all processors.
fn compare_all(families: &Families) -> ByEdition {
    let mut whole = ByEdition::new();
    for (family, seeds) in families {
        let parts = on_all_processors(*seeds, |seeds| {
            let mut seen = ByEdition::new();
            seeds.for_each(|seed| compare_seed(family, seed, &mut seen));
            seen
        });
        for (edition, part) in parts.into_iter().flatten() {
            whole.entry(edition).or_default().merge(part);
        }
    }
    for (edition, seen) in &whole {
        let (runs, refused) = (seen.runs(), seen.refused.runs);
        println!("{edition:?}: {runs} runs, {refused} refused");
        for ((code, stop, phase), count) in &seen.whole().sites {
            println!("{stop:?} at {code:?} by {phase:?}: {count}");
        }
    }
    assert!(whole.keys().copied().eq(Edition::ALL));
    whole
}

/// Every stop has come up in each edition, and every order in one of them.
fn assert_all_has_come_up(seen: &ByEdition, sites: &[Site], orders: &[Order]) {
    let mut whole = Coverage::default();
    let mut faults = Vec::new();
    for (edition, seen) in seen {
        let part = seen.whole();
        let lacking = part.site_faults(sites).into_iter();
        faults.extend(lacking.map(|fault| format!("{edition:?}: {fault}")));
        whole.merge(part);
    }
    assert!(whole.runs >= 200_000, "only {} runs", whole.runs);
    faults.extend(whole.faults(sites, orders));
    assert!(faults.is_empty(), "{}", faults.join("\n"));
}

#[test]
fn engines_agree_and_every_stop_has_come_up() {
    let seen = compare_all(ACCEPTED);
    assert_all_has_come_up(&seen, &accepted_sites(), &accepted_orders());
}

/// At least half of the runs are of sheets that check refuses.
#[test]
fn watched_runs_agree_and_every_stop_has_come_up_in_every_order() {
    let seen = compare_all(WELLFORMED);
    assert_all_has_come_up(&seen, &wellformed_sites(), &wellformed_orders());
    for (edition, seen) in seen {
        let (runs, refused) = (seen.runs(), seen.refused.runs);
        assert!(2 * refused >= runs, "only {refused} of {runs} refused");
        let due = match edition {
            Edition::First => BTreeSet::new(),
            Edition::Second => stops_by_sets(),
        };
        assert_eq!(seen.by_high_rights, due);
    }
}
