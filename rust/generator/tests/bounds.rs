//! The families at the limits on the second engine: it gives the numbers that
//! each of them knows, and all comes up that must.

use generator::bounds::{Bound, Family, Seen, FAMILIES};
use reference::{Edition, Verdict};
use std::collections::BTreeSet;

/// Those before the ones that take many steps.
const QUICK: usize = FAMILIES.len() - 2;

fn found(Bound { run, seen }: &Bound) -> Seen {
    let check = match reference::check(&run.sheet) {
        Verdict::Accepted => 0,
        Verdict::Refused { number, .. } => number,
    };
    let watch = run.on(reference::watch).0.number() as u8;
    Seen {
        check,
        watch,
        ..*seen
    }
}

fn all_of(family: &Family, edition: Edition) -> BTreeSet<Seen> {
    let positions = 0..(family.count)(edition) as u64;
    let seen = positions.map(|seed| {
        let bound = family.bound(edition, seed);
        assert_eq!(bound.run.sheet[2], edition.number());
        assert_eq!(found(&bound), bound.seen, "{} {seed}", family.name);
        bound.seen
    });
    seen.collect()
}

#[test]
fn second_engine_gives_the_numbers_at_every_limit() {
    for family in &FAMILIES[..QUICK] {
        for edition in Edition::ALL {
            let all = all_of(family, edition);
            let lacking: Vec<Seen> = { (family.due)(edition).into_iter() }
                .filter(|seen| !all.contains(seen))
                .collect();
            let (name, count) = (family.name, (family.count)(edition));
            println!("{name}: {count} runs, {} limits and results", all.len());
            assert!(lacking.is_empty(), "{name}: never {lacking:?}");
        }
    }
}
