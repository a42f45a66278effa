//! The sheets of edition 2: as many as of edition 1, with rights of high
//! numbers, and alike in all that the numbers of rights do not decide.

use generator::accepted::{accepted, in_first_edition, Room};
use generator::breach::Flaw;
use generator::damage::random_bytes;
use generator::runs::families::{Family, ANY_ACCEPTED, MISDECLARED, RUNNABLE, SETTLING, TRIALS};
use generator::runs::plenty;
use generator::second_edition::{into_second_edition, EDGES};
use generator::wellformed::{redraw, wellformed};
use generator::{At, Random, Sheet};
use reference::{check, watch, Edition, Verdict};

/// Whether at least two of five sheets are of each edition.
fn are_even(second: usize, all: usize) -> bool {
    (2 * all..=3 * all).contains(&(5 * second))
}

#[test]
fn every_family_has_both_editions_alike() {
    let sheets: [fn(u64) -> Vec<u8>; 9] = [
        |seed| random_bytes(&mut Random::new(seed)),
        |seed| accepted(&mut Random::new(seed)).encode(),
        |seed| wellformed(&mut Random::new(seed)).encode(),
        |seed| by_flaw(seed).encode(),
        |seed| RUNNABLE.sheet(seed).encode(),
        |seed| ANY_ACCEPTED.sheet(seed).encode(),
        |seed| TRIALS.sheet(seed).encode(),
        |seed| MISDECLARED.sheet(seed).encode(),
        |seed| SETTLING.sheet(seed).encode(),
    ];
    for (family, sheet) in sheets.into_iter().enumerate() {
        let marked = (0..1_000)
            .map(sheet)
            .filter(|sheet| sheet.starts_with(b"HD"));
        let editions: Vec<u8> = marked.map(|sheet| sheet[2]).collect();
        let second = editions.iter().filter(|&&edition| edition == 2).count();
        assert!(are_even(second, editions.len()), "{family}: {second}");
    }
}

fn by_flaw(seed: u64) -> Sheet {
    let flaws = Flaw::all();
    let flaw = flaws[seed as usize % flaws.len()];
    flaw.build(&mut Random::new(seed)).broken
}

/// Most sheets of edition 2 that declare a type have one with more than 15
/// rights, and each right at an edge stands in many of them.
#[test]
fn rights_above_15_are_frequent() {
    let families: [&Family; 4] = [&RUNNABLE, &ANY_ACCEPTED, &TRIALS, &SETTLING];
    for family in families {
        let sheets = (0..1_000).map(|seed| family.sheet(seed));
        let sheets = sheets.filter(|sheet| sheet.edition() == Edition::Second);
        let sheets: Vec<Sheet> = sheets.filter(|sheet| !sheet.types.is_empty()).collect();
        let wide = |sheet: &&Sheet| {
            sheet
                .types
                .iter()
                .any(|declared| declared.named_rights > 15)
        };
        let wide = sheets.iter().filter(wide).count();
        assert!(2 * wide > sheets.len(), "{}: {wide}", family.name);
        for right in EDGES {
            let has = |sheet: &&Sheet| {
                { sheet.qualified.iter() }
                    .any(|record| record.base >= 2 && record.rights >> right & 1 == 1)
            };
            let having = sheets.iter().filter(has).count();
            let name = family.name;
            assert!(8 * having > sheets.len(), "{name}, right {right}: {having}");
        }
    }
}

/// The number of a verdict and the record at which it is given.
fn judged(sheet: &Sheet) -> (u8, Option<At>) {
    match check(&sheet.encode()) {
        Verdict::Accepted => (0, None),
        Verdict::Refused { number, place } => {
            let places = sheet.places().into_iter();
            let mut at = places.filter(|&(_, start)| start == place);
            (number, at.next().map(|(at, _)| at))
        }
    }
}

/// "The order and the agreement of machines are wanted over the width, not per
/// edition": a sheet has the same verdict and the same run in edition 2.
#[test]
fn a_sheet_is_judged_and_run_alike_in_edition_2() {
    let (mut refused, mut stopped) = (0, 0);
    for seed in 0..4_000 {
        let random = &mut Random::new(seed);
        let mut first = in_first_edition(random, Room::WHOLE);
        (0..random.below(4)).for_each(|_| redraw(random, &mut first));
        let mut second = first.clone();
        into_second_edition(random, &mut second);
        let number = judged(&first).0;
        assert_eq!(judged(&first), judged(&second), "seed {seed}");
        refused += usize::from(number != 0);
        let run = plenty(random, first.encode());
        let mut again = run.clone();
        again.sheet = second.encode();
        let outcome = run.on(watch);
        stopped += usize::from(matches!(outcome.0.number(), 18 | 19));
        assert_eq!(outcome, again.on(watch), "seed {seed}");
    }
    println!("{refused} refused, {stopped} stopped by 18 or 19");
    assert!(refused > 1_000 && stopped > 20, "{refused}, {stopped}");
}
