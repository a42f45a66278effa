//! What the generator promises about its sheets, asked of the second engine.

use generator::accepted::accepted;
use generator::breach::Flaw;
use generator::damage::damaged;
use generator::large::{two_deep_arrays, unequal_inside, unequal_outside, widened_arrays, SHEETS};
use generator::records::RecordKind;
use generator::runs::families::{MISDECLARED, RUNNABLE, SETTLING, TRIALS};
use generator::runs::short::{short, short_in_second_edition};
use generator::runs::Run;
use generator::showcase::showcases;
use generator::typing::Typing;
use generator::wellformed::wellformed;
use generator::Random;
use reference::{check, Edition, Outcome, Stop, Verdict};
use std::collections::BTreeMap;

#[test]
fn accepted_sheets_are_accepted() {
    for seed in 0..5_000 {
        let sheet = accepted(&mut Random::new(seed)).encode();
        assert_eq!(check(&sheet), Verdict::Accepted, "seed {seed}");
    }
}

/// The largest count of each kind stands in some accepted sheet of each
/// edition, so that a limit that is one too low shows.
#[test]
fn accepted_sheets_reach_every_limit() {
    let mut largest = BTreeMap::new();
    for seed in 0..5_000 {
        let sheet = accepted(&mut Random::new(seed));
        let rights = sheet.types.iter().map(|record| record.named_rights);
        let slots = sheet.types.iter().map(|record| record.slot_count);
        let formals = sheet.procedures.iter().map(|p| p.head.formals);
        let variables = sheet.procedures.iter().map(|p| p.variables.len());
        let lengths = sheet.procedures.iter().map(|p| p.instructions.len());
        let counts = [
            sheet.types.len(),
            sheet.qualified.len(),
            sheet.procedures.len(),
            rights.max().map_or(0, usize::from),
            slots.max().map_or(0, usize::from),
            formals.max().map_or(0, usize::from),
            variables.max().unwrap_or(0),
            lengths.max().unwrap_or(0),
        ];
        let largest = largest.entry(sheet.edition()).or_insert([0; 8]);
        for (most, count) in largest.iter_mut().zip(counts) {
            *most = count.max(*most);
        }
    }
    assert_eq!(largest[&Edition::First], [32, 64, 64, 15, 8, 8, 32, 1000]);
    assert_eq!(largest[&Edition::Second], [32, 64, 64, 31, 8, 8, 32, 1000]);
}

/// Arrays are bound to arrays that ask for less of their elements.
#[test]
fn accepted_sheets_have_widened_movements() {
    let mut widened = 0;
    for seed in 0..5_000 {
        let sheet = accepted(&mut Random::new(seed));
        let typing = Typing::of(&sheet.qualified);
        let binds = sheet.procedures.iter().flat_map(|procedure| {
            let binds = procedure.instructions.iter().filter(|bind| bind.code == 6);
            let inner = |variable: u8| procedure.variables[usize::from(variable)].inner;
            binds.map(move |bind| (inner(bind.b), inner(bind.a)))
        });
        widened += binds.filter(|&(from, to)| typing.widens(from, to)).count();
    }
    println!("{widened} binds");
    assert!(widened >= 100, "{widened}");
}

#[test]
fn wellformed_sheets_parse_and_some_are_refused() {
    let mut refused = 0;
    for seed in 0..5_000 {
        let sheet = wellformed(&mut Random::new(seed)).encode();
        assert!(reference::parse(&sheet).is_ok(), "seed {seed}");
        refused += usize::from(check(&sheet) != Verdict::Accepted);
    }
    assert!((1_000..4_900).contains(&refused), "{refused}");
}

#[test]
fn flaws_are_refused_where_they_are() {
    for flaw in Flaw::all() {
        for seed in 0..50 {
            let breach = flaw.build(&mut Random::new(seed));
            let expected = Verdict::Refused {
                number: breach.number,
                place: breach.broken.place(breach.at),
            };
            assert_eq!(
                check(&breach.sound.encode()),
                Verdict::Accepted,
                "{flaw:?} {seed}"
            );
            assert_eq!(check(&breach.broken.encode()), expected, "{flaw:?} {seed}");
        }
    }
}

/// The two sheets of a flaw have the same records but for one.
#[test]
fn flaws_change_one_record() {
    for flaw in Flaw::all() {
        let breach = flaw.build(&mut Random::new(7));
        let sound = breach.sound.encode();
        let broken = breach.broken.encode();
        assert_eq!(sound.len(), broken.len(), "{flaw:?}");
        let places = breach.sound.places();
        let changed = places
            .iter()
            .filter(|(at, place)| {
                let span = *place..place + at.kind().size(breach.sound.edition());
                sound[span.clone()] != broken[span]
            })
            .count();
        assert_eq!(changed, 1, "{flaw:?}");
    }
}

#[test]
fn a_seed_gives_one_sheet() {
    for seed in 0..50 {
        let make = || {
            let mut random = Random::new(seed);
            let sheet = accepted(&mut random);
            damaged(&mut random, &sheet)
        };
        assert_eq!(make(), make());
    }
    let first = accepted(&mut Random::new(1));
    assert!((2..50).any(|seed| accepted(&mut Random::new(seed)) != first));
}

#[test]
fn large_sheets_fill_the_bytes_given() {
    for (_, make) in SHEETS {
        let sheet = make(32_768).encode();
        assert!((32_000..=32_768).contains(&sheet.len()), "{}", sheet.len());
        assert_eq!(check(&sheet), Verdict::Accepted);
    }
}

/// Sheets of one bind, between the ends of two chains of arrays, and a return.
#[test]
fn deep_arrays_are_compared_in_every_level() {
    for accepted in [two_deep_arrays(422), widened_arrays(422)] {
        assert_eq!(check(&accepted.encode()), Verdict::Accepted);
    }
    for (unequal, bytes) in [(unequal_inside(434), 434), (unequal_outside(422), 422)] {
        let unequal = unequal.encode();
        assert_eq!(unequal.len(), bytes);
        let refused = Verdict::Refused {
            number: 8,
            place: bytes - 16,
        };
        assert_eq!(check(&unequal), refused);
    }
}

#[test]
fn showcase_has_every_record_and_every_code() {
    for sheet in showcases() {
        assert_eq!(check(&sheet.encode()), Verdict::Accepted);
        let kinds: Vec<RecordKind> = sheet.records().iter().map(|at| at.kind()).collect();
        assert!(RecordKind::ALL.iter().all(|kind| kinds.contains(kind)));
        let instructions = sheet.procedures.iter().flat_map(|p| &p.instructions);
        let codes: Vec<u8> = instructions.map(|record| record.code).collect();
        assert!((1..=17).all(|code| codes.contains(&code)));
    }
}

#[test]
fn runnable_sheets_are_accepted() {
    for seed in 0..5_000 {
        let sheet = RUNNABLE.sheet(seed).encode();
        assert_eq!(check(&sheet), Verdict::Accepted, "seed {seed}");
    }
}

#[test]
fn trials_and_misdeclared_sheets_parse_and_most_are_refused() {
    for family in [TRIALS, MISDECLARED, SETTLING] {
        let mut refused = 0;
        for seed in 0..5_000 {
            let sheet = family.sheet(seed).encode();
            assert!(reference::parse(&sheet).is_ok(), "{} {seed}", family.name);
            refused += usize::from(check(&sheet) != Verdict::Accepted);
        }
        assert!(refused > 2_500, "{}: {refused}", family.name);
    }
}

type Make = fn(&mut Random) -> Run;

#[test]
fn short_sheets_are_accepted_and_soon_done() {
    for seed in 0..300 {
        // Edition 2 has two bytes more in each of the seven QTs and in a GN.
        for (make, most) in [(short as Make, 260), (short_in_second_edition, 276)] {
            let run = make(&mut Random::new(seed));
            assert!(run.sheet.len() <= most, "seed {seed}");
            let (outcome, _) = run.on(reference::run);
            match outcome {
                Outcome::Stopped { stop, steps, .. } => {
                    assert!(stop == Stop::Done && steps <= 18, "seed {seed}");
                }
                refused => panic!("seed {seed}: {refused:?}"),
            }
        }
    }
}
