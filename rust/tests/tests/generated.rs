//! The proved engine against the second one on generated sheets, and what
//! these sheets have covered.

use comparison::agreed;
use comparison::coverage::Coverage;
use comparison::workers::on_all_processors;
use generator::accepted::accepted;
use generator::breach::Flaw;
use generator::damage::{damaged, random_bytes};
use generator::wellformed::wellformed;
use generator::Random;
use reference::Verdict;

/// What the generator knows about a sheet without any engine.
#[derive(Clone, Copy)]
enum Known {
    Nothing,
    WellFormed,
    Exactly(Verdict),
}

struct Sample {
    sheet: Vec<u8>,
    known: Known,
}

impl Sample {
    fn new(sheet: Vec<u8>, known: Known) -> Self {
        Sample { sheet, known }
    }
}

/// A family of sheets: its name, the number of seeds, and its sheets for one
/// seed.
struct Family {
    name: &'static str,
    seeds: u64,
    samples: fn(&mut Random) -> Vec<Sample>,
}

const FAMILIES: [Family; 5] = [
    Family {
        name: "random bytes",
        seeds: 40_000,
        samples: |random| vec![Sample::new(random_bytes(random), Known::Nothing)],
    },
    Family {
        name: "damaged",
        seeds: 120_000,
        samples: |random| {
            let sheet = accepted(random);
            vec![Sample::new(damaged(random, &sheet), Known::Nothing)]
        },
    },
    Family {
        name: "well-formed",
        seeds: 80_000,
        samples: |random| vec![Sample::new(wellformed(random).encode(), Known::WellFormed)],
    },
    Family {
        name: "accepted",
        seeds: 40_000,
        samples: |random| {
            let known = Known::Exactly(Verdict::Accepted);
            vec![Sample::new(accepted(random).encode(), known)]
        },
    },
    Family {
        name: "one rule broken",
        seeds: 600,
        samples: |random| {
            let flaws = Flaw::all().into_iter();
            flaws.flat_map(|flaw| broken(random, flaw)).collect()
        },
    },
];

/// The sound and the broken sheet of a flaw.
fn broken(random: &mut Random, flaw: Flaw) -> [Sample; 2] {
    let breach = flaw.build(random);
    let refused = Verdict::Refused {
        number: breach.number,
        place: breach.broken.place(breach.at),
    };
    [
        Sample::new(breach.sound.encode(), Known::Exactly(Verdict::Accepted)),
        Sample::new(breach.broken.encode(), Known::Exactly(refused)),
    ]
}

/// Compares the sheets of a family for some seeds.
fn compare(number: usize, seeds: &mut dyn Iterator<Item = u64>) -> Coverage {
    let family = &FAMILIES[number];
    let mut coverage = Coverage::default();
    for seed in seeds {
        let mut random = Random::new(seed | (number as u64) << 40);
        for Sample { sheet, known } in (family.samples)(&mut random) {
            let name = family.name;
            let verdict = agreed(&sheet).unwrap_or_else(|fault| panic!("{name} {seed}: {fault}"));
            let fits = match known {
                Known::Nothing => true,
                Known::WellFormed => !matches!(verdict, Verdict::Refused { number: ..=5, .. }),
                Known::Exactly(expected) => verdict == expected,
            };
            assert!(fits, "{name} {seed}: both engines say {verdict:?}");
            coverage.add(&sheet, verdict);
        }
    }
    coverage
}

/// Compares a family on all processors.
fn compare_family(number: usize) -> Coverage {
    let mut whole = Coverage::default();
    for part in on_all_processors(FAMILIES[number].seeds, |seeds| compare(number, seeds)) {
        whole.merge(part);
    }
    whole
}

#[test]
fn engines_agree_and_everything_has_come_up() {
    let mut whole = Coverage::default();
    for (number, family) in FAMILIES.iter().enumerate() {
        let part = compare_family(number);
        println!(
            "{}: {} sheets, {} accepted",
            family.name, part.sheets, part.accepted
        );
        whole.merge(part);
    }
    for ((edition, (number, site)), count) in &whole.refused {
        println!("{edition:?}: refused {number} at {site:?}: {count}");
    }
    println!("codes in accepted sheets: {:?}", whole.accepted_codes);
    println!("rights names: {:?}", whole.accepted_generics);
    println!("codes refused: {:?}", whole.refused_codes);
    println!("rights of edition 2: {:?}", whole.rights);
    assert!(whole.sheets >= 300_000, "only {} sheets", whole.sheets);
    let faults = whole.faults();
    assert!(faults.is_empty(), "{}", faults.join("\n"));
}
