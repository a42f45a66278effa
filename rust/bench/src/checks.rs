//! The proved check beside the second engine.

use crate::count;
use crate::places::Place;
use crate::sheets::{largest, small, Named};
use crate::timing::{Call, Rounds, FEW, MANY};
use comparison::agreed;
use generator::large::mostly_instructions;
use std::hint::black_box;

/// The two in the order in which they take turns.
pub const PROVED: usize = 0;
pub const SECOND: usize = 1;

const SIZES: [(&str, usize); 6] = [
    ("1 KiB", 1_024),
    ("2 KiB", 2_048),
    ("4 KiB", 4_096),
    ("8 KiB", 8_192),
    ("16 KiB", 16_384),
    ("32 KiB", 32_768),
];

/// What the charts show.
pub struct Checks {
    pub largest: Vec<(&'static str, Rounds<2>)>,
    /// By the bytes of a sheet.
    pub growth: Vec<(usize, Rounds<2>)>,
}

pub fn report() -> Checks {
    println!("Largest sheets, all accepted: medians of a check, with the quartiles of the ratio");
    let largest = table(MANY, largest(), count::check);
    println!();
    println!(
        "Small sheets: the smallest; two arrays 31 deep, compared once, the last ones refused"
    );
    table(MANY, small(), count::check);
    println!();
    println!("Time against size, mostly instructions");
    let sheets = SIZES.map(|(name, bytes)| (name, mostly_instructions(bytes).encode()));
    let lengths = sheets.each_ref().map(|(_, sheet)| sheet.len());
    let growth = table(FEW, sheets, |_| None).into_iter();
    let growth = growth
        .zip(lengths)
        .map(|((_, rounds), length)| (length, rounds));
    Checks {
        largest,
        growth: growth.collect(),
    }
}

/// A line for each sheet, with the instructions if they are counted.
fn table<const COUNT: usize>(
    rounds: usize,
    sheets: [Named; COUNT],
    count: fn(&str) -> Option<u64>,
) -> Vec<(&'static str, Rounds<2>)> {
    heading();
    for (_, sheet) in &sheets {
        agreed(sheet).unwrap_or_else(|fault| panic!("{fault}"));
    }
    let at = |place| sheets.each_ref().map(|(_, sheet)| calls(place, sheet));
    let all = sheets.iter().zip(Rounds::measured(rounds, at));
    let row = |((name, sheet), rounds): (&Named, Rounds<2>)| {
        show(name, sheet.len(), &rounds, count(name));
        (*name, rounds)
    };
    all.map(row).collect()
}

/// The proved check and the second engine's.
fn calls<'a>(place: &'a Place, sheet: &'a [u8]) -> [Call<'a>; 2] {
    [
        Box::new(|| {
            black_box((place.check)(black_box(sheet), &mut [0]));
        }),
        Box::new(|| {
            black_box(reference::check(black_box(sheet)));
        }),
    ]
}

fn heading() {
    println!(
        "{:<20} {:>6} {:>10} {:>7} {:>10} {:>7} {:>20} {:>9} {:>13}",
        "sheet",
        "bytes",
        "proved us",
        "MB/s",
        "second us",
        "MB/s",
        "second/proved",
        "quietest",
        "instructions"
    );
}

/// One line of a table; the ratio says how many times faster the proved check
/// is, in all rounds and in the quietest tenth; the instructions are its own.
fn show(name: &str, bytes: usize, rounds: &Rounds<2>, instructions: Option<u64>) {
    let [proved, second] = [PROVED, SECOND].map(|engine| rounds.seconds(engine));
    println!(
        "{name:<20} {bytes:>6} {:>10.3} {:>7.0} {:>10.3} {:>7.0} {:>20} {:>9.2} {:>13}",
        proved * 1e6,
        bytes as f64 / proved / 1e6,
        second * 1e6,
        bytes as f64 / second / 1e6,
        rounds.ratio(SECOND, PROVED),
        rounds.quietest().ratio(SECOND, PROVED).median,
        count::shown(instructions),
    );
}
