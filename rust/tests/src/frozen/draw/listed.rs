//! Sheets that are gone through one by one.

use super::{drawn, Drawn};
use generator::bounds::FAMILIES;
use generator::damage::write_field;
use generator::handwritten::{self, SMALLEST};
use generator::large::SHEETS;
use generator::limits::fields;
use generator::loops::LOOPS;
use generator::showcase::showcase;
use generator::Random;
use reference::machine::MAX_MEMORY;
use reference::{Edition, MAX_SHEET};

pub fn hand_written() -> Vec<Drawn> {
    let sheets = handwritten::cases().into_iter();
    let sheets = sheets.map(|case| drawn(format!("sheet:{}", case.name), case.sheet));
    let runs = handwritten::runs::cases().into_iter();
    let runs = runs.map(|case| (format!("run:{}", case.name), case.run));
    sheets.chain(runs).collect()
}

/// The refusal of the memory is the last of all.
pub fn in_large_memory() -> impl Iterator<Item = Drawn> {
    let cases = handwritten::cases().into_iter().step_by(2);
    cases.map(|case| {
        let (kind, mut run) = drawn("large memory", case.sheet);
        run.memory_words = MAX_MEMORY + 1;
        (kind, run)
    })
}

/// Positions of each family of bounds, evenly.
pub fn at_limits() -> impl Iterator<Item = Drawn> {
    const EACH: usize = 140;
    FAMILIES.iter().flat_map(|family| {
        let count = (family.count)(Edition::First);
        let taken = count.min(EACH);
        let positions = (0..taken).map(move |number| number * count / taken);
        positions.map(|position| {
            let run = family.bound(Edition::First, position as u64).run;
            (format!("limit:{}", family.name), run)
        })
    })
}

/// Every byte drawn anew, every byte with one bit changed, fields at their
/// limits, and cuts.
pub fn of_showcase(random: &mut Random) -> Vec<Drawn> {
    let (sheet, sound) = (showcase(), showcase().encode());
    let changed = |kind: &str, change: &dyn Fn(&mut Vec<u8>)| {
        let mut bytes = sound.clone();
        change(&mut bytes);
        drawn(kind, bytes)
    };
    let mut all = vec![changed("showcase", &|_| ())];
    let places = 0..sound.len();
    all.extend(places.clone().map(|place| {
        let byte = random.byte();
        changed("showcase:byte", &|bytes| bytes[place] = byte)
    }));
    all.extend(places.clone().map(|place| {
        let bit = 1 << random.below(8);
        changed("showcase:bit", &|bytes| bytes[place] ^= bit)
    }));
    for (at, place) in sheet.places() {
        all.extend(fields(&sheet, at).iter().map(|field| {
            let value = field.values[random.below(field.values.len())];
            changed("showcase:field", &|bytes| {
                write_field(bytes, place, field, value)
            })
        }));
    }
    let lengths = places.rev().step_by(3);
    all.extend(lengths.map(|length| changed("showcase:cut", &|bytes| bytes.truncate(length))));
    all
}

/// Editions that there are not.
pub fn editions() -> impl Iterator<Item = Drawn> {
    let sheets = [SMALLEST.to_vec(), showcase().encode()].into_iter();
    sheets.flat_map(|sheet| {
        (0..=255).step_by(5).map(move |edition| {
            let mut sheet = sheet.clone();
            sheet[2] = edition;
            drawn("edition", sheet)
        })
    })
}

/// Around the longest sheet that is read at all.
pub fn long() -> impl Iterator<Item = Drawn> {
    const LENGTHS: [usize; 6] = [
        MAX_SHEET - 1,
        MAX_SHEET,
        MAX_SHEET + 1,
        MAX_SHEET + 2,
        65_536,
        65_536 + SMALLEST.len(),
    ];
    (0..=255).step_by(15).flat_map(|filling| {
        LENGTHS.into_iter().map(move |length| {
            let mut sheet = SMALLEST.to_vec();
            sheet.resize(length, filling);
            drawn("long", sheet)
        })
    })
}

/// The largest sheets that are accepted, whole and with another last code.
pub fn large() -> impl Iterator<Item = Drawn> {
    SHEETS.into_iter().flat_map(|(_, sheet)| {
        let whole = sheet(MAX_SHEET).encode();
        let mut flawed = whole.clone();
        flawed[whole.len() - 6] = 18;
        [whole, flawed].map(|sheet| drawn("large", sheet))
    })
}

pub fn loops() -> impl Iterator<Item = Drawn> {
    LOOPS.into_iter().flat_map(|(_, sheet)| {
        let fuels = [0, 1, 10, 999, 10_000, 65_537].into_iter();
        fuels.map(move |fuel| {
            let (kind, mut run) = drawn("loop", sheet().encode());
            run.fuel = fuel;
            (kind, run)
        })
    })
}
