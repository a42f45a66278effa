//! The sheets that are timed and counted, by name.

use generator::handwritten::SMALLEST;
use generator::large::{two_deep_arrays, unequal_inside, unequal_outside, widened_arrays, SHEETS};
use generator::loops::LOOPS;

pub type Named = (&'static str, Vec<u8>);

/// The largest sheets, all accepted.
pub fn largest() -> [Named; 4] {
    SHEETS.map(|(name, sheet)| (name, sheet(32_768).encode()))
}

/// What a check costs at least, and with one pair of deep arrays: sheets of 64
/// qualified types and one bind, which is accepted if they are equal to their
/// innermost elements, or widened in every level, and refused if only these
/// differ, or only the outermost.
pub fn small() -> [Named; 5] {
    [
        ("smallest", SMALLEST.to_vec()),
        ("equal arrays", two_deep_arrays(422).encode()),
        ("widened arrays", widened_arrays(422).encode()),
        ("innermost unequal", unequal_inside(434).encode()),
        ("outermost unequal", unequal_outside(422).encode()),
    ]
}

/// Loops that spend all their fuel.
pub fn loops() -> [Named; 4] {
    LOOPS.map(|(name, sheet)| (name, sheet().encode()))
}

pub fn named(name: &str) -> Option<Vec<u8>> {
    let all = largest().into_iter().chain(small()).chain(loops());
    let mut found = all.filter(|(known, _)| *known == name);
    found.next().map(|(_, sheet)| sheet)
}
