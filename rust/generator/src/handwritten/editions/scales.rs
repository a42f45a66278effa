//! The range of named rights, and of the rights in a QT and a GN.

use super::{bit, case, refused, whole, Case, First, Sample, Second, ACCEPTED};
use crate::handwritten::edited;
use crate::records::{named_rights, OPEN};
use reference::Edition;

const NAMED: &str = "Edition 2 has n 0..31";
const DECLARED: &str = "Declared type: bits 0..n";
const LEAST: &str = "mark, base (a declared type), least set (2 bytes, named rights)";

pub fn cases() -> Vec<Case> {
    let mut all = named_cases();
    all.extend(rights_cases());
    all.extend(least_cases());
    all.extend(other_bases());
    all
}

#[rustfmt::skip]
fn named_cases() -> Vec<Case> {
    let first = "named rights n 0..15";
    let with = |edition: Edition, named: u8| Sample { named, rights: 0, least: 0, ..whole(edition) }.bytes();
    vec![
        case("edition 1: n = 15", first, with(First, 15), ACCEPTED),
        case("edition 1: n = 16", first, with(First, 16), refused(5, 6)),
        case("edition 1: n = 22", first, with(First, 22), refused(5, 6)),
        case("edition 1: n = 31", first, with(First, 31), refused(5, 6)),
        case("edition 2: n = 0", NAMED, with(Second, 0), ACCEPTED),
        case("edition 2: n = 15", NAMED, with(Second, 15), ACCEPTED),
        case("edition 2: n = 16", NAMED, with(Second, 16), ACCEPTED),
        case("edition 2: n = 22", "One registry's call type needs 22", with(Second, 22), ACCEPTED),
        case("edition 2: n = 31", NAMED, with(Second, 31), ACCEPTED),
        case("edition 2: n = 32", NAMED, with(Second, 32), refused(5, 6)),
        case("edition 2: n = 33", NAMED, with(Second, 33), refused(5, 6)),
        case("edition 2: n = 255", NAMED, with(Second, 255), refused(5, 6)),
    ]
}

/// A type of edition 2 with so many rights, a QT, at 26, with those given, and
/// a GN, at 74, with the least set.
fn declared(named: u8, rights: u32, least: u32) -> Vec<u8> {
    Sample {
        named,
        rights,
        least,
        ..whole(Second)
    }
    .bytes()
}

fn rights_of(named: u8, rights: u32) -> Vec<u8> {
    declared(named, rights, 0)
}

#[rustfmt::skip]
fn rights_cases() -> Vec<Case> {
    vec![
        case("right 22 of 22", DECLARED, rights_of(22, bit(22)), ACCEPTED),
        case("right 23 of 22", DECLARED, rights_of(22, bit(23)), refused(5, 26)),
        case("right 31 of 22", DECLARED, rights_of(22, bit(31)), refused(5, 26)),
        case("all of 22", DECLARED, rights_of(22, OPEN | named_rights(22)), ACCEPTED),
        case("all of 22 and one more", DECLARED, rights_of(22, named_rights(23)), refused(5, 26)),
        case("rights 0, 16 and 31", DECLARED, rights_of(31, OPEN | bit(16) | bit(31)), ACCEPTED),
        case("all of 31", DECLARED, rights_of(31, u32::MAX), ACCEPTED),
        case("right 15 of 15, edition 2", DECLARED, rights_of(15, bit(15)), ACCEPTED),
        case("right 16 of 15, edition 2", DECLARED, rights_of(15, bit(16)), refused(5, 26)),
        case("right 16 of 16", DECLARED, rights_of(16, bit(16)), ACCEPTED),
        case("right 17 of 16", DECLARED, rights_of(16, bit(17)), refused(5, 26)),
        case("right 30 of 30", DECLARED, rights_of(30, bit(30)), ACCEPTED),
        case("right 31 of 30", DECLARED, rights_of(30, bit(31)), refused(5, 26)),
        case("open of none, edition 2", DECLARED, rights_of(0, OPEN), ACCEPTED),
        case("right 1 of none, edition 2", DECLARED, rights_of(0, bit(1)), refused(5, 26)),
        case("right 16 of none", DECLARED, rights_of(0, bit(16)), refused(5, 26)),
        case("right 31 of none", DECLARED, rights_of(0, bit(31)), refused(5, 26)),
    ]
}

fn least_of(named: u8, least: u32) -> Vec<u8> {
    declared(named, 0, least)
}

#[rustfmt::skip]
fn least_cases() -> Vec<Case> {
    vec![
        case("least right 31 of 31", LEAST, least_of(31, bit(31)), ACCEPTED),
        case("least right 16 of 31", LEAST, least_of(31, bit(16)), ACCEPTED),
        case("all least rights of 31", LEAST, least_of(31, named_rights(31)), ACCEPTED),
        case("least right 22 of 22", LEAST, least_of(22, bit(22)), ACCEPTED),
        case("least right 23 of 22", LEAST, least_of(22, bit(23)), refused(5, 74)),
        case("least right 31 of 22", LEAST, least_of(22, bit(31)), refused(5, 74)),
        case("least right 16 of 15", LEAST, least_of(15, bit(16)), refused(5, 74)),
        case("least right 31 of 30", LEAST, least_of(30, bit(31)), refused(5, 74)),
        case("least right 16 of none", LEAST, least_of(0, bit(16)), refused(5, 74)),
        case("open as a least right, edition 2", LEAST, least_of(31, OPEN), refused(5, 74)),
        case("open and all least rights", LEAST, least_of(31, u32::MAX), refused(5, 74)),
    ]
}

/// QT 0 at 18 is the integer, QT 2 at 34 an array, QT 3 at 42 ?R. Rights stand
/// from the fourth byte on, the element in the last.
#[rustfmt::skip]
fn other_bases() -> Vec<Case> {
    let integer = "Integer: rights 0";
    let array = "Tray: bits 1 fetch, 2 store, 3 size only";
    let name = "A QT of base 255, rights 0, element 255 stands for ?R";
    let element = "Element: for a tray, a QT number below its own; else 255";
    let with = |edits: &[(usize, u8)]| edited(&whole(Second).sheet(), edits);
    vec![
        case("edition 2: the integer with right 0", integer, with(&[(21, 1)]), refused(5, 18)),
        case("edition 2: the integer with right 8", integer, with(&[(22, 1)]), refused(5, 18)),
        case("edition 2: the integer with right 16", integer, with(&[(23, 1)]), refused(5, 18)),
        case("edition 2: the integer with right 31", integer, with(&[(24, 128)]), refused(5, 18)),
        case("edition 2: the integer with an element", element, with(&[(25, 0)]), refused(5, 18)),
        case("edition 2: an array with open", array, with(&[(37, 15)]), refused(5, 34)),
        case("edition 2: an array with right 4", array, with(&[(37, 16)]), refused(5, 34)),
        case("edition 2: an array with right 8", array, with(&[(38, 1)]), refused(5, 34)),
        case("edition 2: an array with right 16", array, with(&[(39, 1)]), refused(5, 34)),
        // 17 to 19 are 1 to 3 in the upper half.
        case("edition 2: an array with rights 17 to 19", array, with(&[(37, 0), (39, 14)]), refused(5, 34)),
        case("edition 2: an array with right 31", array, with(&[(40, 128)]), refused(5, 34)),
        case("edition 2: an array without rights", array, with(&[(37, 0)]), ACCEPTED),
        case("edition 2: an array of QT 1", element, with(&[(41, 1)]), ACCEPTED),
        case("edition 2: an array of itself", element, with(&[(41, 2)]), refused(5, 34)),
        case("edition 2: an array of 255", element, with(&[(41, 255)]), refused(5, 34)),
        case("edition 2: ?R with right 1", name, with(&[(45, 2)]), refused(5, 42)),
        case("edition 2: ?R with right 16", name, with(&[(47, 1)]), refused(5, 42)),
        case("edition 2: ?R with right 31", name, with(&[(48, 128)]), refused(5, 42)),
        case("edition 2: ?R with an element", name, with(&[(49, 0)]), refused(5, 42)),
        case("edition 2: a record with an element", element, with(&[(33, 0)]), refused(5, 26)),
        case("edition 2: base t+2", "base below t+2", with(&[(28, 3)]), refused(5, 26)),
        case("edition 2: a GN on base 3", "base (a declared type)", with(&[(76, 3)]), refused(5, 74)),
    ]
}
