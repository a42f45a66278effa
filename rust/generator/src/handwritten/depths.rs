//! Array types that are equal for some levels of elements and differ in the
//! next one.

use super::{case, refused, Case, ACCEPTED};
use crate::operations::{bind, call, leave};
use crate::records::{QualifiedRecord, ARRAY_ALL, FETCH, NONE};
use crate::sheet::{Procedure, Sheet, SheetBuilder};

const EQUAL: &str = "same base, same rights, equal elements all the way down";
const NEED: &str = "need and inner are equal, in the sense given for elements";

pub fn cases() -> Vec<Case> {
    let mut all = chain_cases();
    all.extend(twin_cases());
    all.extend(place_cases());
    all
}

/// So many qualified types: the integer, and arrays of the one before, so that
/// type i has i levels. One is bound to another at 22 + 6 for each of them.
fn chained(count: u8, source: u8, destination: u8) -> Vec<u8> {
    let start = SheetBuilder::new().integer();
    let main = Procedure::main()
        .variables(&[destination, source])
        .body(&[bind(0, 1), leave()]);
    (1..count)
        .fold(start, |all, number| all.array(number - 1, ARRAY_ALL))
        .procedure(main)
        .build()
        .encode()
}

#[rustfmt::skip]
fn chain_cases() -> Vec<Case> {
    vec![
        case("arrays of 2 and 3 levels", EQUAL, chained(4, 2, 3), refused(8, 46)),
        case("arrays of 3 and 4 levels", EQUAL, chained(5, 3, 4), refused(8, 52)),
        case("arrays of 4 and 3 levels", EQUAL, chained(5, 4, 3), refused(8, 52)),
        case("arrays of 5 and 6 levels", EQUAL, chained(7, 5, 6), refused(8, 64)),
        case("arrays of 10 and 11 levels", EQUAL, chained(12, 10, 11), refused(8, 94)),
        case("arrays of 31 and 32 levels", EQUAL, chained(33, 31, 32), refused(8, 220)),
        case("arrays of 62 and 63 levels", EQUAL, chained(64, 62, 63), refused(8, 406)),
        case("arrays of 63 and 62 levels", EQUAL, chained(64, 63, 62), refused(8, 406)),
        case("an array of 63 levels", EQUAL, chained(64, 63, 63), ACCEPTED),
    ]
}

/// Two types, call with read and amend and horse with read; the integer, the
/// two qualified types given, and arrays of the two in so many levels. They
/// end at 48 + 12 for each level. The last two are the pair.
pub(super) fn twins(pair: [QualifiedRecord; 2], levels: u8) -> (SheetBuilder, u8, u8) {
    let start = SheetBuilder::new()
        .record_type(2, &[])
        .record_type(2, &[])
        .integer()
        .qualified(pair[0])
        .qualified(pair[1]);
    let elements = 1..2 * levels + 1;
    let all = elements.fold(start, |all, element| all.array(element, ARRAY_ALL));
    (all, 2 * levels + 1, 2 * levels + 2)
}

pub(super) const CALL_READ: QualifiedRecord = of(2, 2);
pub(super) const CALL_BOTH: QualifiedRecord = of(2, 6);
pub(super) const HORSE_READ: QualifiedRecord = of(3, 2);
const INTS: QualifiedRecord = array(ARRAY_ALL);
const INTS_FETCH: QualifiedRecord = array(FETCH);

const fn of(base: u8, rights: u32) -> QualifiedRecord {
    QualifiedRecord {
        base,
        rights,
        element: NONE,
    }
}

const fn array(rights: u32) -> QualifiedRecord {
    QualifiedRecord {
        base: 1,
        rights,
        element: 0,
    }
}

/// The first of the pair is bound to the second, at 64 + 12 for each level.
fn bound(pair: [QualifiedRecord; 2], levels: u8) -> Vec<u8> {
    let (sheet, source, destination) = twins(pair, levels);
    let main = Procedure::main().variables(&[destination, source]);
    let main = main.body(&[bind(0, 1), leave()]);
    sheet.procedure(main).build().encode()
}

#[rustfmt::skip]
fn twin_cases() -> Vec<Case> {
    vec![
        case("equal for 3 levels", EQUAL, bound([CALL_READ, CALL_READ], 3), ACCEPTED),
        case("equal for 30 levels", EQUAL, bound([CALL_READ, CALL_READ], 30), ACCEPTED),
        case("other records in the third level", EQUAL, bound([CALL_READ, HORSE_READ], 3), refused(8, 100)),
        case("other records in the fourth level", EQUAL, bound([CALL_READ, HORSE_READ], 4), refused(8, 112)),
        case("other records in the tenth level", EQUAL, bound([CALL_READ, HORSE_READ], 10), refused(8, 184)),
        case("other records in the thirtieth level", EQUAL, bound([CALL_READ, HORSE_READ], 30), refused(8, 424)),
        case("more rights in the third level", EQUAL, bound([CALL_BOTH, CALL_READ], 3), refused(8, 100)),
        case("fewer rights in the third level", EQUAL, bound([CALL_READ, CALL_BOTH], 3), refused(8, 100)),
        case("more rights in the sixth level", EQUAL, bound([CALL_BOTH, CALL_READ], 6), refused(8, 136)),
        case("more rights in the thirtieth level", EQUAL, bound([CALL_BOTH, CALL_READ], 30), refused(8, 424)),
        case("more array rights in the third level", EQUAL, bound([INTS, INTS_FETCH], 3), refused(8, 100)),
        case("more array rights in the eleventh level", EQUAL, bound([INTS, INTS_FETCH], 11), refused(8, 196)),
    ]
}

/// Main at 84, after three levels, and procedure 1 behind it.
fn through(
    pair: [QualifiedRecord; 2],
    procedures: impl FnOnce(u8, u8) -> [Procedure; 2],
) -> Vec<u8> {
    let (sheet, source, destination) = twins(pair, 3);
    let [main, other] = procedures(source, destination);
    let sheet: Sheet = sheet.procedure(main).procedure(other).build();
    sheet.encode()
}

#[rustfmt::skip]
fn place_cases() -> Vec<Case> {
    let alone = || Procedure::main().body(&[leave()]);
    let formal = |inner: u8, need: u8| Procedure::new(0, NONE).formal(inner, need).body(&[leave()]);
    let calls = |actual: u8| Procedure::main().variable(actual).body(&[call(NONE, 0, 1), leave()]);
    let needed = |pair| through(pair, |need, inner| [alone(), formal(inner, need)]);
    let passed = |pair| through(pair, |actual, need| [calls(actual), formal(need, need)]);
    vec![
        case("need equal for 3 levels", NEED, needed([CALL_READ, CALL_READ]), ACCEPTED),
        case("need of other records in the third level", NEED, needed([CALL_READ, HORSE_READ]), refused(7, 108)),
        case("need of more rights in the third level", NEED, needed([CALL_BOTH, CALL_READ]), refused(7, 108)),
        case("actual of other records in the third level", EQUAL, passed([CALL_READ, HORSE_READ]), refused(8, 96)),
        case("actual of more rights in the third level", EQUAL, passed([CALL_BOTH, CALL_READ]), refused(8, 96)),
    ]
}
