//! Document 02, S-2: two structures that differ in one level alone, or in
//! their depths, with records or ?R innermost.

use super::depths::{CALL_BOTH, CALL_READ, HORSE_READ};
use super::{case, refused, Case, ACCEPTED};
use crate::operations::{bind, leave};
use crate::records::{QualifiedRecord, ARRAY_ALL as ALL, FETCH, NONE};
use crate::sheet::{Procedure, SheetBuilder};

const INSIDE_OUT: &str = "settle the innermost level before the levels around it";
const VERDICT: &str = "Same verdict for every pair, also of unequal depth";

/// The rights of arrays in each other, the outermost first, and the innermost
/// type.
pub(super) type Structure = (&'static [u32], QualifiedRecord);

const NAME: QualifiedRecord = QualifiedRecord::GENERIC;

/// Two types, call and horse; the integer and the two structures, which share
/// no record. Seven qualified types end at 72. The structures are numbered.
pub(super) fn apart([left, right]: [Structure; 2]) -> (SheetBuilder, [u8; 2]) {
    let types = SheetBuilder::new()
        .record_type(2, &[])
        .record_type(2, &[])
        .integer();
    let written = |all: SheetBuilder, from: u8, (rights, innermost): Structure| {
        let start = all.qualified(innermost);
        let inside_out = (from..).zip(rights.iter().rev());
        inside_out.fold(start, |all, (element, &rights)| all.array(element, rights))
    };
    let numbers = [1, left.0.len() as u8 + 2];
    let all = written(written(types, numbers[0], left), numbers[1], right);
    let ends = [
        left.0.len() as u8 + 1,
        (left.0.len() + right.0.len()) as u8 + 2,
    ];
    (all, ends)
}

/// The left one bound to the right one, at 88 where there are seven types.
pub(super) fn bound(pair: [Structure; 2]) -> Vec<u8> {
    let (sheet, [source, destination]) = apart(pair);
    let main = Procedure::main().variables(&[destination, source]);
    let main = main.body(&[bind(0, 1), leave()]);
    sheet.procedure(main).build().encode()
}

/// A formal that needs the left one and is the right one inside, at 96.
pub(super) fn needed(pair: [Structure; 2]) -> Vec<u8> {
    let (sheet, [need, inner]) = apart(pair);
    let formal = Procedure::new(0, NONE).formal(inner, need);
    sheet
        .procedure(Procedure::main().body(&[leave()]))
        .procedure(formal.body(&[leave()]))
        .build()
        .encode()
}

/// The left one bound to the right one in a procedure for ?R ≥ call{read}, at
/// 109.
pub(super) fn named(pair: [Structure; 2]) -> Vec<u8> {
    let (sheet, [source, destination]) = apart(pair);
    let binds = Procedure::new(0, NONE).bound(2, 2);
    let binds = binds.variables(&[destination, source]);
    sheet
        .procedure(Procedure::main().body(&[leave()]))
        .procedure(binds.body(&[bind(0, 1), leave()]))
        .build()
        .encode()
}

#[rustfmt::skip]
pub fn cases() -> Vec<Case> {
    let whole = (&[ALL, ALL][..], CALL_READ);
    let less_outside = (&[FETCH, ALL][..], CALL_READ);
    let less_between = (&[ALL, FETCH][..], CALL_READ);
    let (one, three) = ((&[ALL][..], CALL_READ), (&[ALL, ALL, ALL][..], CALL_READ));
    let name = (&[ALL, ALL][..], NAME);
    vec![
        case("three levels, equal", VERDICT, bound([whole, whole]), ACCEPTED),
        case("three levels, the innermost of another base", INSIDE_OUT, bound([whole, (&[ALL, ALL], HORSE_READ)]), refused(8, 88)),
        case("three levels, the innermost of more rights", INSIDE_OUT, bound([whole, (&[ALL, ALL], CALL_BOTH)]), refused(8, 88)),
        case("three levels, fewer rights between", INSIDE_OUT, bound([whole, less_between]), refused(8, 88)),
        case("three levels, more rights between", INSIDE_OUT, bound([less_between, whole]), refused(8, 88)),
        case("three levels, fewer rights outside", VERDICT, bound([whole, less_outside]), ACCEPTED),
        case("three levels, more rights outside", VERDICT, bound([less_outside, whole]), refused(9, 88)),
        case("need of three levels, equal", VERDICT, needed([whole, whole]), ACCEPTED),
        case("need of three levels, another innermost", INSIDE_OUT, needed([whole, (&[ALL, ALL], CALL_BOTH)]), refused(7, 96)),
        case("need of three levels, other rights between", INSIDE_OUT, needed([whole, less_between]), refused(7, 96)),
        case("need of three levels, other rights outside", INSIDE_OUT, needed([whole, less_outside]), refused(7, 96)),
        case("depth 1 to depth 3", VERDICT, bound([one, three]), refused(8, 88)),
        case("depth 3 to depth 1", VERDICT, bound([three, one]), refused(8, 88)),
        case("need of depth 1, inner of depth 3", VERDICT, needed([one, three]), refused(7, 96)),
        case("need of depth 3, inner of depth 1", VERDICT, needed([three, one]), refused(7, 96)),
        case("?R innermost, equal", VERDICT, named([name, name]), ACCEPTED),
        case("?R innermost, fewer rights between", INSIDE_OUT, named([name, (&[ALL, FETCH], NAME)]), refused(8, 109)),
        case("?R innermost, its least set beside it", INSIDE_OUT, named([name, whole]), refused(8, 109)),
        case("?R innermost, from its least set", INSIDE_OUT, named([whole, name]), refused(8, 109)),
        case("?R innermost, depth 1 to depth 3", VERDICT, named([(&[ALL], NAME), (&[ALL, ALL, ALL], NAME)]), refused(8, 109)),
        case("?R innermost, depth 3 to depth 1", VERDICT, named([(&[ALL, ALL, ALL], NAME), (&[ALL], NAME)]), refused(8, 109)),
    ]
}
