//! Where ?R may not be used (5), in the pass for calls.

use super::{
    beside_main, bounded, calling, case, edited, generic_types, refused, Case, ACCEPTED, GENERIC,
    GENERICS, NESTED_GENERICS,
};
use crate::handwritten::catalogue::{CALL, CALL_OPEN, CALL_READ, HORSE_OPEN, INT, READ};
use crate::operations::{call, give_back, leave};
use crate::records::NONE;
use crate::sheet::Procedure;

const USED: &str =
    "Used (itself or as an element) in a slot or without a GN, it is 5 at the TY, PR or VR";
const PASS: &str = "in the pass for calls, which goes record by record";

pub fn cases() -> Vec<Case> {
    let mut all = place_cases();
    all.extend(order_cases());
    all
}

/// Procedure 1 at 226, without a GN: a formal at 234, a variable at 238.
fn plain(result: u8, inner: u8, need: u8, variable: u8) -> Vec<u8> {
    let procedure = Procedure::new(0, result).formal(inner, need);
    let last = if result == NONE {
        leave()
    } else {
        give_back(1)
    };
    beside_main(procedure.variable(variable).body(&[last])).encode()
}

#[rustfmt::skip]
fn place_cases() -> Vec<Case> {
    let sheet = beside_main(Procedure::new(0, NONE).body(&[leave()]));
    let with = |result, inner, variable| {
        let procedure = bounded(0, result, READ).formal(inner, inner).variable(variable);
        beside_main(procedure.body(&[give_back(1)])).encode()
    };
    vec![
        // TY 0 stands at 6, its first slot byte at 10; TY 1 has no slots.
        case("?R in a slot", USED, edited(&sheet, &[(10, GENERIC)]), refused(5, 6)),
        case("?R in the last slot", USED, edited(&sheet, &[(12, GENERIC)]), refused(5, 6)),
        case("an array of ?R in a slot", USED, edited(&sheet, &[(11, GENERICS)]), refused(5, 6)),
        case("arrays of arrays of ?R in a slot", USED, edited(&sheet, &[(11, NESTED_GENERICS)]), refused(5, 6)),
        case("?R as a result, no GN", USED, plain(GENERIC, INT, INT, CALL_READ), refused(5, 226)),
        case("an array of ?R as a result, no GN", USED, plain(NESTED_GENERICS, INT, INT, CALL_READ), refused(5, 226)),
        case("?R as inner, no GN", USED, plain(NONE, GENERIC, INT, INT), refused(5, 234)),
        case("?R as need, no GN", USED, plain(NONE, INT, GENERIC, INT), refused(5, 234)),
        case("?R as both, no GN", USED, plain(NONE, GENERICS, GENERICS, INT), refused(5, 234)),
        case("?R as a variable, no GN", USED, plain(NONE, INT, INT, GENERIC), refused(5, 238)),
        case("an array of ?R as a variable, no GN", USED, plain(NONE, INT, INT, NESTED_GENERICS), refused(5, 238)),
        case("?R in main", USED, calling(&[GENERIC], leave(), &[]), refused(5, 218)),
        case("?R with a GN", USED, with(GENERIC, GENERIC, GENERIC), ACCEPTED),
        case("arrays of arrays of ?R with a GN", USED, with(NESTED_GENERICS, NESTED_GENERICS, NESTED_GENERICS), ACCEPTED),
    ]
}

#[rustfmt::skip]
fn order_cases() -> Vec<Case> {
    let strange = call(NONE, NONE, 9);
    let named = Procedure::new(0, GENERIC).variable(GENERIC).body(&[give_back(0)]);
    let bad_call = Procedure::new(0, NONE).body(&[strange, leave()]);
    let both = Procedure::new(0, NONE).variable(GENERIC).body(&[strange, leave()]);
    let slot = |place: usize, slot: u8, procedure: &Procedure| {
        let sheet = beside_main(procedure.clone());
        edited(&sheet, &[(place, slot)])
    };
    let two = |first: &Procedure, second: &Procedure| {
        let main = Procedure::main().body(&[leave()]);
        generic_types().procedure(main).procedure(first.clone()).procedure(second.clone()).build().encode()
    };
    let mut left_over = plain(NONE, INT, INT, GENERIC);
    left_over.push(0);
    let open = Procedure::new(0, NONE).variables(&[CALL_OPEN, GENERIC]).body(&[leave()]);
    let scale = Procedure::new(0, NONE).variables(&[GENERIC, 30]).body(&[leave()]);
    vec![
        case("a slot before a result", PASS, slot(10, GENERIC, &named), refused(5, 6)),
        case("a result before a variable", PASS, beside_main(named.clone()).encode(), refused(5, 226)),
        case("a variable before a call", PASS, beside_main(both).encode(), refused(5, 234)),
        // Procedure 1 at 226 with its call at 234; procedure 2 at 250.
        case("a call before the next PR", PASS, two(&bad_call, &named), refused(5, 234)),
        case("main's call before a result", PASS, calling(&[], strange, std::slice::from_ref(&named)), refused(5, 218)),
        case("leftover bytes before ?R", PASS, left_over, refused(2, 250)),
        case("a field before ?R", PASS, beside_main(scale).encode(), refused(5, 238)),
        case("?R before an open slot", PASS, slot(10, HORSE_OPEN, &named), refused(5, 226)),
        case("?R before an open inner", PASS, beside_main(open).encode(), refused(5, 238)),
        case("?R in the second of two procedures", PASS, two(&bounded(CALL, NONE, READ).formal(GENERIC, GENERIC).body(&[leave()]), &named), refused(5, 251)),
    ]
}
