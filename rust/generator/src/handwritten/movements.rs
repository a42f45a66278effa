//! Each movement needs source ≥ destination: variable, element, slot type,
//! need QT, result QT.

use super::catalogue::{
    beside_main, calling, in_main, in_module, BOTHS, CALL_BOTH, CALL_NONE, CALL_OPEN, CALL_READ,
    HORSES, HORSE_READ, INT, NESTED, NESTED_BOTHS, READS, READS_FETCH, READS_TWIN, SLOT_CALL_READ,
    SLOT_INT, SLOT_READS,
};
use super::{case, refused, Case, ACCEPTED};
use crate::operations::{bind, call, fetch, get_slot, give_back, leave, set_slot, store};
use crate::records::NONE;
use crate::sheet::Procedure;

const MOVEMENT: &str =
    "Each movement needs source ≥ destination: variable, element, slot type, need QT, result QT";

pub fn cases() -> Vec<Case> {
    let mut all = array_cases();
    all.extend(slot_cases());
    all.extend(actual_cases());
    all.extend(result_cases());
    all
}

#[rustfmt::skip]
fn array_cases() -> Vec<Case> {
    vec![
        case("bind, rights lost", MOVEMENT, in_main(&[READS_FETCH, READS_TWIN], bind(0, 1)), ACCEPTED),
        case("bind, rights gained", MOVEMENT, in_main(&[READS, READS_FETCH], bind(0, 1)), refused(9, 178)),
        case("bind to itself", MOVEMENT, in_main(&[READS], bind(0, 0)), ACCEPTED),
        case("bind an integer to a record", MOVEMENT, in_main(&[CALL_NONE, INT], bind(0, 1)), refused(8, 178)),
        case("bind an array to an integer", MOVEMENT, in_main(&[INT, READS], bind(0, 1)), refused(8, 178)),
        case("element to less", MOVEMENT, in_main(&[CALL_READ, BOTHS, INT], fetch(0, 1, 2)), ACCEPTED),
        case("element to more", MOVEMENT, in_main(&[CALL_BOTH, READS, INT], fetch(0, 1, 2)), refused(9, 182)),
        case("element to another type", MOVEMENT, in_main(&[HORSE_READ, READS, INT], fetch(0, 1, 2)), refused(8, 182)),
        case("element to the array's type", MOVEMENT, in_main(&[READS, READS, INT], fetch(0, 1, 2)), refused(8, 182)),
        case("inner array fetched", MOVEMENT, in_main(&[READS_FETCH, NESTED, INT], fetch(0, 1, 2)), ACCEPTED),
        case("inner array of more", MOVEMENT, in_main(&[READS, NESTED_BOTHS, INT], fetch(0, 1, 2)), refused(8, 182)),
        case("more into an element", MOVEMENT, in_main(&[READS, INT, CALL_BOTH], store(0, 1, 2)), ACCEPTED),
        case("less into an element", MOVEMENT, in_main(&[BOTHS, INT, CALL_READ], store(0, 1, 2)), refused(9, 182)),
        case("another type into an element", MOVEMENT, in_main(&[HORSES, INT, CALL_READ], store(0, 1, 2)), refused(8, 182)),
        case("array of more into an element", MOVEMENT, in_main(&[NESTED, INT, BOTHS], store(0, 1, 2)), refused(8, 182)),
    ]
}

#[rustfmt::skip]
fn slot_cases() -> Vec<Case> {
    vec![
        case("slot to less", MOVEMENT, in_module(&[CALL_NONE, CALL_OPEN], get_slot(0, 1, SLOT_CALL_READ)), ACCEPTED),
        case("slot to more", MOVEMENT, in_module(&[CALL_BOTH, CALL_OPEN], get_slot(0, 1, SLOT_CALL_READ)), refused(9, 194)),
        case("slot to open", MOVEMENT, in_module(&[CALL_OPEN, CALL_OPEN], get_slot(0, 1, SLOT_CALL_READ)), refused(9, 194)),
        case("slot to another kind", MOVEMENT, in_module(&[CALL_READ, CALL_OPEN], get_slot(0, 1, SLOT_INT)), refused(8, 194)),
        case("slot array to more", MOVEMENT, in_module(&[BOTHS, CALL_OPEN], get_slot(0, 1, SLOT_READS)), refused(8, 194)),
        case("itself into a slot", MOVEMENT, in_module(&[CALL_OPEN, CALL_OPEN], set_slot(0, 0, SLOT_CALL_READ)), ACCEPTED),
        case("less into a slot", MOVEMENT, in_module(&[CALL_OPEN, CALL_NONE], set_slot(0, 1, SLOT_CALL_READ)), refused(9, 194)),
        case("another kind into a slot", MOVEMENT, in_module(&[CALL_OPEN, INT], set_slot(0, 1, SLOT_READS)), refused(8, 194)),
        case("array of more into a slot", MOVEMENT, in_module(&[CALL_OPEN, BOTHS], set_slot(0, 1, SLOT_READS)), refused(8, 194)),
    ]
}

/// A procedure whose formals have the types given as need and inner.
fn taking(needs: &[u8]) -> Procedure {
    let formals = needs.iter();
    formals
        .fold(Procedure::new(0, NONE), |all, &need| all.formal(need, need))
        .body(&[leave()])
}

#[rustfmt::skip]
fn actual_cases() -> Vec<Case> {
    let two = [CALL_READ, INT];
    vec![
        case("actual of more", MOVEMENT, calling(&[CALL_BOTH], call(NONE, 0, 1), taking(&[CALL_READ])), ACCEPTED),
        case("actual of less", MOVEMENT, calling(&[CALL_NONE], call(NONE, 0, 1), taking(&[CALL_READ])), refused(9, 174)),
        case("actual of another type", MOVEMENT, calling(&[HORSE_READ], call(NONE, 0, 1), taking(&[CALL_READ])), refused(8, 174)),
        case("second actual", MOVEMENT, calling(&[CALL_READ, CALL_READ], call(NONE, 0, 1), taking(&two)), refused(8, 178)),
        case("actuals from b on", MOVEMENT, calling(&[INT, CALL_READ, INT], call(NONE, 1, 1), taking(&two)), ACCEPTED),
    ]
}

/// A procedure that gives back a variable of the first type as the second.
fn giving(inner: u8, result: u8) -> Procedure {
    Procedure::new(0, result)
        .variable(inner)
        .body(&[give_back(0)])
}

#[rustfmt::skip]
fn result_cases() -> Vec<Case> {
    let given = |inner: u8, result: u8| beside_main(giving(inner, result)).encode();
    let kept =
        |variable: u8, result: u8| calling(&[variable], call(0, NONE, 1), giving(result, result));
    vec![
        case("more given back", MOVEMENT, given(CALL_BOTH, CALL_READ), ACCEPTED),
        case("less given back", MOVEMENT, given(CALL_NONE, CALL_READ), refused(9, 190)),
        case("another type given back", MOVEMENT, given(HORSE_READ, CALL_READ), refused(8, 190)),
        case("array of more given back", MOVEMENT, given(BOTHS, READS), refused(8, 190)),
        case("result to less", MOVEMENT, kept(CALL_NONE, CALL_READ), ACCEPTED),
        case("result to more", MOVEMENT, kept(CALL_BOTH, CALL_READ), refused(9, 174)),
        case("result to another type", MOVEMENT, kept(HORSE_READ, CALL_READ), refused(8, 174)),
        case("array result to more", MOVEMENT, kept(BOTHS, READS), refused(8, 174)),
    ]
}
