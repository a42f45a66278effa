//! The order with ?R inside its procedure (8, 9), codes 13 to 15, and what
//! need and inner must have in common (7).

use super::{
    beside_main, bounded, case, inside, refused, within, Case, ACCEPTED, GENERIC, GENERICS,
    GENERICS_FETCH, GENERICS_TWIN, GENERIC_TWIN, NESTED_GENERICS,
};
use crate::handwritten::catalogue::{
    AMEND, CALL, CALL_BOTH, CALL_NONE, CALL_OPEN, CALL_READ, HORSE, HORSE_READ, INT, NESTED, READ,
    READS, SLOT_INT,
};
use crate::operations::{
    bind, fetch, get_slot, give_back, leave, new_array, new_record, put, set_slot, size, store,
};
use crate::records::NONE;
use crate::sheet::Procedure;

const SAME: &str = "Inside, ?R ≥ ?R";
const LEAST: &str = "?R ≥ any subset of the least set on that base";
const NOTHING: &str = "nothing else reaches ?R (another base 8, else 9)";
const RAISED: &str =
    "it is never amplified: a formal with ?R as need or inner has it as both, else 7";

pub fn cases() -> Vec<Case> {
    let mut all = order_cases();
    all.extend(array_cases());
    all.extend(record_cases());
    all.extend(raise_cases());
    all
}

/// Variable 2 is bound to 3 where the least set is {read}.
fn bound(to: u8, from: u8) -> Vec<u8> {
    inside(READ, &[to, from], bind(2, 3))
}

#[rustfmt::skip]
fn order_cases() -> Vec<Case> {
    // The instruction stands at 255.
    vec![
        case("?R to ?R", SAME, bound(GENERIC, GENERIC), ACCEPTED),
        case("?R to its twin", SAME, bound(GENERIC_TWIN, GENERIC), ACCEPTED),
        case("?R to the least set", LEAST, bound(CALL_READ, GENERIC), ACCEPTED),
        case("?R to no rights", LEAST, bound(CALL_NONE, GENERIC), ACCEPTED),
        case("?R to more", LEAST, bound(CALL_BOTH, GENERIC), refused(9, 255)),
        case("?R to another base", LEAST, bound(HORSE_READ, GENERIC), refused(8, 255)),
        case("?R to an integer", LEAST, bound(INT, GENERIC), refused(8, 255)),
        case("?R to an array of ?R", LEAST, bound(GENERICS, GENERIC), refused(8, 255)),
        case("an empty least set gives no right", LEAST, inside(0, &[CALL_READ, GENERIC], bind(2, 3)), refused(9, 255)),
        case("a full least set gives all", LEAST, inside(READ | AMEND, &[CALL_BOTH, GENERIC], bind(2, 3)), ACCEPTED),
        case("the least set to ?R", NOTHING, bound(GENERIC, CALL_READ), refused(9, 255)),
        case("all rights to ?R", NOTHING, bound(GENERIC, CALL_BOTH), refused(9, 255)),
        case("no rights to ?R", NOTHING, inside(0, &[GENERIC, CALL_NONE], bind(2, 3)), refused(9, 255)),
        case("another base to ?R", NOTHING, bound(GENERIC, HORSE_READ), refused(8, 255)),
        case("an integer to ?R", NOTHING, bound(GENERIC, INT), refused(8, 255)),
        case("an array of ?R to ?R", NOTHING, bound(GENERIC, GENERICS), refused(8, 255)),
        case("?R is put", "take and put use integer variables", inside(READ, &[], put(0)), refused(8, 247)),
        case("?R is returned", SAME, returned(GENERIC, GENERIC), ACCEPTED),
        case("?R is returned as the least set", LEAST, returned(CALL_READ, GENERIC), ACCEPTED),
        case("?R is returned as more", LEAST, returned(CALL_BOTH, GENERIC), refused(9, 243)),
        case("a call is returned as ?R", NOTHING, returned(GENERIC, CALL_BOTH), refused(9, 243)),
        case("a horse is returned as ?R", NOTHING, returned(GENERIC, HORSE_READ), refused(8, 243)),
    ]
}

/// Procedure 1 gives back its variable, at 239, by the instruction at 243.
fn returned(result: u8, variable: u8) -> Vec<u8> {
    let procedure = bounded(0, result, READ).variable(variable);
    beside_main(procedure.body(&[give_back(0)])).encode()
}

#[rustfmt::skip]
fn array_cases() -> Vec<Case> {
    let equal = "same base, same rights, equal elements all the way down";
    vec![
        case("arrays of ?R", equal, bound(GENERICS, GENERICS_TWIN), ACCEPTED),
        case("fewer rights on an array of ?R", SAME, bound(GENERICS_FETCH, GENERICS), ACCEPTED),
        case("more rights on an array of ?R", SAME, bound(GENERICS, GENERICS_FETCH), refused(9, 255)),
        case("arrays of arrays of ?R", equal, bound(NESTED_GENERICS, NESTED_GENERICS), ACCEPTED),
        case("an array of ?R to one of the least set", equal, bound(READS, GENERICS), refused(8, 255)),
        case("an array of the least set to one of ?R", equal, bound(GENERICS, READS), refused(8, 255)),
        case("?R two levels down", equal, bound(NESTED, NESTED_GENERICS), refused(8, 255)),
        // Variable 1 is an array of ?R, 2 an integer; the instruction is at 255.
        case("?R fetched", SAME, inside(READ, &[INT, GENERIC], fetch(3, 1, 2)), ACCEPTED),
        case("?R fetched as the least set", LEAST, inside(READ, &[INT, CALL_READ], fetch(3, 1, 2)), ACCEPTED),
        case("?R fetched as more", LEAST, inside(READ, &[INT, CALL_BOTH], fetch(3, 1, 2)), refused(9, 255)),
        case("?R stored", SAME, inside(READ, &[INT, GENERIC], store(1, 2, 3)), ACCEPTED),
        case("a call stored as ?R", NOTHING, inside(READ, &[INT, CALL_BOTH], store(1, 2, 3)), refused(9, 255)),
        case("a horse stored as ?R", NOTHING, inside(READ, &[INT, HORSE_READ], store(1, 2, 3)), refused(8, 255)),
        case("a new array of ?R", "9 a←new tray", inside(READ, &[INT, GENERICS], new_array(3, 2)), ACCEPTED),
        case("a new array as ?R", "9 a←new tray", inside(READ, &[INT, GENERIC], new_array(3, 2)), refused(8, 255)),
        case("the size of an array of ?R", "12 a←size of b", inside(READ, &[INT], size(2, 1)), ACCEPTED),
        case("the size of ?R", "12 a←size of b", inside(READ, &[INT], size(2, 0)), refused(8, 251)),
    ]
}

#[rustfmt::skip]
fn record_cases() -> Vec<Case> {
    let on = "?R has its GN's base";
    // In the module of call, with ?R on call or on horse; variable 2 is an
    // integer, and the instruction is at 251.
    let own = |instruction| within(bounded(CALL, NONE, READ), &[INT], instruction);
    let other = |instruction| within(Procedure::new(CALL, NONE).bound(HORSE, READ), &[INT], instruction);
    vec![
        case("a new record as ?R", NOTHING, own(new_record(0)), refused(9, 251)),
        case("a new record as ?R on another base", NOTHING, other(new_record(0)), refused(8, 251)),
        case("a slot of ?R", on, own(get_slot(2, 0, SLOT_INT)), refused(9, 251)),
        case("a slot of ?R on another base", on, other(get_slot(2, 0, SLOT_INT)), refused(8, 251)),
        case("a slot of ?R put", on, own(set_slot(0, 2, SLOT_INT)), refused(9, 251)),
        case("a slot of ?R put on another base", on, other(set_slot(0, 2, SLOT_INT)), refused(8, 251)),
        case("a slot of an array of ?R", on, own(get_slot(2, 1, SLOT_INT)), refused(8, 251)),
    ]
}

/// Procedure 1 with one formal, at 239.
fn formal(owner: u8, inner: u8, need: u8) -> Vec<u8> {
    let procedure = bounded(owner, NONE, READ).formal(inner, need);
    beside_main(procedure.body(&[leave()])).encode()
}

#[rustfmt::skip]
fn raise_cases() -> Vec<Case> {
    vec![
        case("?R as need and inner", RAISED, formal(0, GENERIC, GENERIC), ACCEPTED),
        case("?R and its twin", RAISED, formal(0, GENERIC, GENERIC_TWIN), ACCEPTED),
        case("?R in its own module", RAISED, formal(CALL, GENERIC, GENERIC), ACCEPTED),
        case("inner ?R, need the least set", RAISED, formal(0, GENERIC, CALL_READ), refused(7, 239)),
        case("inner the least set, need ?R", RAISED, formal(0, CALL_READ, GENERIC), refused(7, 239)),
        case("inner ?R, need of the module", RAISED, formal(CALL, GENERIC, CALL_READ), refused(7, 239)),
        case("inner of the module, need ?R", RAISED, formal(CALL, CALL_OPEN, GENERIC), refused(7, 239)),
        case("inner of the module without open, need ?R", RAISED, formal(CALL, CALL_READ, GENERIC), refused(7, 239)),
        case("arrays of ?R and its twin", RAISED, formal(CALL, GENERICS, GENERICS_TWIN), ACCEPTED),
        case("an array of ?R, need of the least set", RAISED, formal(0, GENERICS, READS), refused(7, 239)),
        case("an array of the least set, need of ?R", RAISED, formal(CALL, READS, GENERICS), refused(7, 239)),
        case("other rights on an array of ?R", RAISED, formal(0, GENERICS, GENERICS_FETCH), refused(7, 239)),
        case("?R beside another formal", RAISED, formal(CALL, CALL_OPEN, CALL_READ), ACCEPTED),
    ]
}
