//! Which stop comes first where several tests of an instruction fail, in
//! sheets that check refuses; calls and returns stand apart.

use super::{at, at_1, case, lent, main_alone, maker, watched, with, RunCase};
use crate::handwritten::catalogue::{
    BOTHS, CALL, CALL_BOTH, CALL_OPEN, CALL_READ, HORSE_READ, INT, INTS, READS, READS_FETCH,
    READS_NONE, READS_STORE_SIZE, SLOT_CALL_READ, SLOT_INT,
};
use crate::operations::{
    add, bind, call, fetch, get_slot, leave, new_array, new_record, put, set, set_slot, size,
    store, subtract, take,
};
use crate::records::{InstructionRecord, NONE};
use crate::runs::Run;
use crate::sheet::Procedure;

const BLANKS: &str = "13 for a blank variable that is read and not moved; kinds of the values read";
const KINDS: &str = "kinds of the values read; right; 14; then 15, 16 or 17";
const RIGHT: &str = "right; 14; then 15, 16 or 17; then moved values in order";
const INDEX: &str = "14; then 15, 16 or 17; then moved values in order, a blank one 13";
const RESOURCES: &str = "then 15, 16 or 17; then moved values in order";
const BINDING: &str = "another type, or unequal elements, 18; a declared right not carried, 19";

pub fn cases() -> Vec<RunCase> {
    let mut all = integer_cases();
    all.extend(fetch_cases());
    all.extend(store_cases());
    all.extend(size_cases());
    all.extend(record_cases());
    all
}

#[rustfmt::skip]
fn integer_cases() -> Vec<RunCase> {
    // 0 is an integer, 1 an array, 2 and 3 are blank integers.
    let four = |instruction| lent(main_alone(&[INT, INTS, INT, INT], &[set(0, 1), new_array(1, 0), instruction, leave()]));
    let byte = at(4, 2);
    let new = |words: u16| lent(main_alone(&[INT, INT], &[set(0, words), new_array(1, 0), leave()]));
    vec![
        case("blank, then an array", BLANKS, four(add(3, 2, 1)), watched((8, byte), 13, 2, (0, 2))),
        case("an array, then blank", BLANKS, four(add(3, 1, 2)), watched((8, byte), 13, 2, (0, 2))),
        case("an array, then blank, subtracted", BLANKS, four(subtract(3, 1, 2)), watched((8, byte), 13, 2, (0, 2))),
        case("blank, into an array", BLANKS, four(add(1, 2, 0)), watched((8, byte), 13, 2, (0, 2))),
        case("blank size, into an integer", BLANKS, four(new_array(3, 2)), watched((8, byte), 13, 2, (0, 2))),
        case("18 before 17 at a new array", KINDS, new(200), watched((8, at(2, 1)), 18, 1, (0, 1))),
        case("15 before 18", RESOURCES, lent(main_alone(&[INTS], &[take(0), leave()])).input(&[]), watched((8, at(1, 0)), 15, 0, (0, 0))),
        case("18 before 16", KINDS, four(put(1)).output(0), watched((8, byte), 18, 2, (0, 2))),
        case("13 before 18 and 16", BLANKS, lent(main_alone(&[INTS], &[put(0), leave()])).output(0), watched((8, at(1, 0)), 13, 0, (0, 0))),
        case("18 before 19 in a binding", BINDING, lent(main_alone(&[INT, READS_NONE, BOTHS], &[set(0, 1), new_array(1, 0), bind(2, 1), leave()])), watched((8, at(3, 2)), 18, 2, (0, 2))),
    ]
}

/// An array of the size in 1, the type of 2 given, 3 a blank integer; the
/// index 0 in 0; then the instruction, after three steps.
fn array(size: u16, array: u8, third: u8, instruction: InstructionRecord) -> Run {
    let body = [
        set(0, size),
        new_array(1, 0),
        set(0, 0),
        instruction,
        leave(),
    ];
    lent(main_alone(&[INT, array, third, INT], &body))
}

#[rustfmt::skip]
fn fetch_cases() -> Vec<RunCase> {
    let byte = at(4, 3);
    let record = lent(with(&[CALL_BOTH, INT, INT], &[call(0, NONE, 1), fetch(2, 0, 1), leave()], &[maker()]));
    vec![
        case("10: blank index, a record", BLANKS, record, watched((8, at(3, 1)), 13, 3, (0, 1))),
        case("10: blank array, an array as index", BLANKS, array(1, READS, READS, fetch(3, 2, 1)), watched((8, byte), 13, 3, (0, 3))),
        case("10: blank index, no fetch", BLANKS, array(1, READS_STORE_SIZE, CALL_READ, fetch(2, 1, 3)), watched((9, byte), 13, 3, (0, 3))),
        case("10: an array as index, no fetch", KINDS, array(1, READS_STORE_SIZE, CALL_READ, fetch(2, 1, 1)), watched((8, byte), 18, 3, (0, 3))),
        case("10: no fetch, past the end", RIGHT, array(0, READS_STORE_SIZE, CALL_READ, fetch(2, 1, 0)), watched((9, byte), 19, 3, (0, 3))),
        case("10: no fetch, blank cell", RIGHT, array(1, READS_STORE_SIZE, CALL_READ, fetch(2, 1, 0)), watched((9, byte), 19, 3, (0, 3))),
        case("10: past the end, into another type", INDEX, array(0, READS, HORSE_READ, fetch(2, 1, 0)), watched((8, byte), 14, 3, (0, 3))),
        case("10: blank cell, into another type", INDEX, array(1, READS, HORSE_READ, fetch(2, 1, 0)), watched((8, byte), 13, 3, (0, 3))),
        case("10: blank cell, into more", INDEX, array(1, READS, CALL_BOTH, fetch(2, 1, 0)), watched((9, byte), 13, 3, (0, 3))),
    ]
}

#[rustfmt::skip]
fn store_cases() -> Vec<RunCase> {
    let byte = at(4, 3);
    let less = [call(2, NONE, 1), set(0, 0), new_array(1, 0), store(1, 0, 2), leave()];
    vec![
        case("11: blank index, of another type", BLANKS, array(1, READS, CALL_READ, store(1, 3, 0)), watched((8, byte), 13, 3, (0, 3))),
        case("11: an array as index, a blank value", KINDS, array(1, READS, CALL_READ, store(1, 1, 2)), watched((8, byte), 18, 3, (0, 3))),
        case("11: blank index, no store", BLANKS, array(1, READS_FETCH, CALL_READ, store(1, 3, 2)), watched((9, byte), 13, 3, (0, 3))),
        case("11: an array as index, no store", KINDS, array(1, READS_FETCH, CALL_READ, store(1, 1, 2)), watched((8, byte), 18, 3, (0, 3))),
        case("11: no store, past the end", RIGHT, array(0, READS_FETCH, CALL_READ, store(1, 0, 2)), watched((9, byte), 19, 3, (0, 3))),
        case("11: no store, a blank value", RIGHT, array(1, READS_FETCH, CALL_READ, store(1, 0, 2)), watched((9, byte), 19, 3, (0, 3))),
        case("11: no store, of another type", RIGHT, array(1, READS_FETCH, CALL_READ, store(1, 0, 0)), watched((9, byte), 19, 3, (0, 3))),
        case("11: past the end, of another type", INDEX, array(0, READS, CALL_READ, store(1, 0, 0)), watched((8, byte), 14, 3, (0, 3))),
        case("11: past the end, with less", INDEX, lent(with(&[INT, BOTHS, CALL_READ], &less, &[maker()])), watched((9, at(3, 3)), 14, 5, (0, 3))),
    ]
}

#[rustfmt::skip]
fn size_cases() -> Vec<RunCase> {
    let record = lent(with(&[INTS, CALL_READ], &[call(1, NONE, 1), size(0, 1), leave()], &[maker()]));
    vec![
        case("12: blank, into an array", BLANKS, lent(main_alone(&[INTS, INTS], &[size(0, 1), leave()])), watched((8, at(2, 0)), 13, 0, (0, 0))),
        case("12: a record, which lacks bit 3", KINDS, record, watched((8, at(2, 1)), 18, 3, (0, 1))),
        case("12: no size, into an array", RIGHT, array(1, READS_FETCH, INTS, size(2, 1)), watched((9, at(4, 3)), 19, 3, (0, 3))),
    ]
}

/// Main calls procedure 1 of the module of call. Its frame has 2 units, that
/// of the procedure v + 2.
fn module(variables: &[u8], body: &[InstructionRecord]) -> Run {
    let procedure = Procedure::new(CALL, NONE)
        .variables(variables)
        .body(body)
        .body(&[leave()]);
    lent(with(&[], &[call(NONE, NONE, 1), leave()], &[procedure]))
}

fn in_1(variables: usize, instruction: usize) -> usize {
    at_1((0, 2), variables, instruction)
}

#[rustfmt::skip]
fn record_cases() -> Vec<RunCase> {
    let new = || module(&[HORSE_READ], &[new_record(0)]);
    // A record with open in 0 and without in 2; 1 is blank.
    let closed = |second: u8, instruction| module(&[CALL_OPEN, second, CALL_BOTH], &[new_record(0), bind(2, 0), instruction]);
    let byte = in_1(3, 2);
    vec![
        case("13: 17 before 18", RESOURCES, new().memory(8), watched((8, in_1(1, 0)), 17, 1, (1, 0))),
        case("13: 18, just room", RESOURCES, new().memory(9), watched((8, in_1(1, 0)), 18, 1, (1, 0))),
        case("14: blank record, into another type", BLANKS, module(&[CALL_OPEN, HORSE_READ], &[get_slot(1, 0, SLOT_INT)]), watched((8, in_1(2, 0)), 13, 1, (1, 0))),
        case("14: an integer, which lacks open", KINDS, module(&[INT, INT], &[set(0, 1), get_slot(1, 0, SLOT_INT)]), watched((8, in_1(2, 1)), 18, 2, (1, 1))),
        case("14: no open, blank slot", RIGHT, closed(INT, get_slot(1, 2, SLOT_INT)), watched((9, byte), 19, 3, (1, 2))),
        case("14: no open, into another type", RIGHT, closed(HORSE_READ, get_slot(1, 2, SLOT_INT)), watched((9, byte), 19, 3, (1, 2))),
        case("14: blank slot, into another type", "a blank one 13", closed(HORSE_READ, get_slot(1, 0, SLOT_INT)), watched((8, byte), 13, 3, (1, 2))),
        case("15: blank record, of another type", BLANKS, module(&[CALL_OPEN, INT], &[set(1, 1), set_slot(0, 1, SLOT_CALL_READ)]), watched((8, in_1(2, 1)), 13, 2, (1, 1))),
        case("15: an integer, a blank value", KINDS, module(&[INT, INT], &[set(0, 1), set_slot(0, 1, SLOT_INT)]), watched((8, in_1(2, 1)), 18, 2, (1, 1))),
        case("15: no open, a blank value", RIGHT, closed(INT, set_slot(2, 1, SLOT_INT)), watched((9, byte), 19, 3, (1, 2))),
        case("15: no open, of another type", RIGHT, closed(INT, set_slot(2, 0, SLOT_INT)), watched((9, byte), 19, 3, (1, 2))),
    ]
}
