//! 18 and 19 at each code but calls and returns, in sheets that check
//! refuses.

use super::{at, at_1, case, lent, main_alone, maker, stops, watched, with, RunCase};
use crate::handwritten::catalogue::{
    BOTHS, BOTHS_FETCH, CALL, CALL_BOTH, CALL_NONE, CALL_OPEN, CALL_READ, HORSE, HORSES,
    HORSE_OPEN, HORSE_READ, INT, INTS, NESTED, NESTED_BOTHS, NESTED_TWIN, READS, READS_FETCH,
    READS_FETCH_SIZE, READS_FETCH_STORE, READS_STORE_SIZE, READS_TWIN, SLOT_CALL_READ, SLOT_INT,
};
use crate::operations::{
    add, bind, call, fetch, get_slot, give_back, jump_if_zero, leave, less, new_array, new_record,
    put, set, set_slot, size, store, subtract, take,
};
use crate::records::{InstructionRecord, NONE};
use crate::runs::Run;
use crate::sheet::Procedure;

const KINDS: &str = "kinds of the values read";
const INTO: &str = "each computed, taken or new value on its way into a";
const RIGHT: &str = "Every test reads carried rights";
const BINDING: &str = "another type, or unequal elements, 18; a declared right not carried, 19";
const CARRIES: &str = "else the cell carries the declared rights";

pub fn cases() -> Vec<RunCase> {
    let mut all = integer_cases();
    all.extend(array_cases());
    all.extend(element_cases());
    all.extend(bind_cases());
    all.extend(equality_cases());
    all.extend(record_cases());
    all.extend(slot_cases());
    all
}

/// An integer 1 in 0, an array of one in 1, a blank integer in 2, after two
/// steps; then the instruction.
fn beside_array(instruction: InstructionRecord) -> Run {
    let body = [set(0, 1), new_array(1, 0), instruction, leave()];
    lent(main_alone(&[INT, INTS, INT], &body))
}

#[rustfmt::skip]
fn integer_cases() -> Vec<RunCase> {
    let kind = || watched((8, at(3, 2)), 18, 2, (0, 2));
    vec![
        case("set into an array", INTO, lent(main_alone(&[READS], &[set(0, 1), leave()])), watched((8, at(1, 0)), 18, 0, (0, 0))),
        case("take into a record", INTO, lent(main_alone(&[CALL_READ], &[take(0), leave()])), watched((8, at(1, 0)), 18, 0, (0, 0))),
        case("add an array", KINDS, beside_array(add(2, 0, 1)), kind()),
        case("add to an array", KINDS, beside_array(add(2, 1, 0)), kind()),
        case("add into an array", INTO, beside_array(add(1, 0, 0)), kind()),
        case("subtract an array", KINDS, beside_array(subtract(2, 0, 1)), kind()),
        case("subtract into an array", INTO, beside_array(subtract(1, 0, 0)), kind()),
        case("less than an array", KINDS, beside_array(less(2, 0, 1)), kind()),
        case("less into an array", INTO, beside_array(less(1, 0, 0)), kind()),
        case("jump by an array", KINDS, beside_array(jump_if_zero(1, 0)), kind()),
        case("put an array", KINDS, beside_array(put(1)), kind()),
        case("new array in an integer", "18 unless a is declared a tray", beside_array(new_array(2, 0)), kind()),
        case("new array of array size", KINDS, beside_array(new_array(1, 1)), kind()),
        case("fetch at an array", KINDS, beside_array(fetch(2, 1, 1)), kind()),
        case("store at an array", KINDS, beside_array(store(1, 1, 0)), kind()),
        case("fetch from an integer", KINDS, beside_array(fetch(2, 0, 0)), kind()),
        case("store to an integer", KINDS, beside_array(store(0, 0, 0)), kind()),
        case("size of an integer, watched", KINDS, beside_array(size(2, 0)), kind()),
        case("size into an array, watched", INTO, beside_array(size(1, 1)), kind()),
    ]
}

#[rustfmt::skip]
fn array_cases() -> Vec<RunCase> {
    let made = call(1, NONE, 1);
    let record = |instruction| lent(with(&[INT, CALL_BOTH], &[made, set(0, 0), instruction, leave()], &[maker()]));
    let stored = [call(2, NONE, 1), set(0, 1), new_array(1, 0), set(0, 0), store(1, 0, 2), leave()];
    let fetched = [set(0, 1), new_array(1, 0), set(0, 0), fetch(2, 1, 0), leave()];
    let sized = [set(0, 1), new_array(1, 0), size(0, 1), leave()];
    vec![
        case("fetch from a record, watched", KINDS, record(fetch(0, 1, 0)), watched((8, at(2, 2)), 18, 4, (0, 2))),
        case("store to a record", KINDS, record(store(1, 0, 0)), watched((8, at(2, 2)), 18, 4, (0, 2))),
        case("size of a record", KINDS, record(size(0, 1)), watched((8, at(2, 2)), 18, 4, (0, 2))),
        case("put a record", KINDS, record(put(1)), watched((8, at(2, 2)), 18, 4, (0, 2))),
        case("fetch without fetch, watched", RIGHT, lent(main_alone(&[INT, READS_STORE_SIZE, CALL_READ], &fetched)), watched((9, at(3, 3)), 19, 3, (0, 3))),
        case("store without store, watched", RIGHT, lent(with(&[INT, READS_FETCH_SIZE, CALL_BOTH], &stored, &[maker()])), watched((9, at(3, 4)), 19, 6, (0, 4))),
        case("size without size, watched", RIGHT, lent(main_alone(&[INT, READS_FETCH_STORE], &sized)), watched((9, at(2, 2)), 19, 2, (0, 2))),
        case("size with size", RIGHT, lent(main_alone(&[INT, READS_FETCH_SIZE], &sized)), stops(11, 4, &[], (0, 3))),
    ]
}

#[rustfmt::skip]
fn element_cases() -> Vec<RunCase> {
    // A record from the maker in 2, stored in an array of one and fetched.
    let body = |to: u8| [call(2, NONE, 1), set(0, 1), new_array(1, 0), set(0, 0), store(1, 0, 2), fetch(to, 1, 0), leave()];
    let moved = |array: u8, from: u8, to: u8| lent(with(&[INT, array, from, to], &body(3), &[maker()]));
    let in_place = lent(with(&[INT, READS, CALL_BOTH], &body(2), &[maker()]));
    vec![
        case("stored and fetched", CARRIES, moved(READS, CALL_BOTH, CALL_READ), stops(11, 9, &[], (0, 6))),
        case("fetched as less", CARRIES, moved(BOTHS, CALL_BOTH, CALL_NONE), stops(11, 9, &[], (0, 6))),
        case("a cell carries the element's rights", CARRIES, in_place, watched((9, at(3, 5)), 19, 7, (0, 5))),
        case("fetched as another type", BINDING, moved(READS, CALL_BOTH, HORSE_READ), watched((8, at(4, 5)), 18, 7, (0, 5))),
        case("stored with less", BINDING, moved(BOTHS, CALL_READ, CALL_READ), watched((9, at(4, 4)), 19, 6, (0, 4))),
        case("stored as another type", BINDING, moved(HORSES, CALL_READ, CALL_READ), watched((8, at(4, 4)), 18, 6, (0, 4))),
    ]
}

#[rustfmt::skip]
fn bind_cases() -> Vec<RunCase> {
    let two = |second: u8| lent(with(&[CALL_READ, second], &[call(0, NONE, 1), bind(1, 0), leave()], &[maker()]));
    let back = [call(0, NONE, 1), bind(1, 0), bind(2, 1), leave()];
    let there_and_back = lent(with(&[CALL_BOTH, CALL_READ, CALL_BOTH], &back, &[maker()]));
    vec![
        case("bound to less", CARRIES, two(CALL_NONE), stops(11, 5, &[], (0, 2))),
        case("bound to more", BINDING, two(CALL_BOTH), watched((9, at(2, 1)), 19, 3, (0, 1))),
        case("bound to another type", BINDING, two(HORSE_READ), watched((8, at(2, 1)), 18, 3, (0, 1))),
        case("bound to an integer", BINDING, two(INT), watched((8, at(2, 1)), 18, 3, (0, 1))),
        case("rights given up are gone", CARRIES, there_and_back, watched((9, at(3, 2)), 19, 4, (0, 2))),
    ]
}

#[rustfmt::skip]
fn equality_cases() -> Vec<RunCase> {
    let arrays = |source: u8, destination: u8| lent(main_alone(&[INT, source, destination], &[set(0, 1), new_array(1, 0), bind(2, 1), leave()]));
    let unequal = || watched((8, at(3, 2)), 18, 2, (0, 2));
    vec![
        case("K5, watched", "tray[call{read}]{fetch,store} ≥ tray[call{read}]{fetch}", arrays(READS_FETCH_STORE, READS_FETCH), stops(11, 4, &[], (0, 3))),
        case("K6, watched", "Elements ordered by subset: K6", arrays(BOTHS, READS_FETCH_STORE), unequal()),
        case("K7, watched", "K7 becomes a yes and K6 remains a no", arrays(BOTHS_FETCH, READS_FETCH), stops(11, 4, &[], (0, 3))),
        case("K8, watched", "QT numbers compared for structure: K8", arrays(READS, READS_TWIN), stops(11, 4, &[], (0, 3))),
        case("K8 two levels down, watched", "equal elements all the way down", arrays(NESTED_TWIN, NESTED), stops(11, 4, &[], (0, 3))),
        case("unequal two levels down, watched", "equal elements all the way down", arrays(NESTED_BOTHS, NESTED), unequal()),
        case("more array rights", BINDING, arrays(READS_FETCH, READS), watched((9, at(3, 2)), 19, 2, (0, 2))),
    ]
}

/// Main calls procedure 1 of the module of call; procedure 2 gives back a
/// horse. Instruction i of procedure 1 stands at `in_1(v, i)`.
fn module(variables: &[u8], body: &[InstructionRecord]) -> Run {
    let procedure = Procedure::new(CALL, NONE)
        .variables(variables)
        .body(body)
        .body(&[leave()]);
    let horse = Procedure::new(HORSE, HORSE_READ)
        .variable(HORSE_OPEN)
        .body(&[new_record(0), give_back(0)]);
    let main = [call(NONE, NONE, 1), leave()];
    lent(with(&[], &main, &[procedure, horse]))
}

fn in_1(variables: usize, instruction: usize) -> usize {
    at_1((0, 2), variables, instruction)
}

#[rustfmt::skip]
fn record_cases() -> Vec<RunCase> {
    let horse = |instruction| module(&[HORSE_READ, INT], &[call(0, NONE, 2), set(1, 1), instruction]);
    let closed = |instruction| module(&[CALL_OPEN, INT, CALL_BOTH], &[new_record(0), set(1, 5), set_slot(0, 1, SLOT_INT), bind(2, 0), instruction]);
    vec![
        case("new record as another type", INTO, module(&[HORSE_READ], &[new_record(0)]), watched((8, in_1(1, 0)), 18, 1, (1, 0))),
        case("new record as an integer", INTO, module(&[INT], &[new_record(0)]), watched((8, in_1(1, 0)), 18, 1, (1, 0))),
        case("new record as an array", INTO, module(&[READS], &[new_record(0)]), watched((8, in_1(1, 0)), 18, 1, (1, 0))),
        case("get from another type, watched", KINDS, horse(get_slot(1, 0, SLOT_INT)), watched((8, in_1(2, 2)), 18, 5, (1, 2))),
        case("put into another type, watched", KINDS, horse(set_slot(0, 1, SLOT_INT)), watched((8, in_1(2, 2)), 18, 5, (1, 2))),
        case("get from an integer, watched", KINDS, horse(get_slot(1, 1, SLOT_INT)), watched((8, in_1(2, 2)), 18, 5, (1, 2))),
        case("put into an integer", KINDS, horse(set_slot(1, 1, SLOT_INT)), watched((8, in_1(2, 2)), 18, 5, (1, 2))),
        case("get without open, watched", RIGHT, closed(get_slot(1, 2, SLOT_INT)), watched((9, in_1(3, 4)), 19, 5, (1, 4))),
        case("put in without open, watched", RIGHT, closed(set_slot(2, 1, SLOT_INT)), watched((9, in_1(3, 4)), 19, 5, (1, 4))),
    ]
}

#[rustfmt::skip]
fn slot_cases() -> Vec<RunCase> {
    let got = |to: u8| module(&[CALL_OPEN, to], &[new_record(0), set_slot(0, 0, SLOT_CALL_READ), get_slot(1, 0, SLOT_CALL_READ)]);
    let less = [new_record(0), bind(1, 0), set_slot(0, 1, SLOT_CALL_READ)];
    let other = [new_record(0), set(1, 1), set_slot(0, 1, SLOT_CALL_READ)];
    vec![
        case("a slot got as it is", "slots by the TY", got(CALL_READ), stops(11, 6, &[], (0, 1))),
        case("a slot got as more", "slots by the TY", got(CALL_BOTH), watched((9, in_1(2, 2)), 19, 3, (1, 2))),
        case("a slot got as another type", BINDING, got(INT), watched((8, in_1(2, 2)), 18, 3, (1, 2))),
        case("a slot put with less", BINDING, module(&[CALL_OPEN, CALL_NONE], &less), watched((9, in_1(2, 2)), 19, 3, (1, 2))),
        case("a slot put as another type", BINDING, module(&[CALL_OPEN, INT], &other), watched((8, in_1(2, 2)), 18, 3, (1, 2))),
    ]
}
