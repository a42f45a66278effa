//! Single instructions of accepted sheets: what they do, and which stop comes
//! first.

use super::{case, lent, main_alone, stops, with, RunCase};
use crate::handwritten::catalogue::{CALL, CALL_OPEN, INT, INTS, READS, SLOT_CALL_READ, SLOT_INT};
use crate::operations::{
    add, bind, call, fetch, get_slot, jump_if_zero, leave, less, new_array, new_record, put, set,
    set_slot, size, store, subtract, take,
};
use crate::records::{InstructionRecord, NONE};
use crate::runs::Run;
use crate::sheet::Procedure;

const READ: &str = "13 for a blank variable that is read and not moved";
const MOVED: &str = "then moved values in order, a blank one 13";
const BEFORE: &str = "14; then 15, 16 or 17; then moved values in order";
const NOTHING: &str = "A step that stops changes nothing";

pub fn cases() -> Vec<RunCase> {
    let mut all = integer_cases();
    all.extend(effect_cases());
    all.extend(array_cases());
    all.extend(record_cases());
    all
}

#[rustfmt::skip]
fn integer_cases() -> Vec<RunCase> {
    let one_of = |instruction| lent(main_alone(&[INT; 3], &[set(0, 1), instruction, leave()]));
    vec![
        case("add, first blank", READ, one_of(add(2, 1, 0)), stops(13, 1, &[], (0, 1))),
        case("add, second blank", READ, one_of(add(2, 0, 1)), stops(13, 1, &[], (0, 1))),
        case("subtract, second blank", READ, one_of(subtract(2, 0, 1)), stops(13, 1, &[], (0, 1))),
        case("less, first blank", READ, one_of(less(2, 1, 0)), stops(13, 1, &[], (0, 1))),
        case("jump, blank", READ, one_of(jump_if_zero(1, 0)), stops(13, 1, &[], (0, 1))),
        case("put, blank", READ, one_of(put(1)), stops(13, 1, &[], (0, 1))),
        case("13 before 16", "13 for a blank variable; then 15, 16 or 17", one_of(put(1)).output(0), stops(13, 1, &[], (0, 1))),
        case("bind, blank", MOVED, one_of(bind(2, 1)), stops(13, 1, &[], (0, 1))),
        case("bind to itself, blank", MOVED, one_of(bind(1, 1)), stops(13, 1, &[], (0, 1))),
        case("the variable written may be blank", READ, one_of(add(2, 0, 0)), stops(11, 3, &[], (0, 2))),
    ]
}

#[rustfmt::skip]
fn effect_cases() -> Vec<RunCase> {
    let in_three = |body: &[InstructionRecord]| lent(main_alone(&[INT; 3], body));
    let far = [set(0, 0), set(1, 1), subtract(2, 0, 1), less(1, 0, 2), put(1), less(1, 2, 0), put(1), less(1, 2, 2), put(1), leave()];
    let jumps = [set(0, 0), jump_if_zero(0, 3), put(0), set(1, 65_535), jump_if_zero(1, 0), put(1), leave()];
    let carry = [set(0, 65_535), add(0, 0, 0), put(0), leave()];
    let own = [set(0, 3), add(0, 0, 0), subtract(1, 0, 0), put(0), put(1), leave()];
    // Two, then one, then the way out: 2 + 3 · 4 + 1 steps.
    let counted = [set(0, 2), set(1, 1), jump_if_zero(0, 6), put(0), subtract(0, 0, 1), jump_if_zero(2, 2), leave()];
    let counts = [set(2, 0), counted[0], counted[1], jump_if_zero(0, 7), put(0), subtract(0, 0, 1), jump_if_zero(2, 3), leave()];
    vec![
        case("less has no sign", "4 a:=1 if b<c, else 0", in_three(&far), stops(11, 10, &[1, 0, 0], (0, 9))),
        case("a jump taken and one not taken", "5 if a is zero go to instruction k", in_three(&jumps), stops(11, 6, &[65_535], (0, 6))),
        case("65,535 + 65,535", "2 add a:=b+c", in_three(&carry), stops(11, 4, &[131_070], (0, 3))),
        case("all operands one variable", "2 add a:=b+c and 3 subtract a:=b−c", in_three(&own), stops(11, 6, &[6, 0], (0, 5))),
        case("a loop whose jump is blank", READ, in_three(&counted), stops(13, 5, &[2], (0, 5))),
        case("a loop", "5 if a is zero go to instruction k", in_three(&counts), stops(11, 13, &[2, 1], (0, 7))),
    ]
}

/// Main with an array of two integers in 1, the words 0 and 2 in 2 and 3, and
/// a blank integer 4; its first three steps make the array and its fourth
/// sets 3.
fn with_array(instructions: &[InstructionRecord]) -> Run {
    let mut body = vec![set(0, 2), new_array(1, 0), set(2, 0), set(3, 2)];
    body.extend(instructions);
    body.push(leave());
    lent(main_alone(&[INT, INTS, INT, INT, INT, INTS], &body))
}

#[rustfmt::skip]
fn array_cases() -> Vec<RunCase> {
    let shared = [store(1, 2, 3), bind(5, 1), fetch(4, 5, 2), put(4), size(4, 5), put(4)];
    vec![
        case("a new array is blank", "new cells are blank", with_array(&[fetch(4, 1, 2)]), stops(13, 4, &[], (0, 4))),
        case("fetch at the end", "index ≥ size", with_array(&[fetch(4, 1, 3)]), stops(14, 4, &[], (0, 4))),
        case("fetch, blank array", READ, with_array(&[fetch(4, 5, 2)]), stops(13, 4, &[], (0, 4))),
        case("fetch, blank index", READ, with_array(&[fetch(4, 1, 4)]), stops(13, 4, &[], (0, 4))),
        case("fetch, blank array at the end", READ, with_array(&[fetch(4, 5, 3)]), stops(13, 4, &[], (0, 4))),
        case("store at the end", "index ≥ size", with_array(&[store(1, 3, 2)]), stops(14, 4, &[], (0, 4))),
        case("14 before a blank value", BEFORE, with_array(&[store(1, 3, 4)]), stops(14, 4, &[], (0, 4))),
        case("a blank value inside", MOVED, with_array(&[store(1, 2, 4)]), stops(13, 4, &[], (0, 4))),
        case("store, blank index", READ, with_array(&[store(1, 4, 2)]), stops(13, 4, &[], (0, 4))),
        case("store, blank array", READ, with_array(&[store(5, 2, 2)]), stops(13, 4, &[], (0, 4))),
        case("size, blank", READ, with_array(&[size(4, 5)]), stops(13, 4, &[], (0, 4))),
        case("new array, blank size", READ, with_array(&[new_array(5, 4)]), stops(13, 4, &[], (0, 4))),
        case("13 before 17", "13 for a blank variable; then 15, 16 or 17", with_array(&[new_array(5, 4)]).memory(11), stops(13, 4, &[], (0, 4))),
        case("an array is shared, not copied", "6 bind a←b", with_array(&shared), stops(11, 11, &[2, 2], (0, 10))),
        case("the index is the variable written", "10 fetch a←b[c]", with_array(&[store(1, 2, 3), fetch(2, 1, 2), put(2)]), stops(11, 8, &[2], (0, 7))),
    ]
}

/// Main calls procedure 1 of the module of call: a record with open in 0, a
/// word 5 in 1, an array in 2, a record that is blank in 3.
fn in_module(instructions: &[InstructionRecord]) -> Run {
    let mut body = vec![new_record(0), set(1, 5)];
    body.extend(instructions);
    body.push(leave());
    let procedure = Procedure::new(CALL, NONE)
        .variables(&[CALL_OPEN, INT, READS, CALL_OPEN])
        .body(&body);
    lent(with(&[], &[call(NONE, NONE, 1), leave()], &[procedure]))
}

#[rustfmt::skip]
fn record_cases() -> Vec<RunCase> {
    let filled = [set_slot(0, 1, SLOT_INT), take(1), get_slot(1, 0, SLOT_INT), put(1)];
    let itself = [set_slot(0, 0, SLOT_CALL_READ), bind(3, 0), set_slot(3, 1, SLOT_INT), take(1), get_slot(1, 0, SLOT_INT), put(1)];
    vec![
        case("a new record is blank", "new cells are blank", in_module(&[get_slot(1, 0, SLOT_INT)]), stops(13, 3, &[], (1, 2))),
        case("get from a blank record", READ, in_module(&[get_slot(1, 3, SLOT_INT)]), stops(13, 3, &[], (1, 2))),
        case("put into a blank record", READ, in_module(&[set_slot(3, 1, SLOT_INT)]), stops(13, 3, &[], (1, 2))),
        case("put a blank array in", MOVED, in_module(&[set_slot(0, 2, 2)]), stops(13, 3, &[], (1, 2))),
        case("a slot put and got", "14 a←slot k of b. 15 slot k of a←b", in_module(&filled), stops(11, 9, &[5], (0, 1))),
        case("a record within itself, shared", "6 bind a←b", in_module(&itself), stops(11, 11, &[5], (0, 1))),
        case("a new record, no room", NOTHING, in_module(&[new_record(3)]).memory(12), stops(17, 3, &[], (1, 2))),
    ]
}
