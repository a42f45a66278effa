//! Fuel, steps, and the units of frames, arrays and records.

use super::{case, lent, main_alone, maker, stops, with, RunCase};
use crate::handwritten::catalogue::{CALL, CALL_BOTH, CALL_OPEN, HORSE, HORSE_READ, INT, INTS};
use crate::operations::{
    bind, call, jump_if_zero, leave, new_array, new_record, put, set, subtract, take,
};
use crate::records::NONE;
use crate::sheet::Procedure;

const FUEL: &str = "before each step, 12 if steps = fuel";
const COUNTED: &str =
    "A step that stops changes nothing and isn't counted; the return giving 11 is";
const UNITS: &str = "Units: v+2 a frame, size+1 a tray, s+1 a record";
const GIVEN_BACK: &str = "frames are given back on return, objects are not";
const EXACTLY: &str = "17 exactly when live frames plus objects would exceed the bench's words";

pub fn cases() -> Vec<RunCase> {
    let mut all = fuel_cases();
    all.extend(resource_cases());
    all.extend(unit_cases());
    all.extend(frame_cases());
    all
}

#[rustfmt::skip]
fn fuel_cases() -> Vec<RunCase> {
    let three = || lent(main_alone(&[INT], &[set(0, 7), put(0), leave()]));
    let endless = lent(main_alone(&[INT], &[set(0, 0), jump_if_zero(0, 1), leave()]));
    let counts = [set(0, 65_535), set(1, 1), set(2, 0), jump_if_zero(0, 6), subtract(0, 0, 1), jump_if_zero(2, 3), leave()];
    let blank = lent(main_alone(&[INT], &[put(0), leave()]));
    let ended = lent(main_alone(&[INT], &[take(0), leave()])).input(&[]);
    let into_call = with(&[], &[call(NONE, NONE, 1), leave()], &[Procedure::new(0, NONE).body(&[leave()])]);
    vec![
        case("fuel for all steps", FUEL, three().fuel(3), stops(11, 3, &[7], (0, 2))),
        case("fuel for all but the return", FUEL, three().fuel(2), stops(12, 2, &[7], (0, 2))),
        case("fuel for one step", FUEL, three().fuel(1), stops(12, 1, &[], (0, 1))),
        case("a jump to itself", FUEL, endless.fuel(50), stops(12, 50, &[], (0, 1))),
        case("3 + 3 · 65,535 + 2 steps", "bench words, fuel and steps 64", lent(main_alone(&[INT; 3], &counts)).fuel(u64::MAX), stops(11, 196_610, &[], (0, 6))),
        case("12 before 13", FUEL, blank.clone().fuel(0), stops(12, 0, &[], (0, 0))),
        case("13 with fuel", FUEL, blank.fuel(1), stops(13, 0, &[], (0, 0))),
        case("12 before 15", FUEL, ended.clone().fuel(0), stops(12, 0, &[], (0, 0))),
        case("15 with fuel", COUNTED, ended.fuel(1), stops(15, 0, &[], (0, 0))),
        case("12 in a procedure called", "The place is that of the instruction stopped at", lent(into_call.clone()).fuel(1), stops(12, 1, &[], (1, 0))),
        case("12 after the return", "The place is that of the instruction stopped at", lent(into_call).fuel(2), stops(12, 2, &[], (0, 1))),
    ]
}

#[rustfmt::skip]
fn resource_cases() -> Vec<RunCase> {
    let copies = [take(0), put(0), take(0), put(0), leave()];
    let copy = || lent(main_alone(&[INT], &copies));
    vec![
        case("words in their order", "7 take a, the next read. 8 put a on the report", copy(), stops(11, 5, &[1, 2], (0, 4))),
        case("one word to take", "none left to take", copy().input(&[4]), stops(15, 2, &[4], (0, 2))),
        case("one word to put", "no word free", copy().output(1), stops(16, 3, &[1], (0, 3))),
        case("no word to put", "no word free", copy().output(0), stops(16, 1, &[], (0, 1))),
        case("exactly the words", "no word free", copy().input(&[8, 6]).output(2), stops(11, 5, &[8, 6], (0, 4))),
    ]
}

#[rustfmt::skip]
fn unit_cases() -> Vec<RunCase> {
    let three = || lent(main_alone(&[INT; 3], &[leave()]));
    // Main's frame has 4 units.
    let array = |size: u16| lent(main_alone(&[INT, INTS], &[set(0, size), new_array(1, 0), leave()]));
    let twice = [set(0, 0), new_array(1, 0), new_array(1, 0), leave()];
    let again = || lent(main_alone(&[INT, INTS], &twice));
    let largest = [set(0, 0), set(1, 1), subtract(0, 0, 1), new_array(2, 0), leave()];
    vec![
        case("main fits", UNITS, three().memory(5), stops(11, 1, &[], (0, 0))),
        case("main does not fit", "17 before main opens gives 0, 0", three().memory(4), stops(17, 0, &[], (0, 0))),
        case("an array of 3 fits", UNITS, array(3).memory(8), stops(11, 3, &[], (0, 2))),
        case("an array of 3 does not fit", EXACTLY, array(3).memory(7), stops(17, 1, &[], (0, 1))),
        case("an array of 0 fits", UNITS, array(0).memory(5), stops(11, 3, &[], (0, 2))),
        case("an array of 0 has a unit", UNITS, array(0).memory(4), stops(17, 1, &[], (0, 1))),
        case("two arrays fit", GIVEN_BACK, again().memory(6), stops(11, 4, &[], (0, 3))),
        case("the first array is kept", GIVEN_BACK, again().memory(5), stops(17, 2, &[], (0, 2))),
        case("the largest array", EXACTLY, array(65_531).memory(65_536), stops(11, 3, &[], (0, 2))),
        case("one more than the largest", EXACTLY, array(65_532).memory(65_536), stops(17, 1, &[], (0, 1))),
        case("4,294,967,295 cells", EXACTLY, lent(main_alone(&[INT, INT, INTS], &largest)).memory(65_536), stops(17, 3, &[], (0, 3))),
    ]
}

#[rustfmt::skip]
fn frame_cases() -> Vec<RunCase> {
    // A frame of 3 in a main of 2, called twice.
    let small = Procedure::new(0, NONE).variable(INT).body(&[leave()]);
    let calls = [call(NONE, NONE, 1), call(NONE, NONE, 1), leave()];
    let twice = || lent(with(&[], &calls, std::slice::from_ref(&small)));
    // A frame of 3 and a record of 4, of which the record is kept.
    let made = || lent(with(&[CALL_BOTH], &[call(0, NONE, 1), call(0, NONE, 1), leave()], &[maker()]));
    let owned = Procedure::new(HORSE, NONE).variable(HORSE_READ).body(&[new_record(0), leave()]);
    let empty = || lent(with(&[], &[call(NONE, NONE, 1), leave()], std::slice::from_ref(&owned)));
    let own = Procedure::new(CALL, NONE).variables(&[CALL_OPEN, CALL_BOTH]).body(&[new_record(0), bind(1, 0), leave()]);
    let bound = || lent(with(&[], &[call(NONE, NONE, 1), leave()], std::slice::from_ref(&own)));
    let itself = || lent(main_alone(&[], &[call(NONE, NONE, 0), leave()]));
    vec![
        case("one frame after the other", GIVEN_BACK, twice().memory(5), stops(11, 5, &[], (0, 2))),
        case("no room for the frame", EXACTLY, twice().memory(4), stops(17, 0, &[], (0, 0))),
        case("two records are kept", GIVEN_BACK, made().memory(14), stops(11, 7, &[], (0, 2))),
        case("no room for the second record", EXACTLY, made().memory(13), stops(17, 4, &[], (1, 0))),
        case("no room for the first record", EXACTLY, made().memory(9), stops(17, 1, &[], (1, 0))),
        case("no room for the maker's frame", EXACTLY, made().memory(5), stops(17, 0, &[], (0, 0))),
        case("a record without slots fits", UNITS, empty().memory(6), stops(11, 4, &[], (0, 1))),
        case("a record without slots has a unit", UNITS, empty().memory(5), stops(17, 1, &[], (1, 0))),
        case("a record of 3 slots fits", UNITS, bound().memory(10), stops(11, 5, &[], (0, 1))),
        case("a record of 3 slots does not fit", UNITS, bound().memory(9), stops(17, 1, &[], (1, 0))),
        case("main calls main to the end", EXACTLY, itself().memory(10), stops(17, 4, &[], (0, 0))),
        case("main calls main, an odd word", EXACTLY, itself().memory(11), stops(17, 4, &[], (0, 0))),
        case("main calls main in the largest memory", EXACTLY, itself().memory(65_536).fuel(u64::MAX), stops(17, 32_767, &[], (0, 0))),
        case("main calls main until the fuel ends", FUEL, itself().memory(10).fuel(4), stops(12, 4, &[], (0, 0))),
    ]
}
