//! Runs of edition 2, with rights from 15 to 31 (document 02, S-5).

use super::{case, lent, refuses, stops, watched, RunCase};
use crate::handwritten::editions::bit;
use crate::handwritten::editions::catalogue::{
    types, ALL, BOTH, BOTHS, BUT_16, BUT_31, GENERIC, GENERICS, INT, NO_RIGHT, OPENED, R15, R16,
    R30, R31, R31S, R31S_FETCH, SLOT_R31, WIDE,
};
use crate::handwritten::SMALLEST;
use crate::operations::{
    bind, call, fetch, get_slot, give_back, leave, new_array, new_record, set, set_slot, store,
};
use crate::records::{InstructionRecord, NONE};
use crate::runs::Run;
use crate::sheet::{Procedure, SheetBuilder};

const CARRIED: &str = "else the cell carries the declared rights";
const LACKING: &str = "a declared right not carried, 19";
const ELEMENTS: &str = "another type, or unequal elements, 18";
const SETTLED: &str = "watch stops there with 18 or 19, with kinds";

pub fn cases() -> Vec<RunCase> {
    let mut all = header_cases();
    all.extend(accepted_cases());
    all.extend(bound_cases());
    all.extend(array_cases());
    all.extend(call_cases());
    all.extend(settling_cases());
    all
}

/// Main, then procedure 1, which gives back a new record with all 31 rights in
/// three steps with the call, then the others. Main's instruction i stands at
/// 154 + 4 v + 8 i, and procedure 1 has 28 bytes.
fn with(variables: &[u8], body: &[InstructionRecord], others: &[Procedure]) -> Run {
    let main = Procedure::main().variables(variables).body(body);
    let maker = Procedure::new(WIDE, ALL).variable(ALL);
    let maker = maker.body(&[new_record(0), give_back(0)]);
    let start = types().procedure(main).procedure(maker);
    let all = others.iter().cloned();
    let sheet = all.fold(start, SheetBuilder::procedure);
    lent(sheet.build().encode())
}

const fn at(variables: usize, instruction: usize) -> usize {
    154 + 4 * variables + 8 * instruction
}

/// The byte of a record of procedure 2, so many bytes after its PR, for a main
/// of three instructions.
const fn at_2(variables: usize, offset: usize) -> usize {
    at(variables, 3) + 28 + offset
}

#[rustfmt::skip]
fn header_cases() -> Vec<RunCase> {
    let neither = "Refusal 4 then means neither 1 nor 2";
    let smallest = |edition: u8| {
        let mut sheet = SMALLEST.to_vec();
        sheet[2] = edition;
        lent(sheet).fuel(1).memory(2)
    };
    vec![
        case("K9 in edition 2", "K9: fuel 1, bench 2: stop 11, one step", smallest(2), stops(11, 1, &[], (0, 0))),
        case("a run of edition 3", neither, smallest(3), refuses(4, 0)),
        case("a run of edition 0", neither, smallest(0), refuses(4, 0)),
        case("10 in edition 2", "10 big bench: over 65,536 words", smallest(2).memory(65_537), refuses(10, 0)),
    ]
}

/// Makes an array of one record in variable 2, by variables 0 and 1: seven
/// steps.
fn filled() -> [InstructionRecord; 5] {
    [
        set(0, 1),
        call(1, NONE, 1),
        new_array(2, 0),
        set(0, 0),
        store(2, 0, 1),
    ]
}

#[rustfmt::skip]
fn accepted_cases() -> Vec<RunCase> {
    let raised = "if its type and inner's base are the callee's owner (2 or more), it carries inner's rights";
    let name = "a tray made under ?R keeps base and set with its element";
    let raises = Procedure::new(WIDE, R31).formal(BOTH, NO_RIGHT).body(&[give_back(0)]);
    let opens = Procedure::new(WIDE, NONE).formal(OPENED, NO_RIGHT).variable(R31)
        .body(&[new_record(1), set_slot(0, 1, SLOT_R31), get_slot(1, 0, SLOT_R31), leave()]);
    let made = made();
    let kept = [call(0, NONE, 1), call(1, 0, 2), set(2, 0), store(1, 2, 0), fetch(3, 1, 2), leave()];
    let fetched = [&filled()[..], &[fetch(3, 2, 0), leave()]].concat();
    let read = [&filled()[..], &[bind(3, 2), fetch(4, 3, 0), leave()]].concat();
    vec![
        case("right 31 carried", CARRIED, with(&[ALL, R31], &[call(0, NONE, 1), bind(1, 0), leave()], &[]), stops(11, 5, &[], (0, 2))),
        case("right 31 amplified", raised, with(&[NO_RIGHT, R31], &[call(0, NONE, 1), call(1, 0, 2), leave()], &[raises]), stops(11, 6, &[], (0, 2))),
        case("right 31 in a slot", "slots by the TY", with(&[NO_RIGHT], &[call(0, NONE, 1), call(NONE, 0, 2), leave()], &[opens]), stops(11, 9, &[], (0, 2))),
        case("right 31 settled by ?R, and fetched", name, with(&[BOTH, BOTHS, INT, R31], &kept, &[made]), stops(11, 11, &[], (0, 5))),
        case("right 31 fetched from an array", "Cells of a tray are declared by its element", with(&[INT, ALL, BOTHS, R31], &fetched, &[]), stops(11, 9, &[], (0, 6))),
        case("right 31 fetched from an array to read", "A fetched value is bound to the element of the tray variable's QT", with(&[INT, ALL, BOTHS, R31S_FETCH, R31], &read, &[]), stops(11, 10, &[], (0, 7))),
    ]
}

/// A new array of one cell for what is given, under any rights with right 31.
fn made() -> Procedure {
    Procedure::new(0, GENERICS)
        .bound(WIDE, bit(31))
        .formal(GENERIC, GENERIC)
        .variables(&[INT, GENERICS])
        .body(&[set(1, 1), new_array(2, 1), give_back(2)])
}

/// A record is bound to the first type, and then to the second, which asks for
/// a right that the first lacks.
#[rustfmt::skip]
fn bound_cases() -> Vec<RunCase> {
    let moved = |first: u8, second: u8| with(&[ALL, first, second], &[call(0, NONE, 1), bind(1, 0), bind(2, 1), leave()], &[]);
    let lacks = || watched((9, at(3, 2)), 19, 4, (0, 2));
    vec![
        case("right 16 lacking, watched", LACKING, moved(R31, R16), lacks()),
        case("right 31 lacking, watched", LACKING, moved(R16, R31), lacks()),
        case("right 31 lacking for right 30, watched", LACKING, moved(R30, R31), lacks()),
        case("right 30 lacking for right 31, watched", LACKING, moved(R31, R30), lacks()),
        case("right 16 lacking for right 15, watched", LACKING, moved(R15, R16), lacks()),
        case("right 15 lacking for right 16, watched", LACKING, moved(R16, R15), lacks()),
        case("right 31 lacking of all, watched", LACKING, moved(BUT_31, ALL), lacks()),
        case("right 16 lacking of all, watched", LACKING, moved(BUT_16, ALL), lacks()),
        case("all but right 16, of which 31, watched", CARRIED, moved(BUT_16, R31), stops(11, 6, &[], (0, 3))),
    ]
}

#[rustfmt::skip]
fn array_cases() -> Vec<RunCase> {
    let moved = |first: u8, second: u8| with(&[INT, first, second], &[set(0, 0), new_array(1, 0), bind(2, 1), leave()], &[]);
    let read = [&filled()[..], &[bind(3, 2), fetch(4, 3, 0), leave()]].concat();
    let into_slot = |variable: u8| {
        let slot = Procedure::new(WIDE, NONE).formal(OPENED, NO_RIGHT).variable(variable);
        with(&[NO_RIGHT], &[call(0, NONE, 1), call(NONE, 0, 2), leave()], &[slot.body(&[new_record(1), set_slot(0, 1, SLOT_R31), leave()])])
    };
    let stored = |variable: u8| with(&[INT, variable, R31S], &[&filled()[..], &[leave()]].concat(), &[]);
    vec![
        case("elements with right 16 more, watched", ELEMENTS, moved(BOTHS, R31S), watched((8, at(3, 2)), 18, 2, (0, 2))),
        case("elements with right 16 less, watched", ELEMENTS, moved(R31S, BOTHS), watched((8, at(3, 2)), 18, 2, (0, 2))),
        case("elements with right 16 more, to read, watched", "The watched machine's kind test for a tray follows the same order", moved(BOTHS, R31S_FETCH), stops(11, 4, &[], (0, 3))),
        case("right 16 fetched as right 31, watched", "A fetched value is bound to the element of the tray variable's QT, then to a", with(&[INT, ALL, BOTHS, R31S_FETCH, R16], &read, &[]), watched((9, at(5, 6)), 19, 8, (0, 6))),
        case("right 31 stored, watched", LACKING, stored(R31), stops(11, 8, &[], (0, 5))),
        case("right 31 lacking in a store, watched", LACKING, stored(BUT_31), watched((9, at(3, 4)), 19, 6, (0, 4))),
        case("right 31 lacking for a slot, watched", LACKING, into_slot(BUT_31), watched((9, at_2(1, 24)), 19, 5, (2, 1))),
        case("right 31 for a slot, watched", CARRIED, into_slot(BUT_16), stops(11, 8, &[], (0, 2))),
    ]
}

#[rustfmt::skip]
fn call_cases() -> Vec<RunCase> {
    let returned = "A return binds to the result QT, then to a";
    let to_need = "A call binds each actual to need";
    let to_inner = "else it is bound to inner";
    let body = [call(0, NONE, 1), call(1, 0, 2), leave()];
    let drops = [call(0, NONE, 1), call(NONE, 0, 2), leave()];
    let formal = |inner: u8, need: u8| Procedure::new(0, NONE).formal(inner, need).body(&[leave()]);
    let gives = |result: u8, formal: u8| Procedure::new(0, result).formal(formal, formal).body(&[give_back(0)]);
    vec![
        case("right 31 lacking in an actual, watched", to_need, with(&[BUT_31], &drops, &[formal(R31, R31)]), watched((9, at(1, 1)), 19, 3, (0, 1))),
        case("right 31 lacking in inner, watched", to_inner, with(&[ALL], &drops, &[formal(BOTH, R16)]), watched((7, at_2(1, 8)), 19, 3, (0, 1))),
        case("right 16 lacking in inner, watched", to_inner, with(&[ALL], &drops, &[formal(BOTH, R31)]), watched((7, at_2(1, 8)), 19, 3, (0, 1))),
        case("right 31 lacking in a result, watched", returned, with(&[BUT_31, R31], &body, &[gives(R31, BUT_31)]), watched((9, at_2(2, 12)), 19, 4, (2, 0))),
        case("right 31 lacking in what is kept, watched", returned, with(&[BUT_31, R31], &body, &[gives(BUT_31, BUT_31)]), watched((9, at(2, 1)), 19, 4, (2, 0))),
        case("right 31 given back and kept, watched", returned, with(&[ALL, R31], &body, &[gives(BOTH, ALL)]), stops(11, 6, &[], (0, 2))),
    ]
}

#[rustfmt::skip]
fn settling_cases() -> Vec<RunCase> {
    let own = "reading a caller's ?R as its frame's set";
    let bounded = |least: u32| Procedure::new(0, NONE).bound(WIDE, least);
    let one = |least: u32| bounded(least).formal(GENERIC, GENERIC);
    let two = bounded(0).formal(GENERIC, GENERIC).formal(GENERIC, GENERIC).body(&[leave()]);
    let settles = |actual: u8, least: u32| with(&[actual], &[call(0, NONE, 1), call(NONE, 0, 2), leave()], &[one(least).body(&[leave()])]);
    let differing = |actuals: [u8; 2]| with(&actuals, &[call(0, NONE, 1), call(1, NONE, 1), call(NONE, 0, 2), leave()], std::slice::from_ref(&two));
    let passes = |least: u32, actual: u8| {
        let passing = one(least).body(&[call(NONE, 0, 3), leave()]);
        with(&[actual], &[call(0, NONE, 1), call(NONE, 0, 2), leave()], &[passing, one(bit(31)).body(&[leave()])])
    };
    let back = Procedure::new(0, GENERIC).bound(WIDE, 0).formal(GENERIC, GENERIC).body(&[give_back(0)]);
    let kept = [call(0, NONE, 1), call(1, 0, 2), set(2, 0), store(1, 2, 0), fetch(3, 1, 2), leave()];
    vec![
        case("settled with right 31, watched", SETTLED, settles(R31, bit(31)), stops(11, 6, &[], (0, 2))),
        case("right 31 short, watched", SETTLED, settles(BUT_31, bit(31)), watched((21, at(1, 1)), 19, 3, (0, 1))),
        case("right 16 short, watched", SETTLED, settles(R31, bit(16) | bit(31)), watched((21, at(1, 1)), 19, 3, (0, 1))),
        case("two actuals of all rights, watched", SETTLED, differing([ALL, ALL]), stops(11, 9, &[], (0, 3))),
        case("two actuals that differ in right 16, watched", SETTLED, differing([R31, BOTH]), watched((20, at(2, 2)), 18, 6, (0, 2))),
        case("two actuals that differ in right 31, watched", SETTLED, differing([ALL, BUT_31]), watched((20, at(2, 2)), 18, 6, (0, 2))),
        // Check takes the caller's least set, which lacks right 31.
        case("?R passed on with right 31 in its frame", own, passes(bit(16), BOTH), watched((21, at_2(1, 19)), 11, 8, (0, 2))),
        case("?R passed on without right 31 in its frame", own, passes(bit(16), R16), watched((21, at_2(1, 19)), 19, 4, (2, 0))),
        case("?R passed on, its least right 31", own, passes(bit(31), BOTH), stops(11, 8, &[], (0, 2))),
        case("right 16 kept of ?R without it, watched", "A return binds to the result QT, then to a", with(&[R31, R16], &[call(0, NONE, 1), call(1, 0, 2), leave()], &[back]), watched((9, at(2, 1)), 19, 4, (2, 0))),
        case("an array made under right 16 more, watched", ELEMENTS, with(&[BOTH, R31S, INT, R31], &kept, &[made()]), watched((8, at(4, 1)), 18, 6, (2, 2))),
    ]
}
