//! Procedures, types and actuals by number: the highest, and those that look
//! like a lower one if a bit is lost.

use super::{at, case, lent, maker, stops, watched, with, RunCase};
use crate::handwritten::catalogue::{
    CALL, CALL_BOTH, CALL_NONE, CALL_OPEN, CALL_READ, HORSE, INT, SLOT_INT,
};
use crate::operations::{bind, call, get_slot, give_back, leave, new_record, put, set, set_slot};
use crate::records::{InstructionRecord, NONE, OPEN};
use crate::runs::Run;
use crate::sheet::{Procedure, SheetBuilder};

const CALLED: &str = "16 a←call procedure k with variables b, b+1 and so on";
const ACTUALS: &str = "then moved values in order, a blank one 13";
const NEED: &str = "A call binds each actual to need; else it is bound to inner";
const AMPLIFIED: &str =
    "if its type and inner's base are the callee's owner (2 or more), it carries inner's rights";
const TYPE: &str = "another type, or unequal elements, 18";

pub fn cases() -> Vec<RunCase> {
    let mut all = procedure_cases();
    all.extend(actual_cases());
    all.extend(formal_cases());
    all.extend(type_cases());
    all
}

/// Main calls one of 63 procedures, each of which puts its own number.
fn one_of_63(number: u16) -> Run {
    let named = |number: u16| {
        let body = [set(0, number), put(0), leave()];
        Procedure::new(0, NONE).variable(INT).body(&body)
    };
    let others: Vec<Procedure> = (1..=63).map(named).collect();
    lent(with(&[], &[call(NONE, NONE, number), leave()], &others))
}

#[rustfmt::skip]
fn procedure_cases() -> Vec<RunCase> {
    let mut silent = vec![Procedure::new(0, NONE).variable(INT).body(&[leave()]); 63];
    silent[62] = Procedure::new(0, NONE).variable(INT).body(&[set(0, 1), put(0), leave()]);
    let blank = Procedure::new(0, NONE).variable(INT).body(&[put(0), leave()]);
    let mut last_blank = silent.clone();
    last_blank[62] = blank;
    vec![
        case("procedure 31 called", CALLED, one_of_63(31), stops(11, 5, &[31], (0, 1))),
        case("procedure 32 called", CALLED, one_of_63(32), stops(11, 5, &[32], (0, 1))),
        case("procedure 33 called", CALLED, one_of_63(33), stops(11, 5, &[33], (0, 1))),
        case("procedure 63 called", CALLED, one_of_63(63), stops(11, 5, &[63], (0, 1))),
        case("a blank in procedure 63", "The place is that of the instruction stopped at", lent(with(&[], &[call(NONE, NONE, 63), leave()], &last_blank)), stops(13, 1, &[], (63, 0))),
    ]
}

/// Main gets so many calls from the maker, all steps three for each, and hands
/// them to procedure 2, which needs read of each. The last comes by another
/// instruction into a variable of another type.
fn last_of(count: usize, inner: u8, fill: &[InstructionRecord]) -> Run {
    let mut inners = vec![CALL_BOTH; count];
    inners[count - 1] = inner;
    let mut body: Vec<InstructionRecord> =
        (1..count).map(|to| call(to as u8 - 1, NONE, 1)).collect();
    body.extend(fill);
    body.extend([call(NONE, 0, 2), leave()]);
    let formals = (0..count).fold(Procedure::new(0, NONE), |all, _| {
        all.formal(CALL_READ, CALL_READ)
    });
    lent(with(&inners, &body, &[maker(), formals.body(&[leave()])]))
}

#[rustfmt::skip]
fn actual_cases() -> Vec<RunCase> {
    let lacks = |count: usize| last_of(count, CALL_NONE, &[call(count as u8 - 1, NONE, 1)]);
    let number = |count: usize| last_of(count, INT, &[set(count as u8 - 1, 1)]);
    let blank = |count: usize| last_of(count, CALL_BOTH, &[]);
    vec![
        case("fifth actual with less", NEED, lacks(5), watched((9, at(5, 5)), 19, 15, (0, 5))),
        case("sixth actual with less", NEED, lacks(6), watched((9, at(6, 6)), 19, 18, (0, 6))),
        case("seventh actual with less", NEED, lacks(7), watched((9, at(7, 7)), 19, 21, (0, 7))),
        case("eighth actual with less", NEED, lacks(8), watched((9, at(8, 8)), 19, 24, (0, 8))),
        case("fifth actual a number", NEED, number(5), watched((8, at(5, 5)), 18, 13, (0, 5))),
        case("sixth actual a number", NEED, number(6), watched((8, at(6, 6)), 18, 16, (0, 6))),
        case("seventh actual a number", NEED, number(7), watched((8, at(7, 7)), 18, 19, (0, 7))),
        case("eighth actual a number", NEED, number(8), watched((8, at(8, 8)), 18, 22, (0, 8))),
        case("fifth actual blank", ACTUALS, blank(5), stops(13, 12, &[], (0, 4))),
        case("sixth actual blank", ACTUALS, blank(6), stops(13, 15, &[], (0, 5))),
        case("seventh actual blank", ACTUALS, blank(7), stops(13, 18, &[], (0, 6))),
        case("eighth actual blank", ACTUALS, blank(8), stops(13, 21, &[], (0, 7))),
    ]
}

/// Main hands eight calls to procedure 2, whose last formal is given and
/// stands at 346.
fn last_formal(owner: u8, inner: u8, need: u8, body: &[InstructionRecord]) -> Run {
    let mut hands: Vec<InstructionRecord> = (0..8).map(|to| call(to, NONE, 1)).collect();
    hands.extend([call(NONE, 0, 2), leave()]);
    let formals = (0..7).fold(Procedure::new(owner, NONE), |all, _| {
        all.formal(CALL_READ, CALL_READ)
    });
    let callee = formals.formal(inner, need).variable(INT).body(body);
    lent(with(&[CALL_BOTH; 8], &hands, &[maker(), callee]))
}

/// Main hands eight numbers, from a variable on, to procedure 1, which puts
/// them.
fn eight_numbers(variables: usize, first: u8) -> Run {
    let mut body: Vec<InstructionRecord> =
        (0..8).map(|i| set(first + i, 10 + u16::from(i))).collect();
    body.extend([call(NONE, first, 1), leave()]);
    let callee = (0..8).fold(Procedure::new(0, NONE), |all, _| all.formal(INT, INT));
    let puts: Vec<InstructionRecord> = (0..8).map(put).collect();
    let callee = callee.body(&puts).body(&[leave()]);
    lent(with(&vec![INT; variables], &body, &[callee])).output(8)
}

#[rustfmt::skip]
fn formal_cases() -> Vec<RunCase> {
    let numbers = [10, 11, 12, 13, 14, 15, 16, 17];
    let opens = [set(8, 5), set_slot(7, 8, SLOT_INT), get_slot(8, 7, SLOT_INT), put(8), leave()];
    vec![
        case("eight actuals in their order", CALLED, eight_numbers(8, 0), stops(11, 19, &numbers, (0, 9))),
        case("variables 24 to 31 as actuals", CALLED, eight_numbers(32, 24), stops(11, 19, &numbers, (0, 9))),
        case("eighth formal amplified", AMPLIFIED, last_formal(CALL, CALL_OPEN, CALL_NONE, &opens), stops(11, 31, &[5], (0, 9))),
        case("eighth formal of a stranger's type", AMPLIFIED, last_formal(HORSE, CALL_OPEN, CALL_NONE, &[leave()]), watched((6, 346), 19, 24, (0, 8))),
        case("eighth formal with more than need", NEED, last_formal(0, CALL_BOTH, CALL_READ, &[leave()]), watched((7, 346), 19, 24, (0, 8))),
        case("eighth formal with less than need", NEED, last_formal(0, CALL_NONE, CALL_READ, &[leave()]), watched((7, 346), 11, 27, (0, 9))),
    ]
}

/// 32 types with right 1 and a slot of an integer. Qualified types: the
/// integer, and of either type one with right 1, one without, one with open
/// and right 1. They end at 432. Main gets a record of the first type from
/// procedure 1 and hands it to 2, whose PR stands at 500.
fn of_32_types(types: [u8; 2], main: &[InstructionRecord], subject: Procedure) -> Run {
    let all = (0..32).fold(SheetBuilder::new(), |all, _| all.record_type(1, &[INT]));
    let both = types.into_iter().fold(all.integer(), |all, base| {
        let all = all.record(base, 2).record(base, 0);
        all.record(base, OPEN | 2)
    });
    let maker = Procedure::new(types[0], FIRST).variable(FIRST);
    let sheet = both
        .procedure(Procedure::main().variables(&[FIRST, SECOND]).body(main))
        .procedure(maker.body(&[new_record(0), give_back(0)]))
        .procedure(subject);
    lent(sheet.build().encode())
}

const FIRST: u8 = 1;
const FIRST_NONE: u8 = 2;
const FIRST_OPEN: u8 = 3;
const SECOND: u8 = 4;

#[rustfmt::skip]
fn type_cases() -> Vec<RunCase> {
    let hands = [call(0, NONE, 1), call(NONE, 0, 2), leave()];
    let bound = |types: [u8; 2]| of_32_types(types, &[call(0, NONE, 1), bind(1, 0), leave()], Procedure::new(0, NONE).body(&[leave()]));
    let raised = |types: [u8; 2]| of_32_types(types, &hands, Procedure::new(types[1], NONE).formal(FIRST, FIRST_NONE).body(&[leave()]));
    let opened = |types: [u8; 2]| of_32_types(types, &hands, Procedure::new(types[1], NONE).formal(FIRST_OPEN, FIRST).variable(INT)
        .body(&[set(1, 7), set_slot(0, 1, 0), get_slot(1, 0, 0), put(1), leave()]));
    let read = |types: [u8; 2]| of_32_types(types, &hands, Procedure::new(types[1], NONE).formal(FIRST, FIRST).variable(INT).body(&[get_slot(1, 0, 0), leave()]));
    let made = |types: [u8; 2]| of_32_types(types, &hands, Procedure::new(types[1], NONE).formal(FIRST, FIRST).body(&[new_record(0), leave()]));
    vec![
        case("a record of 33 bound", TYPE, bound([33, 33]), stops(11, 5, &[], (0, 2))),
        case("a record of 33 bound as one of 17", TYPE, bound([33, 17]), watched((8, 456), 18, 3, (0, 1))),
        case("a record of 2 bound as one of 18", TYPE, bound([2, 18]), watched((8, 456), 18, 3, (0, 1))),
        case("a record of 16 bound as one of 15", TYPE, bound([16, 15]), watched((8, 456), 18, 3, (0, 1))),
        case("a record of 33 opened by 33", AMPLIFIED, opened([33, 33]), stops(11, 10, &[7], (0, 2))),
        case("a record of 33 amplified by 17", AMPLIFIED, raised([33, 17]), watched((7, 508), 19, 3, (0, 1))),
        case("a record of 18 amplified by 2", AMPLIFIED, raised([18, 2]), watched((7, 508), 19, 3, (0, 1))),
        case("a record of 33 opened by 17", AMPLIFIED, opened([33, 17]), watched((6, 508), 19, 3, (0, 1))),
        case("a record of 33 read by 17", "kinds of the values read", read([33, 17]), watched((8, 516), 18, 4, (2, 0))),
        case("a record of 2 read by 18", "kinds of the values read", read([2, 18]), watched((8, 516), 18, 4, (2, 0))),
        case("a new record of 17 bound as one of 33", TYPE, made([33, 17]), watched((8, 512), 18, 4, (2, 0))),
    ]
}
