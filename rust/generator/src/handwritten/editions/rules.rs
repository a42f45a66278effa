//! The access rules with rights up to 31, at the places of edition 2.

use super::catalogue::{
    types, ALL, BOTH, BOTHS, BUT_16, BUT_31, GENERIC, GENERICS, INT, NO_RIGHT, OPENED, R15, R16,
    R30, R31, R31S, R31S_FETCH, SLOT_R31, WIDE,
};
use super::{bit, case, refused, Case, Second, ACCEPTED};
use crate::operations::{
    bind, call, fetch, get_slot, give_back, leave, new_record, put, set_slot, store,
};
use crate::records::{named_rights, InstructionRecord, ARRAY_ALL, NONE, OPEN};
use crate::sheet::{Procedure, SheetBuilder};

pub fn cases() -> Vec<Case> {
    let mut all = order_cases();
    all.extend(movement_cases());
    all.extend(open_cases());
    all.extend(need_cases());
    all.extend(settling_cases());
    all.extend(inside_cases());
    all
}

/// Main with the variables and one instruction, at 154 + 4 v.
fn in_main(variables: &[u8], instruction: InstructionRecord) -> Vec<u8> {
    calling(variables, instruction, Procedure::main().body(&[leave()]))
}

/// The same, with another procedure after it.
fn calling(variables: &[u8], instruction: InstructionRecord, callee: Procedure) -> Vec<u8> {
    let main = Procedure::main()
        .variables(variables)
        .body(&[instruction, leave()]);
    types().procedure(main).procedure(callee).build().encode()
}

/// Main with a return alone, at 146 and 154, and procedure 1 at 162: its GN at
/// 170 if it has one, of 7 bytes, then its VRs and its INs.
fn beside_main(procedure: Procedure) -> Vec<u8> {
    let main = Procedure::main().body(&[leave()]);
    types()
        .procedure(main)
        .procedure(procedure)
        .build()
        .encode()
}

/// Variable 0 is bound to variable 1: 1 is the source.
fn bound(source: u8, destination: u8) -> Vec<u8> {
    in_main(&[destination, source], bind(0, 1))
}

#[rustfmt::skip]
fn order_cases() -> Vec<Case> {
    let right = "every right of Q2 is in Q1";
    let elements = "same base, same rights, equal elements all the way down";
    let without = "where Q2 lacks store, element of Q1 ≥ element of Q2 is enough";
    vec![
        case("right 31 to right 31", right, bound(R31, R31), ACCEPTED),
        case("right 30 to right 31", right, bound(R30, R31), refused(9, 162)),
        case("right 31 to right 30", right, bound(R31, R30), refused(9, 162)),
        case("right 15 to right 16", right, bound(R15, R16), refused(9, 162)),
        case("right 16 to right 15", right, bound(R16, R15), refused(9, 162)),
        case("right 15 to right 31", right, bound(R15, R31), refused(9, 162)),
        case("no right to right 16", right, bound(NO_RIGHT, R16), refused(9, 162)),
        case("no right to right 31", right, bound(NO_RIGHT, R31), refused(9, 162)),
        case("rights 16 and 31 to right 16", right, bound(BOTH, R16), ACCEPTED),
        case("rights 16 and 31 to right 31", right, bound(BOTH, R31), ACCEPTED),
        case("right 16 to rights 16 and 31", right, bound(R16, BOTH), refused(9, 162)),
        case("right 31 to rights 16 and 31", right, bound(R31, BOTH), refused(9, 162)),
        case("all 31 rights to right 31", right, bound(ALL, R31), ACCEPTED),
        case("all but right 31 to right 31", right, bound(BUT_31, R31), refused(9, 162)),
        case("all but right 31 to all", right, bound(BUT_31, ALL), refused(9, 162)),
        case("all but right 16 to all", right, bound(BUT_16, ALL), refused(9, 162)),
        case("all but right 16 to right 31", right, bound(BUT_16, R31), ACCEPTED),
        case("elements with right 16 more", elements, bound(BOTHS, R31S), refused(8, 162)),
        case("elements with right 16 less", elements, bound(R31S, BOTHS), refused(8, 162)),
        case("elements with right 16 more, to read", without, bound(BOTHS, R31S_FETCH), ACCEPTED),
        case("elements with right 31, to read", without, bound(R31S, R31S_FETCH), ACCEPTED),
    ]
}

#[rustfmt::skip]
fn movement_cases() -> Vec<Case> {
    let movement = "Each movement needs source ≥ destination: variable, element, slot type, need QT, result QT";
    let kinds = "Arithmetic, jumps, sizes, indexes, take and put use integer variables";
    let new = "9 and 13 give all rights";
    let gives = |result: u8, inner: u8| beside_main(Procedure::new(0, result).variable(inner).body(&[give_back(0)]));
    let takes = |need: u8| Procedure::new(0, NONE).formal(need, need).body(&[leave()]);
    let kept = |result: u8| Procedure::new(0, result).variable(result).body(&[give_back(0)]);
    let module = |variables: &[u8], instruction: InstructionRecord| beside_main(Procedure::new(WIDE, NONE).variables(variables).body(&[instruction, leave()]));
    vec![
        case("a record of edition 2 put", kinds, in_main(&[R31], put(0)), refused(8, 158)),
        case("right 31 fetched", movement, in_main(&[R31, R31S, INT], fetch(0, 1, 2)), ACCEPTED),
        case("right 16 fetched from right 31", movement, in_main(&[R16, R31S, INT], fetch(0, 1, 2)), refused(9, 166)),
        case("right 16 fetched from both, read as 31", movement, in_main(&[R16, R31S_FETCH, INT], fetch(0, 1, 2)), refused(9, 166)),
        case("right 31 stored", movement, in_main(&[R31S, INT, R31], store(0, 1, 2)), ACCEPTED),
        case("all but right 31 stored", movement, in_main(&[R31S, INT, BUT_31], store(0, 1, 2)), refused(9, 166)),
        case("right 31 as an actual", movement, calling(&[ALL], call(NONE, 0, 1), takes(R31)), ACCEPTED),
        case("right 31 lacking as an actual", movement, calling(&[BUT_31], call(NONE, 0, 1), takes(R31)), refused(9, 158)),
        case("right 16 lacking as an actual", movement, calling(&[BUT_16], call(NONE, 0, 1), takes(BOTH)), refused(9, 158)),
        case("right 31 returned", movement, gives(R31, ALL), ACCEPTED),
        case("right 31 lacking in a return", movement, gives(R31, BUT_31), refused(9, 174)),
        case("right 31 kept", movement, calling(&[R31], call(0, NONE, 1), kept(BOTH)), ACCEPTED),
        case("right 31 lacking in a kept result", movement, calling(&[R31], call(0, NONE, 1), kept(BUT_31)), refused(9, 158)),
        case("a new record with all 31 rights", new, module(&[ALL], new_record(0)), ACCEPTED),
        case("a new record with open and right 31", new, module(&[OPENED], new_record(0)), ACCEPTED),
        case("right 31 into a slot", movement, module(&[OPENED, R31], set_slot(0, 1, SLOT_R31)), ACCEPTED),
        case("right 31 lacking for a slot", movement, module(&[OPENED, BUT_31], set_slot(0, 1, SLOT_R31)), refused(9, 178)),
        case("right 31 out of a slot", movement, module(&[R31, OPENED], get_slot(0, 1, SLOT_R31)), ACCEPTED),
        case("right 16 out of a slot of right 31", movement, module(&[BOTH, OPENED], get_slot(0, 1, SLOT_R31)), refused(9, 178)),
        case("a slot without open, all 31 rights", "14 and 15 need open", module(&[R31, ALL], get_slot(0, 1, SLOT_R31)), refused(9, 178)),
    ]
}

#[rustfmt::skip]
fn open_cases() -> Vec<Case> {
    let open = "6 is given at the TY whose slot, the QT whose element, the PR whose result or the VR whose need or inner has it otherwise";
    let main = Procedure::main().body(&[leave()]);
    let slot = SheetBuilder::in_edition(Second).record_type(31, &[0]).record(WIDE, OPEN | bit(31)).procedure(main.clone());
    let element = types().array(OPENED, ARRAY_ALL).procedure(main);
    vec![
        case("edition 2: open in a slot", open, slot.build().encode(), refused(6, 6)),
        case("edition 2: open in an element", open, element.build().encode(), refused(6, 146)),
        case("edition 2: open in a result", open, beside_main(Procedure::new(WIDE, OPENED).variable(ALL).body(&[give_back(0)])), refused(6, 162)),
        case("edition 2: open in a need", open, beside_main(Procedure::new(WIDE, NONE).formal(OPENED, OPENED).body(&[leave()])), refused(6, 170)),
        case("edition 2: open in a stranger's inner", open, beside_main(Procedure::new(0, NONE).variables(&[INT, OPENED]).body(&[leave()])), refused(6, 174)),
        case("edition 2: open in an inner of the owner", open, beside_main(Procedure::new(WIDE, NONE).variables(&[INT, OPENED]).body(&[leave()])), ACCEPTED),
    ]
}

#[rustfmt::skip]
fn need_cases() -> Vec<Case> {
    let raised = "need must have that base and rights may differ: this is amplification";
    let equal = "For every other formal, need and inner are equal";
    let formal = |owner: u8, inner: u8, need: u8| beside_main(Procedure::new(owner, NONE).formal(inner, need).body(&[leave()]));
    vec![
        case("amplified to right 31", raised, formal(WIDE, R31, NO_RIGHT), ACCEPTED),
        case("amplified from right 30 to right 31", raised, formal(WIDE, R31, R30), ACCEPTED),
        case("amplified to all 31 rights", raised, formal(WIDE, ALL, R15), ACCEPTED),
        case("a stranger's need without right 31", equal, formal(0, BOTH, R16), refused(7, 170)),
        case("a stranger's need without right 16", equal, formal(0, BOTH, R31), refused(7, 170)),
        case("a stranger's need with right 31", equal, formal(0, BUT_31, ALL), refused(7, 170)),
        case("a stranger's need and inner of all", equal, formal(0, ALL, ALL), ACCEPTED),
        case("unequal elements in a need", equal, formal(WIDE, R31S, BOTHS), refused(7, 170)),
    ]
}

/// A procedure for ?R with the least set, that does nothing with its formals.
fn idle(least: u32, formals: &[u8]) -> Procedure {
    let procedure = Procedure::new(0, NONE).bound(WIDE, least);
    let all = formals.iter();
    all.fold(procedure, |all, &formal| all.formal(formal, formal))
        .body(&[leave()])
}

/// Gives back what it is given.
fn back(least: u32) -> Procedure {
    let procedure = Procedure::new(0, GENERIC).bound(WIDE, least);
    procedure.formal(GENERIC, GENERIC).body(&[give_back(0)])
}

#[rustfmt::skip]
fn settling_cases() -> Vec<Case> {
    let short = "21 short: the settled set lacks a least right";
    let two = "two actuals of a call settle differently";
    let unused = "20 unsettled: no formal uses the name";
    let read = "Need and result are then read with that set";
    let settled = |actuals: &[u8], least: u32, formals: &[u8]| calling(actuals, call(NONE, 0, 1), idle(least, formals));
    let one = |actual: u8, least: u32| settled(&[actual], least, &[GENERIC]);
    let kept = |actual: u8, kept: u8| calling(&[actual, kept], call(1, 0, 1), back(0));
    vec![
        case("settled with right 31", short, one(R31, bit(31)), ACCEPTED),
        case("settled with right 16", short, one(R16, bit(16)), ACCEPTED),
        case("settled with all 31 rights", short, one(ALL, named_rights(31)), ACCEPTED),
        case("right 31 short", short, one(R16, bit(31)), refused(21, 158)),
        case("right 16 short", short, one(R31, bit(16)), refused(21, 158)),
        case("right 30 short of right 31", short, one(R31, bit(30)), refused(21, 158)),
        case("right 31 short of all", short, one(BUT_31, named_rights(31)), refused(21, 158)),
        case("right 16 short of all", short, one(BUT_16, named_rights(31)), refused(21, 158)),
        case("two actuals of rights 16 and 31", two, settled(&[BOTH, BOTHS], bit(31), &[GENERIC, GENERICS]), ACCEPTED),
        case("two actuals that differ in right 16", two, settled(&[R31, BOTHS], bit(31), &[GENERIC, GENERICS]), refused(20, 162)),
        case("two actuals that differ in right 31", two, settled(&[BUT_31, ALL], bit(1), &[GENERIC, GENERIC]), refused(20, 162)),
        case("edition 2: a name that no formal uses", unused, settled(&[R31], bit(31), &[R31]), refused(20, 158)),
        case("right 31 kept of ?R", read, kept(BOTH, R31), ACCEPTED),
        case("right 16 kept of ?R without it", read, kept(R31, R16), refused(9, 162)),
        case("right 31 kept of ?R without it", read, kept(BUT_31, R31), refused(9, 162)),
        case("edition 2: an array for ?R", "another shape or base", one(R31S, 0), refused(8, 158)),
    ]
}

#[rustfmt::skip]
fn inside_cases() -> Vec<Case> {
    let subset = "?R ≥ any subset of the least set on that base";
    let nothing = "nothing else reaches ?R (another base 8, else 9)";
    let own = "21 then takes the caller's least set";
    // The GN ends at 177, the VRs at 177 + 4 v.
    let inside = |least: u32, variable: u8, instruction: InstructionRecord| {
        let procedure = Procedure::new(0, NONE).bound(WIDE, least).formal(GENERIC, GENERIC).variable(variable);
        beside_main(procedure.body(&[instruction, leave()]))
    };
    let passed = |least: u32| {
        let caller = Procedure::new(0, NONE).bound(WIDE, least).formal(GENERIC, GENERIC).body(&[call(NONE, 0, 2), leave()]);
        types().procedure(Procedure::main().body(&[leave()])).procedure(caller).procedure(idle(bit(31), &[GENERIC])).build().encode()
    };
    vec![
        case("?R to its least right 31", subset, inside(bit(31), R31, bind(1, 0)), ACCEPTED),
        case("?R to right 16, least 31", subset, inside(bit(31), R16, bind(1, 0)), refused(9, 185)),
        case("?R to right 31, least 16", subset, inside(bit(16), R31, bind(1, 0)), refused(9, 185)),
        case("?R to rights 16 and 31", subset, inside(bit(16) | bit(31), BOTH, bind(1, 0)), ACCEPTED),
        case("all 31 rights to ?R", nothing, inside(bit(31), ALL, bind(0, 1)), refused(9, 185)),
        case("edition 2: an integer to ?R", nothing, inside(bit(31), INT, bind(0, 1)), refused(8, 185)),
        case("?R passed on, least 31", own, passed(bit(31)), ACCEPTED),
        case("?R passed on, least 16", own, passed(bit(16)), refused(21, 181)),
    ]
}
