//! The layout: marks, lengths and the range of every field.
//!
//! The sample has a record of every kind: HD 0, TY 6, QT 18, 24, 30, then
//! main with PR 36, VR 44, IN 48, 56, then procedure 1 with PR 64, VR 72, 76,
//! IN 80, 88, 96. It ends at 104.

use super::{case, edited, refused, Case, ACCEPTED};
use crate::large::mostly_instructions;
use crate::operations::{call, get_slot, give_back, jump_if_zero, leave, new_record, set};
use crate::records::{InstructionRecord, NONE, OPEN};
use crate::sheet::{Procedure, Sheet, SheetBuilder};

fn sample() -> Sheet {
    SheetBuilder::new()
        .record_type(2, &[0])
        .integer()
        .record(2, OPEN | 2)
        .record(2, 2)
        .procedure(Procedure::main().variable(0).body(&[set(0, 7), leave()]))
        .procedure(Procedure::new(2, 0).formal(1, 2).variable(0).body(&[
            new_record(0),
            get_slot(1, 0, 0),
            give_back(1),
        ]))
        .build()
}

fn with(edits: &[(usize, u8)]) -> Vec<u8> {
    edited(&sample(), edits)
}

fn cut(length: usize) -> Vec<u8> {
    sample().encode()[..length].to_vec()
}

pub fn cases() -> Vec<Case> {
    let mut all = vec![case(
        "sample",
        "Order: HD, all TY, all QT",
        with(&[]),
        ACCEPTED,
    )];
    all.extend(length_cases());
    all.extend(mark_cases());
    all.extend(header_cases());
    all.extend(type_cases());
    all.extend(qualified_cases());
    all.extend(procedure_cases());
    all.extend(variable_cases());
    all.extend(instruction_cases());
    all.extend(operand_cases());
    all.extend(call_cases());
    all
}

/// A sheet of exactly 32,768 bytes: the largest one of instructions has 32,764,
/// and main gets one more VR.
fn full() -> Sheet {
    let mut sheet = mostly_instructions(32_768);
    sheet.procedures[0] = Procedure::main()
        .variables(&[0, 0, 0])
        .body(&sheet.procedures[0].instructions);
    sheet.seal();
    sheet
}

#[rustfmt::skip]
fn length_cases() -> Vec<Case> {
    let long = "At most 32,768 bytes";
    let torn = "torn: record cut short, or bytes left over";
    let mut one_more = full().encode();
    one_more.push(0);
    let mut one_left = sample().encode();
    one_left.push(b'I');
    let mut record_left = sample().encode();
    leave().encode(&mut record_left);
    vec![
        case("32,768 bytes", long, full().encode(), ACCEPTED),
        case("32,769 bytes", long, one_more, refused(1, 0)),
        case("32,769 bytes of nothing", long, vec![0; 32_769], refused(1, 0)),
        case("HD cut", torn, cut(5), refused(2, 0)),
        case("HD alone", torn, cut(6), refused(2, 6)),
        case("TY cut", torn, cut(17), refused(2, 6)),
        case("QT cut", torn, cut(29), refused(2, 24)),
        case("main's PR cut", torn, cut(43), refused(2, 36)),
        case("VR cut", torn, cut(47), refused(2, 44)),
        case("IN cut", torn, cut(55), refused(2, 48)),
        case("second procedure lacking", torn, cut(64), refused(2, 64)),
        case("last IN cut", torn, cut(103), refused(2, 96)),
        case("one byte left over", torn, one_left, refused(2, 104)),
        case("a record left over", torn, record_left, refused(2, 104)),
    ]
}

#[rustfmt::skip]
fn mark_cases() -> Vec<Case> {
    let mark = "stray mark: not the mark due";
    vec![
        case("HD marked hD", mark, with(&[(0, b'h')]), refused(3, 0)),
        case("HD marked Hd", mark, with(&[(1, b'd')]), refused(3, 0)),
        case("TY marked QT", mark, with(&[(6, b'Q'), (7, b'T')]), refused(3, 6)),
        case("QT marked TY", mark, with(&[(30, b'T'), (31, b'Y')]), refused(3, 30)),
        case("PR marked IN", mark, with(&[(64, b'I'), (65, b'N')]), refused(3, 64)),
        case("VR marked IN", mark, with(&[(76, b'I'), (77, b'N')]), refused(3, 76)),
        case("IN marked VR", mark, with(&[(48, b'V'), (49, b'R')]), refused(3, 48)),
        case("one TY too few", mark, with(&[(3, 0)]), refused(3, 6)),
        case("one TY too many", mark, with(&[(3, 2)]), refused(3, 18)),
        case("one QT too few", mark, with(&[(4, 2)]), refused(3, 30)),
        case("one QT too many", mark, with(&[(4, 4)]), refused(3, 36)),
        case("one VR too many", mark, with(&[(40, 2)]), refused(3, 48)),
        case("one IN too many", mark, with(&[(42, 3)]), refused(3, 64)),
    ]
}

#[rustfmt::skip]
fn header_cases() -> Vec<Case> {
    let edition = "Refusal 4 then means neither 1 nor 2";
    vec![
        case("edition 0", edition, with(&[(2, 0)]), refused(4, 0)),
        // A QT of edition 2 has more bytes, so that the integer gets rights.
        case("edition 2", edition, with(&[(2, 2)]), refused(5, 18)),
        case("edition 3", edition, with(&[(2, 3)]), refused(4, 0)),
        case("33 types", "types t 0..32", with(&[(3, 33)]), refused(5, 0)),
        case("65 qualified types", "qualified types q 0..64", with(&[(4, 65)]), refused(5, 0)),
        case("no procedure", "procedures p 1..64", with(&[(5, 0)]), refused(5, 0)),
        case("65 procedures", "procedures p 1..64", with(&[(5, 65)]), refused(5, 0)),
        case("largest counts", "types t 0..32, qualified types q 0..64, procedures p 1..64", b"HD\x01\x20\x40\x40".to_vec(), refused(2, 6)),
        case("one procedure", "bytes left over", with(&[(5, 1)]), refused(2, 64)),
        case("three procedures", "record cut short", with(&[(5, 3)]), refused(2, 104)),
    ]
}

#[rustfmt::skip]
fn type_cases() -> Vec<Case> {
    let slots = "a QT number below q for the first s, else 255";
    vec![
        case("15 named rights", "named rights n 0..15", with(&[(8, 15)]), ACCEPTED),
        case("16 named rights", "named rights n 0..15", with(&[(8, 16)]), refused(5, 6)),
        case("9 slots", "slots s 0..8", with(&[(9, 9)]), refused(5, 6)),
        case("slot of QT q", slots, with(&[(10, 3)]), refused(5, 6)),
        case("slot 255", slots, with(&[(10, 255)]), refused(5, 6)),
        case("unused slot 0", slots, with(&[(11, 0)]), refused(5, 6)),
        case("last unused slot 254", slots, with(&[(17, 254)]), refused(5, 6)),
        case("used slot missing", slots, with(&[(9, 2)]), refused(5, 6)),
        case("slot beyond the count", slots, with(&[(9, 0)]), refused(5, 6)),
    ]
}

#[rustfmt::skip]
fn qualified_cases() -> Vec<Case> {
    let declared = "Declared type: bits 0..n";
    let array = "Tray: bits 1 fetch, 2 store, 3 size only";
    let element = "Element: for a tray, a QT number below its own; else 255";
    // QT 1, at 24, made an array. The formal gets a type without open, so that
    // a right layout leads to the 9 of the slot read at 88.
    let as_array = |low: u8, high: u8, element: u8| {
        with(&[
            (26, 1),
            (27, low),
            (28, high),
            (29, element),
            (74, 2),
            (75, 2),
        ])
    };
    vec![
        case("base t+2", "base below t+2", with(&[(32, 3)]), refused(5, 30)),
        case("integer with a right", "Integer: rights 0", with(&[(21, 2)]), refused(5, 18)),
        case("integer, high byte", "Integer: rights 0", with(&[(22, 1)]), refused(5, 18)),
        case("right n", declared, with(&[(33, 4)]), ACCEPTED),
        case("right n+1", declared, with(&[(33, 8)]), refused(5, 30)),
        case("right 15 of 2", declared, with(&[(34, 128)]), refused(5, 30)),
        case("all array rights", array, as_array(14, 0, 0), refused(9, 88)),
        case("array with right 0", array, as_array(1, 0, 0), refused(5, 24)),
        case("array with right 4", array, as_array(16, 0, 0), refused(5, 24)),
        case("array with right 8", array, as_array(0, 1, 0), refused(5, 24)),
        case("array of itself", element, as_array(14, 0, 1), refused(5, 24)),
        case("array of a later QT", element, as_array(14, 0, 2), refused(5, 24)),
        case("array of nothing", element, as_array(14, 0, 255), refused(5, 24)),
        case("integer with element", element, with(&[(23, 0)]), refused(5, 18)),
        case("record with element", element, with(&[(35, 0)]), refused(5, 30)),
    ]
}

#[rustfmt::skip]
fn procedure_cases() -> Vec<Case> {
    let owner = "owner (0 none, or 2..t+1)";
    let main = "Procedure 0 is main: owner 0, f 0, result 255";
    let count = "instructions n 1..1000 (2 bytes)";
    vec![
        case("owner 1", owner, with(&[(66, 1)]), refused(5, 64)),
        case("owner t+2", owner, with(&[(66, 3)]), refused(5, 64)),
        case("9 formals", "formals f 0..8", with(&[(67, 9), (68, 32)]), refused(5, 64)),
        case("8 formals", "formals f 0..8", with(&[(67, 8), (68, 8)]), refused(5, 76)),
        case("v below f", "variables v f..32", with(&[(67, 3)]), refused(5, 64)),
        case("33 variables", "variables v f..32", with(&[(68, 33)]), refused(5, 64)),
        case("32 variables", "variables v f..32", with(&[(68, 32)]), refused(3, 80)),
        case("result q", "result (QT number or 255 none)", with(&[(69, 3)]), refused(5, 64)),
        case("no instruction", count, with(&[(70, 0)]), refused(5, 64)),
        case("1,001 instructions", count, with(&[(70, 0xE9), (71, 3)]), refused(5, 64)),
        case("1,000 instructions", count, with(&[(70, 0xE8), (71, 3)]), refused(2, 104)),
        case("main with owner", main, with(&[(38, 2)]), refused(5, 36)),
        case("main with formal", main, with(&[(39, 1), (47, 0)]), refused(5, 36)),
        case("main with result", main, with(&[(41, 0)]), refused(5, 36)),
    ]
}

#[rustfmt::skip]
fn variable_cases() -> Vec<Case> {
    let need = "need QT (255 unless a formal)";
    vec![
        case("inner q", "inner QT", with(&[(46, 3)]), refused(5, 44)),
        case("inner 255", "inner QT", with(&[(46, 255)]), refused(5, 44)),
        case("need of no formal", need, with(&[(79, 0)]), refused(5, 76)),
        case("formal without need", need, with(&[(75, 255)]), refused(5, 72)),
        case("formal with need q", need, with(&[(75, 3)]), refused(5, 72)),
        case("formals come first", "Formals come first", with(&[(75, 255), (79, 0)]), refused(5, 72)),
    ]
}

/// Main with 3 integers and one instruction, at 32; the QT stands at 6, PR
/// at 12, VRs from 20.
fn integers(instruction: InstructionRecord) -> Vec<u8> {
    let main = Procedure::main()
        .variables(&[0, 0, 0])
        .body(&[instruction, leave()]);
    SheetBuilder::new()
        .integer()
        .procedure(main)
        .build()
        .encode()
}

fn raw(code: u8, a: u8, b: u8, c: u8, k: u16) -> Vec<u8> {
    integers(InstructionRecord { code, a, b, c, k })
}

#[rustfmt::skip]
fn instruction_cases() -> Vec<Case> {
    let codes = "Codes are 1..17";
    let owner = "Codes 13 to 15 need an owner; 14 and 15 need k below its slots";
    let last = "The last IN of a procedure is a return";
    vec![
        case("code 0", codes, raw(0, NONE, NONE, NONE, 0), refused(5, 32)),
        case("code 18", codes, raw(18, NONE, NONE, NONE, 0), refused(5, 32)),
        case("13 without owner", owner, raw(13, 0, NONE, NONE, 0), refused(5, 32)),
        case("14 without owner", owner, raw(14, 0, 1, NONE, 0), refused(5, 32)),
        case("15 without owner", owner, raw(15, 0, 1, NONE, 0), refused(5, 32)),
        case("14 with k = s", owner, with(&[(94, 1)]), refused(5, 88)),
        case("15 with k = s", owner, with(&[(90, 15), (94, 1)]), refused(5, 88)),
        case("14 with k = 256", owner, with(&[(95, 1)]), refused(5, 88)),
        case("last IN a take", last, with(&[(58, 7), (59, 0)]), refused(5, 56)),
        case("jump to n-1", "go to instruction k (k<n)", integers(jump_if_zero(0, 1)), ACCEPTED),
        case("jump to n", "go to instruction k (k<n)", integers(jump_if_zero(0, 2)), refused(5, 32)),
        case("set to 65,535", "1 set a:=k", integers(set(0, 65_535)), ACCEPTED),
        case("a return midway", "17 return a (or 255)", integers(leave()), ACCEPTED),
    ]
}

#[rustfmt::skip]
fn operand_cases() -> Vec<Case> {
    let below = "a variable named is below v";
    let unused = "Unused a, b, c are 255, unused k is 0";
    vec![
        case("a = v", below, raw(7, 3, NONE, NONE, 0), refused(5, 32)),
        case("a = 255 of a set", below, raw(1, NONE, NONE, NONE, 0), refused(5, 32)),
        case("b = v", below, raw(6, 0, 3, NONE, 0), refused(5, 32)),
        case("c = v", below, raw(2, 0, 1, 3, 0), refused(5, 32)),
        case("c = 255 of an add", below, raw(2, 0, 1, NONE, 0), refused(5, 32)),
        case("returned a = v", below, raw(17, 3, NONE, NONE, 0), refused(5, 32)),
        case("kept a = v", below, raw(16, 3, NONE, NONE, 0), refused(5, 32)),
        case("b of a take", unused, raw(7, 0, 0, NONE, 0), refused(5, 32)),
        case("c of a bind", unused, raw(6, 0, 1, 2, 0), refused(5, 32)),
        case("c of a call", unused, raw(16, NONE, NONE, 0, 0), refused(5, 32)),
        case("c of a return", unused, raw(17, NONE, NONE, 0, 0), refused(5, 32)),
        case("b of a return", unused, raw(17, NONE, 0, NONE, 0), refused(5, 32)),
        case("k of an add", unused, raw(2, 0, 1, 2, 1), refused(5, 32)),
        case("k of a put", unused, raw(8, 0, NONE, NONE, 256), refused(5, 32)),
        case("k of a return", unused, raw(17, NONE, NONE, NONE, 1), refused(5, 32)),
    ]
}

/// Main with 3 integers calls procedure 1, which has so many formals. The
/// call stands at 32.
fn actuals(instruction: InstructionRecord, formals: usize) -> Vec<u8> {
    let main = Procedure::main()
        .variables(&[0, 0, 0])
        .body(&[instruction, leave()]);
    let callee = (0..formals).fold(Procedure::new(0, NONE), |all, _| all.formal(0, 0));
    SheetBuilder::new()
        .integer()
        .procedure(main)
        .procedure(callee.body(&[leave()]))
        .build()
        .encode()
}

#[rustfmt::skip]
fn call_cases() -> Vec<Case> {
    let number = "the 5s that wait for the procedure called: k<p";
    let none = "255 exactly if f is 0";
    let range = "else b to b+f−1 all below v";
    vec![
        case("k = p", number, actuals(call(NONE, NONE, 2), 0), refused(5, 32)),
        case("k = p-1", number, actuals(call(NONE, NONE, 1), 0), ACCEPTED),
        case("main calls main", number, actuals(call(NONE, NONE, 0), 0), ACCEPTED),
        case("k = 256", number, actuals(call(NONE, NONE, 256), 0), refused(5, 32)),
        case("b given, no formals", none, actuals(call(NONE, 0, 1), 0), refused(5, 32)),
        case("b 255, one formal", none, actuals(call(NONE, NONE, 1), 1), refused(5, 32)),
        case("last actual v-1", range, actuals(call(NONE, 1, 1), 2), ACCEPTED),
        case("last actual v", range, actuals(call(NONE, 2, 1), 2), refused(5, 32)),
        case("first actual v", range, actuals(call(NONE, 3, 1), 1), refused(5, 32)),
        case("b 254, two formals", range, actuals(call(NONE, 254, 1), 2), refused(5, 32)),
    ]
}
