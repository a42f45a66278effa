//! Which refusal comes first where a sheet has several.

use super::catalogue::{
    beside_main, calling, in_main, in_module, types, CALL, CALL_BOTH, CALL_NONE, CALL_OPEN,
    CALL_READ, HORSE_OPEN, HORSE_READ, INT, READS, READS_FETCH, READS_FETCH_STORE,
    READS_STORE_SIZE, SLOT_CALL_READ, SLOT_INT,
};
use super::{case, edited, refused, Case};
use crate::operations::{
    bind, call, fetch, get_slot, give_back, leave, put, set_slot, size, store,
};
use crate::records::{InstructionRecord, NONE};
use crate::sheet::{Procedure, Sheet};

const RECORDS: &str = "record by record 2, 3, 4, 5 in field order";
const CALLS: &str = "leftover bytes 2; then, call by call, the 5s that wait";
const ACCESS: &str = "then record by record 6, 7, 8, 9";
const WITHIN: &str =
    "Within an instruction: return form, kinds, tray or open right, then each movement in turn";

pub fn cases() -> Vec<Case> {
    let mut all = record_cases();
    all.extend(call_cases());
    all.extend(access_cases());
    all.extend(instruction_cases());
    all.extend(movement_cases());
    all
}

/// Main with one call at 170, then procedure 1 at 186 with a return at 194.
fn two_procedures(instruction: InstructionRecord) -> Sheet {
    types()
        .procedure(Procedure::main().body(&[instruction, leave()]))
        .procedure(Procedure::new(0, NONE).body(&[leave()]))
        .build()
}

#[rustfmt::skip]
fn record_cases() -> Vec<Case> {
    let plain = two_procedures(leave());
    let cut = |edits: &[(usize, u8)], length: usize| edited(&plain, edits)[..length].to_vec();
    vec![
        case("whole VR, shorter than the TY due: 2", RECORDS, b"HD\x01\x01\x00\x01VR\x00\xff".to_vec(), refused(2, 6)),
        case("cut TY, longer than the PR due: 3", RECORDS, b"HD\x01\x00\x00\x01TY\x00\x00\xff\xff\xff\xff".to_vec(), refused(3, 6)),
        case("stray and cut: 2", RECORDS, b"XX\x02\xff\xff".to_vec(), refused(2, 0)),
        case("stray mark, edition, counts: 3", RECORDS, b"XX\x03\xff\xff\x00".to_vec(), refused(3, 0)),
        case("edition and counts: 4", RECORDS, b"HD\x03\xff\xff\x00".to_vec(), refused(4, 0)),
        case("stray TY off scale: 3", RECORDS, edited(&plain, &[(6, b'X'), (8, 16)]), refused(3, 6)),
        case("stray IN off scale: 3", RECORDS, edited(&plain, &[(170, b'X'), (172, 0)]), refused(3, 170)),
        case("TY's 5 before a stray QT", RECORDS, edited(&plain, &[(8, 16), (30, b'X')]), refused(5, 6)),
        case("a stray TY before a QT's 5", RECORDS, edited(&plain, &[(18, b'X'), (32, 9)]), refused(3, 18)),
        case("TY's 5 before a cut", RECORDS, cut(&[(8, 16)], 40), refused(5, 6)),
        case("IN's 5 before a cut", RECORDS, cut(&[(172, 0)], 180), refused(5, 170)),
        case("IN's 5 before a stray PR", RECORDS, edited(&plain, &[(172, 18), (186, b'X')]), refused(5, 170)),
        case("the fields of a cut IN are not read: 2", RECORDS, cut(&[(196, 18)], 200), refused(2, 194)),
    ]
}

#[rustfmt::skip]
fn call_cases() -> Vec<Case> {
    // A call of a procedure that is not there; in the layout it is right.
    let astray = two_procedures(call(NONE, NONE, 2));
    let mut left_over = astray.encode();
    left_over.push(0);
    let cut = astray.encode()[..200].to_vec();
    let open = beside_main(Procedure::new(0, CALL_OPEN).body(&[call(NONE, NONE, 9), leave()]));
    let two_calls = types()
        .procedure(Procedure::main().body(&[call(NONE, 7, 0), call(NONE, NONE, 2), leave()]))
        .build();
    let b_off_scale = two_procedures(call(NONE, 200, 1));
    vec![
        case("a call alone", CALLS, astray.encode(), refused(5, 170)),
        case("a later 5 before a call's", CALLS, edited(&astray, &[(196, 18)]), refused(5, 194)),
        case("a later stray mark before a call's 5", CALLS, edited(&astray, &[(194, b'X')]), refused(3, 194)),
        case("a later cut before a call's 5", CALLS, cut, refused(2, 194)),
        case("leftover bytes before a call's 5", CALLS, left_over, refused(2, 202)),
        case("a call's b waits too", CALLS, edited(&b_off_scale, &[(196, 18)]), refused(5, 194)),
        case("a call's a does not wait", CALLS, edited(&astray, &[(173, 0), (196, 18)]), refused(5, 170)),
        case("calls in order", CALLS, two_calls.encode(), refused(5, 170)),
        case("a call's 5 before an earlier 6", CALLS, open.encode(), refused(5, 186)),
    ]
}

#[rustfmt::skip]
fn access_cases() -> Vec<Case> {
    let plain = beside_main(Procedure::new(0, NONE).body(&[leave()]));
    // Slot 0 of call and the element of QT 20, at 150, with open.
    let slot = (10, CALL_OPEN);
    let element = (155, HORSE_OPEN);
    let result = beside_main(
        Procedure::new(0, CALL_OPEN)
            .variable(CALL_OPEN)
            .body(&[leave()]),
    );
    let formal = |inner: u8, need: u8| {
        let procedure = Procedure::new(0, NONE)
            .formal(inner, need)
            .variable(CALL_OPEN);
        beside_main(procedure.body(&[put(0), leave()])).encode()
    };
    let kinds_first = types()
        .procedure(Procedure::main().variable(READS).body(&[put(0), leave()]))
        .procedure(Procedure::new(0, CALL_OPEN).body(&[leave()]))
        .build();
    let two =
        Procedure::main()
            .variables(&[CALL_BOTH, CALL_READ])
            .body(&[bind(0, 1), put(0), leave()]);
    vec![
        case("6 at TY before QT", ACCESS, edited(&plain, &[slot, element]), refused(6, 6)),
        case("6 at QT before PR", ACCESS, edited(&result, &[element]), refused(6, 150)),
        case("6 at PR before VR", ACCESS, result.encode(), refused(6, 178)),
        case("6 before 7 in a VR", ACCESS, formal(CALL_OPEN, HORSE_READ), refused(6, 186)),
        case("6 in need before 7", ACCESS, formal(HORSE_READ, CALL_OPEN), refused(6, 186)),
        case("7 before a later 6", ACCESS, formal(CALL_READ, HORSE_READ), refused(7, 186)),
        case("6 before an 8 after it", ACCESS, formal(CALL_READ, CALL_READ), refused(6, 190)),
        case("8 before a later procedure's 6", ACCESS, kinds_first.encode(), refused(8, 174)),
        case("9 before a later 8", ACCESS, types().procedure(two).build().encode(), refused(9, 178)),
    ]
}

#[rustfmt::skip]
fn instruction_cases() -> Vec<Case> {
    let size_12 = "the size of 12 going into a is one";
    vec![
        case("10: kind before right", WITHIN, in_main(&[CALL_READ, READS_STORE_SIZE, READS], fetch(0, 1, 2)), refused(8, 182)),
        case("10: right before movement", WITHIN, in_main(&[HORSE_READ, READS_STORE_SIZE, INT], fetch(0, 1, 2)), refused(9, 182)),
        case("11: kind before right", WITHIN, in_main(&[READS_FETCH, READS, CALL_READ], store(0, 1, 2)), refused(8, 182)),
        case("11: right before movement", WITHIN, in_main(&[READS_FETCH, INT, HORSE_READ], store(0, 1, 2)), refused(9, 182)),
        case("12: right before movement", size_12, in_main(&[READS, READS_FETCH_STORE], size(0, 1)), refused(9, 178)),
        case("12: kind before movement", size_12, in_main(&[READS, INT], size(0, 1)), refused(8, 178)),
        case("14: right before movement", WITHIN, in_module(&[HORSE_READ, CALL_BOTH], get_slot(0, 1, SLOT_INT)), refused(9, 194)),
        case("15: right before movement", WITHIN, in_module(&[CALL_BOTH, HORSE_READ], set_slot(0, 1, SLOT_CALL_READ)), refused(9, 194)),
        case("14: kind before right", WITHIN, in_module(&[INT, HORSE_READ], get_slot(0, 1, SLOT_INT)), refused(8, 194)),
    ]
}

/// Procedure 1 takes a call{read} and a call{read,amend}, and may have a
/// result.
fn taking(result: u8) -> Procedure {
    let procedure = Procedure::new(0, result)
        .formal(CALL_READ, CALL_READ)
        .formal(CALL_BOTH, CALL_BOTH);
    match result {
        NONE => procedure.body(&[leave()]),
        _ => procedure.variable(result).body(&[give_back(2)]),
    }
}

#[rustfmt::skip]
fn movement_cases() -> Vec<Case> {
    let within = "8 before 9 within each";
    let actuals = "actuals in order and a kept result last";
    let returned = Procedure::new(CALL, NONE).variable(CALL_OPEN);
    vec![
        case("another type of fewer rights", within, in_main(&[HORSE_READ, CALL_NONE], bind(0, 1)), refused(8, 178)),
        case("first actual's 9 before the second's 8", actuals, calling(&[CALL_NONE, INT], call(NONE, 0, 1), taking(NONE)), refused(9, 178)),
        case("first actual's 8 before the second's 9", actuals, calling(&[INT, CALL_NONE], call(NONE, 0, 1), taking(NONE)), refused(8, 178)),
        case("actual's 9 before the result's 8", actuals, calling(&[CALL_READ, CALL_READ], call(0, 0, 1), taking(INT)), refused(9, 178)),
        case("actuals right, result's 9 last", actuals, calling(&[CALL_READ, CALL_BOTH], call(1, 0, 1), taking(CALL_READ)), refused(9, 178)),
        case("return form before an actual's 9", "return form", calling(&[CALL_READ, CALL_READ], call(0, 0, 1), taking(NONE)), refused(8, 178)),
        case("return form of an open value", "return form", beside_main(returned.body(&[give_back(0)])).encode(), refused(8, 190)),
    ]
}
