//! Kinds of operands (8), and the rights that arrays and records need (9).

use super::catalogue::{
    in_main, in_module, CALL_BOTH, CALL_NONE, CALL_OPEN, CALL_READ, HORSE_READ, INT, INTS, READS,
    READS_FETCH, READS_FETCH_SIZE, READS_FETCH_STORE, READS_NONE, READS_STORE_SIZE, SLOT_CALL_READ,
    SLOT_INT, SLOT_READS,
};
use super::{case, refused, Case, ACCEPTED};
use crate::operations::{
    add, fetch, get_slot, jump_if_zero, less, new_array, new_record, put, set, set_slot, size,
    store, subtract, take,
};

const INTEGERS: &str = "Arithmetic, jumps, sizes, indexes, take and put use integer variables";
const ARRAYS: &str = "Codes 10, 11, 12 need fetch, store, size on the tray";
const RECORDS: &str = "14 and 15 need open on a variable of the owner's type";
const ALL_RIGHTS: &str = "9 and 13 give all rights";

pub fn cases() -> Vec<Case> {
    let mut all = integer_cases();
    all.extend(array_cases());
    all.extend(record_cases());
    all
}

#[rustfmt::skip]
fn integer_cases() -> Vec<Case> {
    let call = [CALL_BOTH];
    let abc = |a: u8, b: u8, c: u8| [a, b, c];
    vec![
        case("set", INTEGERS, in_main(&[INT], set(0, 1)), ACCEPTED),
        case("set a", INTEGERS, in_main(&call, set(0, 1)), refused(8, 174)),
        case("add", INTEGERS, in_main(&[INT; 3], add(0, 1, 2)), ACCEPTED),
        case("add a", INTEGERS, in_main(&abc(INTS, INT, INT), add(0, 1, 2)), refused(8, 182)),
        case("add b", INTEGERS, in_main(&abc(INT, INTS, INT), add(0, 1, 2)), refused(8, 182)),
        case("add c", INTEGERS, in_main(&abc(INT, INT, INTS), add(0, 1, 2)), refused(8, 182)),
        case("subtract a", INTEGERS, in_main(&abc(CALL_READ, INT, INT), subtract(0, 1, 2)), refused(8, 182)),
        case("subtract b", INTEGERS, in_main(&abc(INT, CALL_READ, INT), subtract(0, 1, 2)), refused(8, 182)),
        case("subtract c", INTEGERS, in_main(&abc(INT, INT, CALL_READ), subtract(0, 1, 2)), refused(8, 182)),
        case("less a", INTEGERS, in_main(&abc(CALL_READ, INT, INT), less(0, 1, 2)), refused(8, 182)),
        case("less b", INTEGERS, in_main(&abc(INT, CALL_READ, INT), less(0, 1, 2)), refused(8, 182)),
        case("less c", INTEGERS, in_main(&abc(INT, INT, CALL_READ), less(0, 1, 2)), refused(8, 182)),
        case("jump", INTEGERS, in_main(&call, jump_if_zero(0, 1)), refused(8, 174)),
        case("take", INTEGERS, in_main(&call, take(0)), refused(8, 174)),
        case("put", INTEGERS, in_main(&call, put(0)), refused(8, 174)),
        case("put an array", INTEGERS, in_main(&[INTS], put(0)), refused(8, 174)),
    ]
}

#[rustfmt::skip]
fn array_cases() -> Vec<Case> {
    vec![
        case("new array", ALL_RIGHTS, in_main(&[READS, INT], new_array(0, 1)), ACCEPTED),
        case("new array, no rights", ALL_RIGHTS, in_main(&[READS_NONE, INT], new_array(0, 1)), ACCEPTED),
        case("new array into an integer", "9 a←new tray", in_main(&[INT, INT], new_array(0, 1)), refused(8, 178)),
        case("new array into a record", "9 a←new tray", in_main(&[CALL_READ, INT], new_array(0, 1)), refused(8, 178)),
        case("new array of no size", INTEGERS, in_main(&[READS, READS], new_array(0, 1)), refused(8, 178)),
        case("fetch", ARRAYS, in_main(&[CALL_READ, READS_FETCH, INT], fetch(0, 1, 2)), ACCEPTED),
        case("fetch without fetch", ARRAYS, in_main(&[CALL_READ, READS_STORE_SIZE, INT], fetch(0, 1, 2)), refused(9, 182)),
        case("fetch from a record", ARRAYS, in_main(&[CALL_READ, CALL_READ, INT], fetch(0, 1, 2)), refused(8, 182)),
        case("fetch at a record", INTEGERS, in_main(&[CALL_READ, READS, CALL_READ], fetch(0, 1, 2)), refused(8, 182)),
        case("store", ARRAYS, in_main(&[READS_STORE_SIZE, INT, CALL_READ], store(0, 1, 2)), ACCEPTED),
        case("store without store", ARRAYS, in_main(&[READS_FETCH_SIZE, INT, CALL_READ], store(0, 1, 2)), refused(9, 182)),
        case("store into an integer", ARRAYS, in_main(&[INT, INT, CALL_READ], store(0, 1, 2)), refused(8, 182)),
        case("store at an array", INTEGERS, in_main(&[READS, READS, CALL_READ], store(0, 1, 2)), refused(8, 182)),
        case("size", ARRAYS, in_main(&[INT, READS_FETCH_SIZE], size(0, 1)), ACCEPTED),
        case("size without size", ARRAYS, in_main(&[INT, READS_FETCH_STORE], size(0, 1)), refused(9, 178)),
        case("size of an integer", ARRAYS, in_main(&[INT, INT], size(0, 1)), refused(8, 178)),
        case("size into a record", INTEGERS, in_main(&[CALL_READ, READS], size(0, 1)), refused(8, 178)),
    ]
}

#[rustfmt::skip]
fn record_cases() -> Vec<Case> {
    let of_owner = "13 a←new record of the owner's type";
    vec![
        case("new record", of_owner, in_module(&[CALL_BOTH], new_record(0)), ACCEPTED),
        case("new record with open", ALL_RIGHTS, in_module(&[CALL_OPEN], new_record(0)), ACCEPTED),
        case("new record, no rights", ALL_RIGHTS, in_module(&[CALL_NONE], new_record(0)), ACCEPTED),
        case("new record of another type", of_owner, in_module(&[HORSE_READ], new_record(0)), refused(8, 190)),
        case("new record into an integer", of_owner, in_module(&[INT], new_record(0)), refused(8, 190)),
        case("new record into an array", of_owner, in_module(&[READS], new_record(0)), refused(8, 190)),
        case("get", RECORDS, in_module(&[INT, CALL_OPEN], get_slot(0, 1, SLOT_INT)), ACCEPTED),
        case("get an array", RECORDS, in_module(&[READS, CALL_OPEN], get_slot(0, 1, SLOT_READS)), ACCEPTED),
        case("get without open", RECORDS, in_module(&[INT, CALL_BOTH], get_slot(0, 1, SLOT_INT)), refused(9, 194)),
        case("get from another type", RECORDS, in_module(&[INT, HORSE_READ], get_slot(0, 1, SLOT_INT)), refused(8, 194)),
        case("get from an integer", RECORDS, in_module(&[INT, INT], get_slot(0, 1, SLOT_INT)), refused(8, 194)),
        case("put in", RECORDS, in_module(&[CALL_OPEN, CALL_READ], set_slot(0, 1, SLOT_CALL_READ)), ACCEPTED),
        case("put in without open", RECORDS, in_module(&[CALL_BOTH, CALL_READ], set_slot(0, 1, SLOT_CALL_READ)), refused(9, 194)),
        case("put into another type", RECORDS, in_module(&[HORSE_READ, CALL_READ], set_slot(0, 1, SLOT_CALL_READ)), refused(8, 194)),
        case("put into an array", RECORDS, in_module(&[READS, CALL_READ], set_slot(0, 1, SLOT_CALL_READ)), refused(8, 194)),
    ]
}
