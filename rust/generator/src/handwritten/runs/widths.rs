//! Numbers with bits in every byte: values, sizes and indexes.

use super::{case, lent, main_alone, stops, with, RunCase};
use crate::handwritten::catalogue::{CALL, CALL_OPEN, INT, INTS, SLOT_INT};
use crate::operations::{
    add, call, fetch, get_slot, give_back, jump_if_zero, leave, new_array, new_record, put, set,
    set_slot, size, store, take,
};
use crate::runs::Run;
use crate::sheet::Procedure;

const BITS: &str = "Reads, integers and report words have 32 bits";
const ZERO: &str = "5 if a is zero go to instruction k (k<n)";
const SIZE: &str = "9 a←new tray of size b; 12 a←size of b";
const EXACTLY: &str = "17 exactly when live frames plus objects would exceed the bench's words";
const INDEX: &str = "past the tray: index ≥ size";
const MOST: u32 = u32::MAX;

pub fn cases() -> Vec<RunCase> {
    let mut all = value_cases();
    all.extend(jump_cases());
    all.extend(size_cases());
    all.extend(index_cases());
    all
}

/// Takes a number, stores it in a cell, and puts what is fetched from it.
fn cell(value: u32) -> Run {
    let body = [
        take(0),
        set(1, 1),
        new_array(2, 1),
        set(1, 0),
        store(2, 1, 0),
        fetch(3, 2, 1),
        put(3),
        leave(),
    ];
    lent(main_alone(&[INT, INT, INTS, INT], &body)).input(&[value])
}

/// The same with a slot, in a procedure of the module of call.
fn slot(value: u32) -> Run {
    let module = Procedure::new(CALL, INT)
        .formal(INT, INT)
        .variables(&[CALL_OPEN, INT])
        .body(&[
            new_record(1),
            set_slot(1, 0, SLOT_INT),
            get_slot(2, 1, SLOT_INT),
            give_back(2),
        ]);
    let body = [take(0), call(1, 0, 1), put(1), leave()];
    lent(with(&[INT; 2], &body, &[module])).input(&[value])
}

#[rustfmt::skip]
fn value_cases() -> Vec<RunCase> {
    let mut doubled = vec![set(0, 32_768)];
    doubled.extend([add(0, 0, 0); 16]);
    doubled.extend([put(0), add(0, 0, 0), put(0), leave()]);
    vec![
        case("a cell of 65,536", BITS, cell(65_536), stops(11, 8, &[65_536], (0, 7))),
        case("a cell of 16,777,217", BITS, cell(16_777_217), stops(11, 8, &[16_777_217], (0, 7))),
        case("a cell of 2,147,483,648", BITS, cell(1 << 31), stops(11, 8, &[1 << 31], (0, 7))),
        case("a cell of 4,294,967,295", BITS, cell(MOST), stops(11, 8, &[MOST], (0, 7))),
        case("a slot of 65,791", BITS, slot(65_791), stops(11, 8, &[65_791], (0, 3))),
        case("a slot of 2,147,483,648", BITS, slot(1 << 31), stops(11, 8, &[1 << 31], (0, 3))),
        case("a slot of 4,294,967,295", BITS, slot(MOST), stops(11, 8, &[MOST], (0, 3))),
        case("2^31 by sums, and twice that", "both modulo 2^32", lent(main_alone(&[INT], &doubled)), stops(11, 21, &[1 << 31, 0], (0, 20))),
    ]
}

#[rustfmt::skip]
fn jump_cases() -> Vec<RunCase> {
    let tested = |value: u32| lent(main_alone(&[INT], &[take(0), jump_if_zero(0, 3), put(0), leave()])).input(&[value]);
    vec![
        case("0 is zero", ZERO, tested(0), stops(11, 3, &[], (0, 3))),
        case("256 is not zero", ZERO, tested(256), stops(11, 4, &[256], (0, 3))),
        case("65,536 is not zero", ZERO, tested(65_536), stops(11, 4, &[65_536], (0, 3))),
        case("2^24 is not zero", ZERO, tested(1 << 24), stops(11, 4, &[1 << 24], (0, 3))),
        case("2^31 is not zero", ZERO, tested(1 << 31), stops(11, 4, &[1 << 31], (0, 3))),
    ]
}

/// An array of a size that is taken, and its size put. Main has 4 units.
fn told(count: u32) -> Run {
    let body = [take(0), new_array(1, 0), size(0, 1), put(0), leave()];
    lent(main_alone(&[INT, INTS], &body)).input(&[count])
}

#[rustfmt::skip]
fn size_cases() -> Vec<RunCase> {
    let whole = |count: u32| told(count).memory(65_536);
    vec![
        case("a size of 255", SIZE, told(255).memory(260), stops(11, 5, &[255], (0, 4))),
        case("a size of 256", SIZE, told(256).memory(261), stops(11, 5, &[256], (0, 4))),
        case("a size of 256, one word less", EXACTLY, told(256).memory(260), stops(17, 1, &[], (0, 1))),
        case("a size of 257", SIZE, told(257).memory(262), stops(11, 5, &[257], (0, 4))),
        case("a size of 32,768", SIZE, whole(32_768), stops(11, 5, &[32_768], (0, 4))),
        case("a size of 65,531", SIZE, whole(65_531), stops(11, 5, &[65_531], (0, 4))),
        case("a size of 65,536", EXACTLY, whole(65_536), stops(17, 1, &[], (0, 1))),
        case("a size of 65,537", EXACTLY, whole(65_537), stops(17, 1, &[], (0, 1))),
        case("a size of 131,071", EXACTLY, whole(131_071), stops(17, 1, &[], (0, 1))),
        case("a size of 2^24", EXACTLY, whole(1 << 24), stops(17, 1, &[], (0, 1))),
        case("a size of 2^31", EXACTLY, whole(1 << 31), stops(17, 1, &[], (0, 1))),
        case("a size of 2^31 + 1", EXACTLY, whole((1 << 31) + 1), stops(17, 1, &[], (0, 1))),
        case("a size of 2^32 − 1", EXACTLY, whole(MOST), stops(17, 1, &[], (0, 1))),
    ]
}

/// An array of a size, a store at an index and a fetch at another, all three
/// taken; the number stored is the index. Main has 7 units.
fn indexed(count: u32, stored: u32, fetched: u32) -> Run {
    let body = [
        take(0),
        take(1),
        take(2),
        new_array(3, 0),
        store(3, 1, 1),
        fetch(4, 3, 2),
        put(4),
        leave(),
    ];
    let sheet = main_alone(&[INT, INT, INT, INTS, INT], &body);
    lent(sheet)
        .input(&[count, stored, fetched])
        .memory(count as usize + 8)
}

#[rustfmt::skip]
fn index_cases() -> Vec<RunCase> {
    vec![
        case("cell 255 of 256", INDEX, indexed(256, 255, 255), stops(11, 8, &[255], (0, 7))),
        case("cell 256 of 256", INDEX, indexed(256, 256, 0), stops(14, 4, &[], (0, 4))),
        case("cell 256 of 257", INDEX, indexed(257, 256, 256), stops(11, 8, &[256], (0, 7))),
        case("cell 256 is not cell 0", INDEX, indexed(257, 256, 0), stops(13, 5, &[], (0, 5))),
        case("cell 300 is not cell 44", INDEX, indexed(301, 300, 44), stops(13, 5, &[], (0, 5))),
        case("cell 65,000 of 65,500", INDEX, indexed(65_500, 65_000, 65_000), stops(11, 8, &[65_000], (0, 7))),
        case("cell 65,000 is not cell 32,232", INDEX, indexed(65_500, 65_000, 32_232), stops(13, 5, &[], (0, 5))),
        case("store at 65,536 of 1", INDEX, indexed(1, 65_536, 0), stops(14, 4, &[], (0, 4))),
        case("fetch at 65,536 of 1", INDEX, indexed(1, 0, 65_536), stops(14, 5, &[], (0, 5))),
        case("fetch at 65,835 of 300", INDEX, indexed(300, 299, 65_835), stops(14, 5, &[], (0, 5))),
        case("fetch at 65,535 of 300", INDEX, indexed(300, 299, 65_535), stops(14, 5, &[], (0, 5))),
        case("store at 2^24 + 2 of 3", INDEX, indexed(3, (1 << 24) + 2, 2), stops(14, 4, &[], (0, 4))),
        case("fetch at 2^24 + 2 of 3", INDEX, indexed(3, 2, (1 << 24) + 2), stops(14, 5, &[], (0, 5))),
        case("store at 2^31 of 1", INDEX, indexed(1, 1 << 31, 0), stops(14, 4, &[], (0, 4))),
        case("fetch at 2^31 of 1", INDEX, indexed(1, 0, 1 << 31), stops(14, 5, &[], (0, 5))),
        case("store at 2^32 − 1 of 300", INDEX, indexed(300, MOST, 0), stops(14, 4, &[], (0, 4))),
        case("fetch at 2^32 − 1 of 300", INDEX, indexed(300, 0, MOST), stops(14, 5, &[], (0, 5))),
    ]
}
