//! Long inputs and outputs, much fuel, far jumps, and many cells, objects and
//! frames.

use super::{case, lent, main_alone, stops, with, RunCase};
use crate::handwritten::catalogue::{INT, INTS};
use crate::operations::{
    add, call, fetch, jump_if_zero, leave, less, new_array, put, set, size, store, subtract, take,
};
use crate::records::{InstructionRecord, NONE};
use crate::runs::Run;
use crate::sheet::Procedure;

const READS: &str = "15 reads ended: none left to take. 16 report full: no word free";
const FUEL: &str = "bench words, fuel and steps 64";
const TARGET: &str = "5 if a is zero go to instruction k (k<n)";
const OBJECTS: &str = "objects (tray or record, and its cells)";

pub fn cases() -> Vec<RunCase> {
    let mut all = word_cases();
    all.extend(fuel_cases());
    all.extend(target_cases());
    all.extend(object_cases());
    all
}

fn words(count: u32) -> Vec<u32> {
    (0..count)
        .map(|number| number.wrapping_mul(0x9e37_79b9))
        .collect()
}

/// Puts what it takes, three steps for each word after the first step.
fn copying(input: u32, output: usize) -> Run {
    let body = [set(1, 0), take(0), put(0), jump_if_zero(1, 1), leave()];
    lent(main_alone(&[INT; 2], &body))
        .input(&words(input))
        .output(output)
        .fuel(1_000_000)
}

#[rustfmt::skip]
fn word_cases() -> Vec<RunCase> {
    vec![
        case("256 words to take", READS, copying(256, 300), stops(15, 769, &words(256), (0, 1))),
        case("257 words to take", READS, copying(257, 300), stops(15, 772, &words(257), (0, 1))),
        case("65,536 words to take", READS, copying(65_536, 65_540), stops(15, 196_609, &words(65_536), (0, 1))),
        case("65,537 words to take", READS, copying(65_537, 65_540), stops(15, 196_612, &words(65_537), (0, 1))),
        case("256 words to put", READS, copying(300, 256), stops(16, 770, &words(256), (0, 2))),
        case("257 words to put", READS, copying(300, 257), stops(16, 773, &words(257), (0, 2))),
        case("65,536 words to put", READS, copying(65_540, 65_536), stops(16, 196_610, &words(65_536), (0, 2))),
        case("65,537 words to put", READS, copying(65_540, 65_537), stops(16, 196_613, &words(65_537), (0, 2))),
    ]
}

#[rustfmt::skip]
fn fuel_cases() -> Vec<RunCase> {
    let three = |fuel: u64| lent(main_alone(&[INT], &[set(0, 7), put(0), leave()])).fuel(fuel);
    let endless = |fuel: u64| lent(main_alone(&[INT], &[set(0, 0), jump_if_zero(0, 1), leave()])).fuel(fuel);
    let done = || stops(11, 3, &[7], (0, 2));
    vec![
        case("fuel of 256", FUEL, three(256), done()),
        case("fuel of 2^16", FUEL, three(1 << 16), done()),
        case("fuel of 2^24", FUEL, three(1 << 24), done()),
        case("fuel of 2^31", FUEL, three(1 << 31), done()),
        case("fuel of 2^32", FUEL, three(1 << 32), done()),
        case("fuel of 2^32 + 1", FUEL, three((1 << 32) + 1), done()),
        case("fuel of 2^32 + 2", FUEL, three((1 << 32) + 2), done()),
        case("fuel of 2^63", FUEL, three(1 << 63), done()),
        case("fuel of 2^63 + 2", FUEL, three((1 << 63) + 2), done()),
        case("cut after 255 steps", FUEL, endless(255), stops(12, 255, &[], (0, 1))),
        case("cut after 256 steps", FUEL, endless(256), stops(12, 256, &[], (0, 1))),
        case("cut after 65,535 steps", FUEL, endless(65_535), stops(12, 65_535, &[], (0, 1))),
        case("cut after 65,536 steps", FUEL, endless(65_536), stops(12, 65_536, &[], (0, 1))),
        case("cut after 65,537 steps", FUEL, endless(65_537), stops(12, 65_537, &[], (0, 1))),
    ]
}

/// A jump among 1,000 instructions, the others of which are returns.
fn jumping(target: u16) -> Run {
    let mut body: Vec<InstructionRecord> = vec![leave(); 1_000];
    body[0] = set(0, 0);
    body[1] = jump_if_zero(0, target);
    lent(main_alone(&[INT], &body))
}

#[rustfmt::skip]
fn target_cases() -> Vec<RunCase> {
    let mut late = vec![set(0, 6); 998];
    late[300] = call(NONE, NONE, 1);
    late.extend([put(1), leave()]);
    let callee = Procedure::new(0, NONE).body(&[leave()]);
    let goes_on = lent(with(&[INT; 2], &late, &[callee])).fuel(2_000);
    vec![
        case("a jump to 255", TARGET, jumping(255), stops(11, 3, &[], (0, 255))),
        case("a jump to 256", TARGET, jumping(256), stops(11, 3, &[], (0, 256))),
        case("a jump to 257", TARGET, jumping(257), stops(11, 3, &[], (0, 257))),
        case("a jump to 511", TARGET, jumping(511), stops(11, 3, &[], (0, 511))),
        case("a jump to 512", TARGET, jumping(512), stops(11, 3, &[], (0, 512))),
        case("a jump to 999", TARGET, jumping(999), stops(11, 3, &[], (0, 999))),
        case("a call at 300, a blank at 998", "The place is that of the instruction stopped at", goes_on, stops(13, 999, &[], (0, 998))),
    ]
}

/// So many arrays of no cell, and after them one of one cell, whose size is
/// put. Main has 7 units; there are 4 steps for each array.
fn many_objects(count: u32) -> Run {
    let body = [
        take(0),
        set(1, 1),
        set(2, 0),
        jump_if_zero(0, 7),
        new_array(3, 2),
        subtract(0, 0, 1),
        jump_if_zero(2, 3),
        new_array(3, 1),
        size(4, 3),
        put(4),
        leave(),
    ];
    lent(main_alone(&[INT, INT, INT, INTS, INT], &body))
        .input(&[count])
        .fuel(1_000_000)
        .memory(count as usize + 9)
}

/// Every cell of an array gets its index; then those that the input names are
/// put. There are 6 steps for each cell, and 5 for each that is put.
fn many_cells(count: u32, named: &[u32]) -> Run {
    let body = [
        take(0),
        new_array(3, 0),
        set(1, 0),
        set(2, 1),
        less(4, 1, 0),
        jump_if_zero(4, 10),
        store(3, 1, 1),
        add(1, 1, 2),
        set(4, 0),
        jump_if_zero(4, 4),
        take(1),
        fetch(4, 3, 1),
        put(4),
        set(4, 0),
        jump_if_zero(4, 10),
        leave(),
    ];
    let input: Vec<u32> = [count].into_iter().chain(named.iter().copied()).collect();
    lent(main_alone(&[INT, INT, INT, INTS, INT], &body))
        .input(&input)
        .output(named.len())
        .fuel(1_000_000)
        .memory(count as usize + 8)
}

#[rustfmt::skip]
fn object_cases() -> Vec<RunCase> {
    let again = [take(0), jump_if_zero(0, 3), call(NONE, NONE, 0), leave()];
    let mut ones = vec![1; 300];
    ones.push(0);
    let deep = lent(main_alone(&[INT], &again)).input(&ones).fuel(2_000).memory(903);
    let few = [0, 43, 44, 255, 256, 299];
    let many = [0, 255, 256, 32_767, 32_768, 64_999];
    vec![
        case("256 arrays and one more", OBJECTS, many_objects(256), stops(11, 1_032, &[1], (0, 10))),
        case("1,000 arrays and one more", OBJECTS, many_objects(1_000), stops(11, 4_008, &[1], (0, 10))),
        case("300 cells with their indexes", OBJECTS, many_cells(300, &few), stops(15, 1_836, &few, (0, 10))),
        case("65,000 cells with their indexes", OBJECTS, many_cells(65_000, &many), stops(15, 390_036, &many, (0, 10))),
        case("301 frames of main", "frames are given back on return", deep, stops(11, 1_203, &[], (0, 3))),
    ]
}
