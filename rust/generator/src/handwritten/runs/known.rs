//! The runs that document 01 writes out, and the refusals of a run.

use super::{at, case, lent, main_alone, refuses, stops, Expected, RunCase};
use crate::handwritten::catalogue::{CALL_READ, INT, INTS};
use crate::handwritten::known::SMALLEST;
use crate::operations::{add, fetch, leave, new_array, put, set, store, subtract};
use reference::Outcome;

const SMALL: &str = "Small sheets";
const TEN: &str = "over 65,536 words";

#[rustfmt::skip]
pub fn cases() -> Vec<RunCase> {
    let smallest = || lent(SMALLEST.to_vec());
    let mut all = vec![
        case("K9", "fuel 1, bench 2: stop 11, one step", smallest().fuel(1).memory(2), stops(11, 1, &[], (0, 0))),
        case("K10", "fuel 0, bench 2: 12, none", smallest().fuel(0).memory(2), stops(12, 0, &[], (0, 0))),
        case("K11", "fuel 0, bench 1: 17, none", smallest().fuel(0).memory(1), stops(17, 0, &[], (0, 0))),
        case("no memory", "17 before main opens gives 0, 0", smallest().memory(0), stops(17, 0, &[], (0, 0))),
        case("no input and no output", SMALL, smallest().input(&[]).output(0), stops(11, 1, &[], (0, 0))),
        case("all the fuel that there can be", "fuel and steps 64", smallest().fuel(u64::MAX), stops(11, 1, &[], (0, 0))),
        case("65,536 words", TEN, smallest().memory(65_536), stops(11, 1, &[], (0, 0))),
        case("65,537 words", "65,537 words gives 10", smallest().memory(65_537), refuses(10, 0)),
        case("65,537 words and fuel 0", TEN, smallest().memory(65_537).fuel(0), refuses(10, 0)),
        case("K12 run", "empty input, whole output: refused 2 0", lent(Vec::new()), refuses(2, 0)),
        case("empty input, 65,537 words", "then 10", lent(Vec::new()).memory(65_537), refuses(2, 0)),
        case("overlong, 65,537 words", "Order: 1", lent(vec![0; 32_769]).memory(65_537), refuses(1, 0)),
        case("empty input, no memory", "1 to 10 are refusals", lent(Vec::new()).memory(0), refuses(2, 0)),
    ];
    all.extend(arithmetic_cases());
    all.push(access_before_ten());
    all
}

#[rustfmt::skip]
fn arithmetic_cases() -> Vec<RunCase> {
    let below_zero = [set(0, 0), set(1, 1), subtract(2, 0, 1), put(2), add(2, 2, 1), put(2), leave()];
    let empty = [set(0, 0), new_array(1, 0), fetch(0, 1, 0), leave()];
    let stored = [set(0, 0), new_array(1, 0), store(1, 0, 0), leave()];
    vec![
        case("0 − 1, and 1 more", "0−1 gives 4,294,967,295", lent(main_alone(&[INT; 3], &below_zero)), stops(11, 7, &[4_294_967_295, 0], (0, 6))),
        case("size 0, fetch at 0", "size 0 with index 0 gives 14", lent(main_alone(&[INT, INTS], &empty)), stops(14, 2, &[], (0, 2))),
        case("size 0, store at 0", "size 0 with index 0 gives 14", lent(main_alone(&[INT, INTS], &stored)), stops(14, 2, &[], (0, 2))),
    ]
}

/// A sheet that check refuses: run says 8, watch comes to 10.
fn access_before_ten() -> RunCase {
    let sheet = main_alone(&[CALL_READ], &[set(0, 1), leave()]);
    let refused = |number, place| Outcome::Refused { number, place };
    let expected = Expected {
        run: refused(8, at(1, 0)),
        watch: refused(10, 0),
        put: Vec::new(),
    };
    case(
        "8 before 10",
        "watch all but 6 to 9",
        lent(sheet).memory(65_537),
        expected,
    )
}
