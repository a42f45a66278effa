//! Calls and returns of accepted sheets.

use super::{case, lent, main_alone, maker, stops, with, RunCase};
use crate::handwritten::catalogue::{
    CALL, CALL_BOTH, CALL_NONE, CALL_OPEN, CALL_READ, INT, INTS, SLOT_INT,
};
use crate::operations::{
    add, call, fetch, get_slot, give_back, jump_if_zero, leave, new_array, put, set, set_slot,
    store, subtract, take,
};
use crate::records::{InstructionRecord, NONE};
use crate::runs::Run;
use crate::sheet::Procedure;

const ACTUALS: &str = "then 15, 16 or 17; then moved values in order, a blank one 13";
const RESULT: &str = "A return binds to the result QT, then to a";
const MAIN: &str = "the first frame, main's, returned";

pub fn cases() -> Vec<RunCase> {
    let mut all = actual_cases();
    all.extend(result_cases());
    all.extend(main_cases());
    all.extend(recursion_cases());
    all.extend(module_cases());
    all
}

/// Main with three integers, the first of them 4, calls procedure 1 with the
/// last two. Its frame has 5 units, that of the procedure 4.
fn two_actuals(fills: &[InstructionRecord]) -> Run {
    let mut body = vec![set(0, 4)];
    body.extend(fills);
    body.extend([call(NONE, 1, 1), leave()]);
    let callee = Procedure::new(0, NONE)
        .formal(INT, INT)
        .formal(INT, INT)
        .body(&[put(0), put(1), leave()]);
    lent(with(&[INT; 3], &body, &[callee]))
}

#[rustfmt::skip]
fn actual_cases() -> Vec<RunCase> {
    let both = [set(1, 5), set(2, 6)];
    vec![
        case("actuals from b on", "with variables b, b+1 and so on", two_actuals(&both), stops(11, 8, &[5, 6], (0, 4))),
        case("first actual blank", ACTUALS, two_actuals(&both[1..]), stops(13, 2, &[], (0, 2))),
        case("second actual blank", ACTUALS, two_actuals(&both[..1]), stops(13, 2, &[], (0, 2))),
        case("17 before a blank actual", ACTUALS, two_actuals(&both[..1]).memory(8), stops(17, 2, &[], (0, 2))),
        case("a blank actual, just room", ACTUALS, two_actuals(&both[..1]).memory(9), stops(13, 2, &[], (0, 2))),
        case("filled actuals, no room", ACTUALS, two_actuals(&both).memory(8), stops(17, 3, &[], (0, 3))),
        case("filled actuals, just room", ACTUALS, two_actuals(&both).memory(9), stops(11, 8, &[5, 6], (0, 4))),
    ]
}

/// Main with the integers 0 and 1 and a call at instruction 1; procedure 1
/// gives back its variable, after the instructions.
fn giving(kept: u8, before: &[InstructionRecord]) -> Run {
    let body = [set(0, 4), call(kept, NONE, 1), put(0), put(1), leave()];
    let mut callee_body = before.to_vec();
    callee_body.push(give_back(0));
    let callee = Procedure::new(0, INT)
        .variables(&[INT; 2])
        .body(&callee_body);
    lent(with(&[INT; 2], &body, &[callee]))
}

#[rustfmt::skip]
fn result_cases() -> Vec<RunCase> {
    // The variable that the first call fills is blank in the second.
    let once = Procedure::new(0, NONE).variables(&[INT, INT]).body(&[take(0), jump_if_zero(0, 3), set(1, 8), put(1), leave()]);
    let twice = with(&[], &[call(NONE, NONE, 1), call(NONE, NONE, 1), leave()], &[once]);
    vec![
        case("a result kept", RESULT, giving(1, &[set(0, 7)]), stops(11, 7, &[4, 7], (0, 4))),
        case("a result kept over another value", RESULT, giving(0, &[set(0, 7)]), stops(13, 5, &[7], (0, 3))),
        case("a result dropped", "a 255: drop the result", giving(NONE, &[set(0, 7)]), stops(13, 5, &[4], (0, 3))),
        case("a blank result kept", RESULT, giving(1, &[]), stops(13, 2, &[], (1, 0))),
        case("a blank result dropped", "a returned value; a blank one 13", giving(NONE, &[]), stops(13, 2, &[], (1, 0))),
        case("a call's variables are new", "new cells are blank", lent(twice).input(&[1, 0]), stops(13, 9, &[8], (1, 3))),
    ]
}

#[rustfmt::skip]
fn main_cases() -> Vec<RunCase> {
    let again = [take(0), jump_if_zero(0, 3), call(NONE, NONE, 0), leave()];
    let main = || lent(main_alone(&[INT], &again));
    let through = Procedure::new(0, NONE).body(&[call(NONE, NONE, 0), leave()]);
    let other = [take(0), jump_if_zero(0, 3), call(NONE, NONE, 1), leave()];
    vec![
        case("main called from main", MAIN, main().input(&[1, 0]), stops(11, 7, &[], (0, 3))),
        case("main called twice from main", MAIN, main().input(&[1, 1, 0]), stops(11, 11, &[], (0, 3))),
        case("the inner main's return is no end", MAIN, main().input(&[1, 0]).fuel(6), stops(12, 6, &[], (0, 3))),
        case("15 in the inner main", MAIN, main().input(&[1]), stops(15, 3, &[], (0, 0))),
        case("main called from a procedure", MAIN, lent(with(&[INT], &other, &[through])).input(&[1, 0]), stops(11, 9, &[], (0, 3))),
    ]
}

#[rustfmt::skip]
fn recursion_cases() -> Vec<RunCase> {
    // sum(n) = n + sum(n − 1), sum(0) = 0: 7 steps for each n > 0, 2 for 0.
    let sum = || Procedure::new(0, INT)
        .formal(INT, INT)
        .variables(&[INT; 3])
        .body(&[jump_if_zero(0, 6), set(1, 1), subtract(2, 0, 1), call(3, 2, 1), add(3, 0, 3), give_back(3), give_back(0)]);
    let body = [take(0), call(1, 0, 1), put(1), leave()];
    let summed = || lent(with(&[INT; 2], &body, &[sum()]));
    vec![
        case("the sum to 3", "16 a←call procedure k", summed().input(&[3]), stops(11, 24, &[6], (0, 3))),
        case("the sum to 0", "16 a←call procedure k", summed().input(&[0]), stops(11, 6, &[0], (0, 3))),
        // Main 4, and 6 for each of the four frames.
        case("the sum to 3, just room", "v+2 a frame", summed().input(&[3]).memory(28), stops(11, 24, &[6], (0, 3))),
        case("the sum to 3, no room", "v+2 a frame", summed().input(&[3]).memory(27), stops(17, 13, &[], (1, 3))),
        case("the sum to 3, fuel for all but one", "before each step, 12 if steps = fuel", summed().input(&[3]).fuel(23), stops(12, 23, &[6], (0, 3))),
    ]
}

#[rustfmt::skip]
fn module_cases() -> Vec<RunCase> {
    // Procedure 2 takes a call without any right and opens it.
    let fill = Procedure::new(CALL, NONE).formal(CALL_OPEN, CALL_NONE).formal(INT, INT).body(&[set_slot(0, 1, SLOT_INT), leave()]);
    let read = Procedure::new(CALL, INT).formal(CALL_OPEN, CALL_READ).variable(INT).body(&[get_slot(1, 0, SLOT_INT), give_back(1)]);
    let others = [maker(), fill, read];
    let body = [call(0, NONE, 1), set(1, 5), call(NONE, 0, 2), call(2, 0, 3), put(2), leave()];
    let blank = [call(0, NONE, 1), call(2, 0, 3), put(2), leave()];
    let variables = [CALL_BOTH, INT, INT];
    let cell = Procedure::new(0, NONE).formal(INTS, INTS).variables(&[INT; 2]).body(&[set(1, 0), set(2, 8), store(0, 1, 2), leave()]);
    let lends = [set(0, 1), new_array(1, 0), call(NONE, 1, 1), set(0, 0), fetch(2, 1, 0), put(2), leave()];
    vec![
        case("a record opened by its module", "this is amplification", lent(with(&variables, &body, &others)), stops(11, 12, &[5], (0, 5))),
        case("a blank slot in a module", "a blank one 13", lent(with(&variables, &blank, &others)), stops(13, 4, &[], (3, 0))),
        case("an array lent to a procedure", "16 a←call procedure k", lent(with(&[INT, INTS, INT], &lends, &[cell])), stops(11, 11, &[8], (0, 6))),
    ]
}
