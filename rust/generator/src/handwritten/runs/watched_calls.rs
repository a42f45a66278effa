//! Calls, amplification and returns in sheets that check refuses.

use super::{at, at_1, case, lent, main_alone, maker, watched, with, RunCase};
use crate::handwritten::catalogue::{
    CALL, CALL_BOTH, CALL_NONE, CALL_OPEN, CALL_READ, HORSE, HORSE_READ, INT, INTS,
};
use crate::operations::{bind, call, give_back, leave, new_array, new_record, set};
use crate::records::{InstructionRecord, NONE};
use crate::runs::Run;
use crate::sheet::Procedure;

const FORM: &str = "18 for a return, or a call keeping a result, against the PR's result";
const FRAME: &str = "then 15, 16 or 17; then moved values in order";
const ACTUALS: &str = "moved values in order, a blank one 13";
const NEED: &str = "A call binds each actual to need; else it is bound to inner";
const AMPLIFIED: &str = "if its type and inner's base are the callee's owner";
const RETURN: &str = "A return binds to the result QT, then to a";

pub fn cases() -> Vec<RunCase> {
    let mut all = form_cases();
    all.extend(actual_cases());
    all.extend(formal_cases());
    all.extend(return_cases());
    all.extend(open_cases());
    all
}

fn without_result(formals: &[u8]) -> Procedure {
    let procedure = Procedure::new(0, NONE);
    let all = formals.iter();
    all.fold(procedure, |all, &formal| all.formal(formal, formal))
        .body(&[leave()])
}

#[rustfmt::skip]
fn form_cases() -> Vec<RunCase> {
    let keeps = |callee: Procedure| lent(with(&[INT, INT], &[call(0, NONE, 1), leave()], &[callee]));
    let keeps_of = |actual: u8| lent(with(&[INT, actual], &[call(0, 1, 1), leave()], &[without_result(&[INT])]));
    let calls = |callee: Procedure| lent(with(&[], &[call(NONE, NONE, 1), leave()], &[callee]));
    let nothing = Procedure::new(0, INT).body(&[leave()]);
    let too_much = Procedure::new(0, NONE).variable(INT).body(&[set(0, 1), give_back(0)]);
    let blank = Procedure::new(0, NONE).variable(INT).body(&[give_back(0)]);
    vec![
        case("a result kept of none", FORM, keeps(without_result(&[])), watched((8, at(2, 0)), 18, 0, (0, 0))),
        case("a result kept of none, no room", FORM, keeps(without_result(&[])).memory(5), watched((8, at(2, 0)), 18, 0, (0, 0))),
        case("a result kept of none, blank actual", FORM, keeps_of(INT), watched((8, at(2, 0)), 18, 0, (0, 0))),
        case("main gives back", FORM, lent(main_alone(&[INT], &[set(0, 1), give_back(0)])), watched((8, at(1, 1)), 18, 1, (0, 1))),
        case("no result given back", FORM, calls(nothing), watched((8, at_1((0, 2), 0, 0)), 18, 1, (1, 0))),
        case("a value given back for none", FORM, calls(too_much), watched((8, at_1((0, 2), 1, 1)), 18, 2, (1, 1))),
        case("a blank given back for none", FORM, calls(blank), watched((8, at_1((0, 2), 1, 0)), 18, 1, (1, 0))),
    ]
}

#[rustfmt::skip]
fn actual_cases() -> Vec<RunCase> {
    // An array of 0 in 1; main's frame has 4 units, the callee's 3.
    let array = || lent(with(&[INT, INTS], &[set(0, 0), new_array(1, 0), call(NONE, 1, 1), leave()], &[without_result(&[INT])]));
    // A call from the maker in 0, the other variables blank.
    let made = |variables: &[u8], formals: &[u8]| lent(with(variables, &[call(0, NONE, 1), call(NONE, 0, 2), leave()], &[maker(), without_result(formals)]));
    // The first actual meets need but not inner.
    let raised = Procedure::new(0, NONE).formal(CALL_BOTH, CALL_READ).formal(INT, INT).body(&[leave()]);
    let in_turn = lent(with(&[CALL_BOTH, INT], &[call(0, NONE, 1), call(NONE, 0, 2), leave()], &[maker(), raised]));
    let second = [set(0, 0), new_array(2, 0), call(NONE, 1, 1), leave()];
    let first = [set(0, 1), call(NONE, 0, 1), leave()];
    vec![
        case("17 before 18 of an actual", FRAME, array().memory(7), watched((8, at(2, 2)), 17, 2, (0, 2))),
        case("18 of an actual, just room", FRAME, array().memory(8), watched((8, at(2, 2)), 18, 2, (0, 2))),
        case("an actual with less", NEED, made(&[CALL_READ], &[CALL_BOTH]), watched((9, at(1, 1)), 19, 3, (0, 1))),
        case("an actual of another type", NEED, made(&[CALL_READ], &[HORSE_READ]), watched((8, at(1, 1)), 18, 3, (0, 1))),
        case("first with less, second blank", ACTUALS, made(&[CALL_READ, INT], &[CALL_BOTH, INT]), watched((9, at(2, 1)), 19, 3, (0, 1))),
        case("first not bound to inner, second blank", ACTUALS, in_turn, watched((7, 238), 19, 3, (0, 1))),
        case("first of another type, second blank", ACTUALS, lent(with(&[INT, INT], &first, &[without_result(&[CALL_READ, INT])])), watched((8, at(2, 1)), 18, 1, (0, 1))),
        case("first blank, second of another type", ACTUALS, lent(with(&[INT, INT, INTS], &second, &[without_result(&[INT, CALL_READ])])), watched((8, at(3, 2)), 13, 2, (0, 2))),
    ]
}

/// Main gets a call from the maker and hands it to procedure 2, whose only
/// formal is given; that one binds it to its variable. The formal stands at
/// 234, the first instruction at 242; until procedure 2 is called there are 3
/// steps.
fn formal(owner: u8, inner: u8, need: u8, variable: u8) -> Run {
    let body = [call(0, NONE, 1), call(NONE, 0, 2), leave()];
    let callee = Procedure::new(owner, NONE)
        .formal(inner, need)
        .variable(variable)
        .body(&[bind(1, 0), leave()]);
    lent(with(&[CALL_BOTH], &body, &[maker(), callee]))
}

#[rustfmt::skip]
fn formal_cases() -> Vec<RunCase> {
    vec![
        case("a stranger's type is not amplified", "Amplifying a formal of a stranger's type", formal(HORSE, CALL_OPEN, CALL_READ, CALL_READ), watched((6, 234), 19, 3, (0, 1))),
        case("no owner, no amplification", AMPLIFIED, formal(0, CALL_BOTH, CALL_READ, CALL_READ), watched((7, 234), 19, 3, (0, 1))),
        case("need is more than inner", "Testing against inner at a call", formal(0, CALL_NONE, CALL_OPEN, CALL_NONE), watched((9, at(1, 1)), 19, 3, (0, 1))),
        case("need of another type", NEED, formal(CALL, CALL_OPEN, HORSE_READ, CALL_READ), watched((8, at(1, 1)), 18, 3, (0, 1))),
        case("inner of another type", NEED, formal(CALL, HORSE_READ, CALL_READ, HORSE_READ), watched((7, 234), 18, 3, (0, 1))),
        case("bound to need, then to less", NEED, formal(0, CALL_NONE, CALL_READ, CALL_NONE), watched((7, 234), 11, 7, (0, 2))),
        case("amplification takes rights too", AMPLIFIED, formal(CALL, CALL_NONE, CALL_READ, CALL_READ), watched((9, 242), 19, 4, (2, 0))),
        case("need's rights are not carried on", NEED, formal(0, CALL_NONE, CALL_BOTH, CALL_READ), watched((7, 234), 19, 4, (2, 0))),
    ]
}

/// Main calls procedure 2, which gets a call from the maker, if its first
/// instruction is not left out, and gives it back as the result; main keeps
/// it, if it has a variable. The PR of procedure 2 stands at 214 + 4 v.
fn result(kept: &[u8], inner: u8, result: u8, body: &[InstructionRecord]) -> Run {
    let to = if kept.is_empty() { NONE } else { 0 };
    let callee = Procedure::new(0, result).variable(inner).body(body);
    lent(with(
        kept,
        &[call(to, NONE, 2), leave()],
        &[maker(), callee],
    ))
}

#[rustfmt::skip]
fn return_cases() -> Vec<RunCase> {
    let made = [call(0, NONE, 1), give_back(0)];
    let blank = [give_back(0)];
    vec![
        case("less than the result, dropped", RETURN, result(&[], CALL_READ, CALL_BOTH, &made), watched((9, 234), 19, 4, (2, 1))),
        case("other than the result, dropped", RETURN, result(&[], CALL_READ, HORSE_READ, &made), watched((8, 234), 18, 4, (2, 1))),
        case("kept as more", RETURN, result(&[CALL_BOTH], CALL_BOTH, CALL_READ, &made), watched((9, at(1, 0)), 19, 4, (2, 1))),
        case("kept as another type", RETURN, result(&[INT], CALL_READ, CALL_READ, &made), watched((8, at(1, 0)), 18, 4, (2, 1))),
        case("less than the result, kept as another type", RETURN, result(&[INT], CALL_READ, CALL_BOTH, &made), watched((8, at(1, 0)), 19, 4, (2, 1))),
        case("other than the result, kept as more", RETURN, result(&[CALL_BOTH], CALL_READ, HORSE_READ, &made), watched((8, at(1, 0)), 18, 4, (2, 1))),
        case("a blank result, kept as another type", "a returned value; a blank one 13", result(&[INT], CALL_READ, CALL_READ, &blank), watched((8, at(1, 0)), 13, 1, (2, 0))),
    ]
}

#[rustfmt::skip]
fn open_cases() -> Vec<RunCase> {
    let open = Procedure::new(CALL, CALL_OPEN).variable(CALL_OPEN).body(&[new_record(0), give_back(0)]);
    let out = |kept: u8| lent(with(&[kept], &[call(0, NONE, 1), leave()], std::slice::from_ref(&open)));
    vec![
        case("open let out, dropped at main", "Letting open out through a result", out(CALL_BOTH), watched((6, 190), 11, 4, (0, 1))),
        case("open let out, kept at main", "watch a well-formed one on the watched machine", out(CALL_OPEN), watched((6, 170), 11, 4, (0, 1))),
    ]
}
