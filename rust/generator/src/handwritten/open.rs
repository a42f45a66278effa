//! Where open may stand (6), and what need and inner must have in common (7).

use super::catalogue::{
    beside_main, types, BOTHS, CALL, CALL_BOTH, CALL_NONE, CALL_OPEN, CALL_READ, CALL_READ_TWIN,
    HORSE, HORSE_OPEN, HORSE_READ, INT, NESTED, NESTED_BOTHS, NESTED_TWIN, READS, READS_FETCH,
    READS_TWIN,
};
use super::{case, edited, refused, Case, ACCEPTED};
use crate::operations::{call, give_back, leave};
use crate::records::NONE;
use crate::sheet::Procedure;

const OPEN: &str = "Open may stand only in an inner QT whose base is the procedure's owner";
const AMPLIFIED: &str =
    "For a formal whose inner has the owner's base, need must have that base and rights may differ";
const PLAIN: &str = "For every other formal, need and inner are equal";

pub fn cases() -> Vec<Case> {
    let mut all = open_cases();
    all.extend(raise_cases());
    all
}

/// Procedure 1 at 178 with one formal, at 186.
fn formal(owner: u8, inner: u8, need: u8) -> Vec<u8> {
    let procedure = Procedure::new(owner, NONE).formal(inner, need);
    beside_main(procedure.body(&[leave()])).encode()
}

/// Procedure 1 at 178 with one variable, at 186.
fn variable(owner: u8, inner: u8) -> Vec<u8> {
    let procedure = Procedure::new(owner, NONE).variable(inner);
    beside_main(procedure.body(&[leave()])).encode()
}

#[rustfmt::skip]
fn open_cases() -> Vec<Case> {
    let plain = beside_main(Procedure::new(0, NONE).body(&[leave()]));
    let result = |owner: u8, result: u8, given: u8| {
        let procedure = Procedure::new(owner, result).variable(given);
        beside_main(procedure.body(&[give_back(0)])).encode()
    };
    vec![
        case("inner, own type", OPEN, variable(CALL, CALL_OPEN), ACCEPTED),
        case("inner, no owner", OPEN, variable(0, CALL_OPEN), refused(6, 186)),
        case("inner, other owner", OPEN, variable(HORSE, CALL_OPEN), refused(6, 186)),
        case("inner of a formal, own type", OPEN, formal(CALL, CALL_OPEN, CALL_READ), ACCEPTED),
        case("inner of a formal, no owner", OPEN, formal(0, CALL_OPEN, CALL_OPEN), refused(6, 186)),
        case("need, own type", "the VR whose need or inner has it otherwise", formal(CALL, CALL_OPEN, CALL_OPEN), refused(6, 186)),
        case("need, closed inner", OPEN, formal(CALL, CALL_READ, CALL_OPEN), refused(6, 186)),
        case("need, other type", OPEN, formal(CALL, CALL_READ, HORSE_OPEN), refused(6, 186)),
        // TY 0 stands at 6, its first slot byte at 10.
        case("slot of its own type", "6 is given at the TY whose slot", edited(&plain, &[(10, CALL_OPEN)]), refused(6, 6)),
        case("last slot", "6 is given at the TY whose slot", edited(&plain, &[(12, HORSE_OPEN)]), refused(6, 6)),
        // QT 20 stands at 150, its element byte at 155.
        case("element", "the QT whose element", edited(&plain, &[(155, HORSE_OPEN)]), refused(6, 150)),
        case("result, own type", "the PR whose result", result(CALL, CALL_OPEN, CALL_OPEN), refused(6, 178)),
        case("result, no owner", "the PR whose result", result(0, CALL_OPEN, CALL_BOTH), refused(6, 178)),
        case("result, other owner", "the PR whose result", result(HORSE, CALL_OPEN, CALL_BOTH), refused(6, 178)),
        case("result of a kept value", "Letting open out through a result", result(CALL, CALL_BOTH, CALL_OPEN), ACCEPTED),
    ]
}

#[rustfmt::skip]
fn raise_cases() -> Vec<Case> {
    let strange = "Amplifying a formal of a stranger's type";
    let inner_at_call = types()
        .procedure(
            Procedure::main()
                .variable(CALL_READ)
                .body(&[call(NONE, 0, 1), leave()]),
        )
        .procedure(
            Procedure::new(CALL, NONE)
                .formal(CALL_OPEN, CALL_READ)
                .body(&[leave()]),
        );
    vec![
        case("raised", AMPLIFIED, formal(CALL, CALL_OPEN, CALL_NONE), ACCEPTED),
        case("raised, no open", AMPLIFIED, formal(CALL, CALL_BOTH, CALL_READ), ACCEPTED),
        case("lowered", AMPLIFIED, formal(CALL, CALL_NONE, CALL_BOTH), ACCEPTED),
        case("need of another type", AMPLIFIED, formal(CALL, CALL_READ, HORSE_READ), refused(7, 186)),
        case("need an integer", AMPLIFIED, formal(CALL, CALL_OPEN, INT), refused(7, 186)),
        case("need an array", AMPLIFIED, formal(CALL, CALL_OPEN, READS), refused(7, 186)),
        case("equal by number", PLAIN, formal(0, CALL_READ, CALL_READ), ACCEPTED),
        case("equal by structure", PLAIN, formal(0, CALL_READ, CALL_READ_TWIN), ACCEPTED),
        case("equal arrays", PLAIN, formal(CALL, READS, READS_TWIN), ACCEPTED),
        case("equal nested arrays", PLAIN, formal(HORSE, NESTED_TWIN, NESTED), ACCEPTED),
        case("unequal nested arrays", PLAIN, formal(HORSE, NESTED_BOTHS, NESTED), refused(7, 186)),
        case("integers", PLAIN, formal(0, INT, INT), ACCEPTED),
        case("integer inner, other need", PLAIN, formal(0, INT, CALL_READ), refused(7, 186)),
        case("more in inner", PLAIN, formal(0, CALL_BOTH, CALL_READ), refused(7, 186)),
        case("less in inner", PLAIN, formal(0, CALL_READ, CALL_BOTH), refused(7, 186)),
        case("other base", PLAIN, formal(0, CALL_READ, HORSE_READ), refused(7, 186)),
        case("other array rights", PLAIN, formal(0, READS, READS_FETCH), refused(7, 186)),
        case("other element", PLAIN, formal(0, READS, BOTHS), refused(7, 186)),
        case("array of the owner's type", PLAIN, formal(CALL, BOTHS, READS), refused(7, 186)),
        case("stranger raised", strange, formal(HORSE, CALL_BOTH, CALL_READ), refused(7, 186)),
        case("need of the owner's type", PLAIN, formal(CALL, HORSE_READ, CALL_READ), refused(7, 186)),
        case("actual meets need", "Testing against inner at a call", inner_at_call.build().encode(), ACCEPTED),
    ]
}
