//! Return forms, and what a call may do with a result.

use super::catalogue::{beside_main, calling, in_main, CALL, CALL_READ, INT};
use super::{case, refused, Case, ACCEPTED};
use crate::operations::{call, give_back, leave, set};
use crate::records::NONE;
use crate::sheet::Procedure;

const FORM: &str = "A return has a variable exactly if its PR has a result";
const KEPT: &str = "a call keeps one only then";

#[rustfmt::skip]
pub fn cases() -> Vec<Case> {
    let silent = Procedure::new(0, NONE).body(&[leave()]);
    let giving = Procedure::new(0, INT).variable(INT).body(&[give_back(0)]);
    let lacking = Procedure::new(0, INT).variable(INT).body(&[leave()]);
    let too_much = Procedure::new(0, NONE).variable(INT).body(&[give_back(0)]);
    let early = Procedure::new(CALL, CALL_READ)
        .variables(&[CALL_READ, INT])
        .body(&[set(1, 0), leave(), give_back(0)]);
    let recursive = Procedure::new(0, INT)
        .formal(INT, INT)
        .body(&[call(0, 0, 1), give_back(0)]);
    vec![
        case("result given back", FORM, beside_main(giving.clone()).encode(), ACCEPTED),
        case("result not given back", FORM, beside_main(lacking).encode(), refused(8, 190)),
        case("no result, value given back", FORM, beside_main(too_much).encode(), refused(8, 190)),
        case("an early return", FORM, beside_main(early).encode(), refused(8, 202)),
        case("main gives back", FORM, in_main(&[INT], give_back(0)), refused(8, 174)),
        case("result kept", KEPT, calling(&[INT], call(0, NONE, 1), giving.clone()), ACCEPTED),
        case("result dropped", KEPT, calling(&[INT], call(NONE, NONE, 1), giving), ACCEPTED),
        case("no result, none kept", KEPT, calling(&[INT], call(NONE, NONE, 1), silent.clone()), ACCEPTED),
        case("no result, one kept", KEPT, calling(&[INT], call(0, NONE, 1), silent), refused(8, 174)),
        case("main's result kept", KEPT, in_main(&[INT], call(0, NONE, 0)), refused(8, 174)),
        case("a call of itself", "16 a←call procedure k", beside_main(recursive).encode(), ACCEPTED),
    ]
}
