//! The watched machine's test of kind on two structures (document 02, S-2).

use super::{case, lent, stops, watched, RunCase};
use crate::handwritten::depths::{CALL_BOTH, CALL_READ};
use crate::handwritten::structures::{apart, Structure};
use crate::operations::{bind, call, leave, new_array, set};
use crate::records::{QualifiedRecord, ARRAY_ALL as ALL, FETCH, NONE};
use crate::runs::Run;
use crate::sheet::Procedure;

const VERDICT: &str = "Same verdict for every pair, also of unequal depth";

/// A new array of the left structure bound to the right one, at 108.
fn bound(pair: [Structure; 2]) -> Run {
    let (sheet, [source, destination]) = apart(pair);
    let main = Procedure::main().variables(&[0, source, destination]);
    let main = main.body(&[set(0, 0), new_array(1, 0), bind(2, 1), leave()]);
    lent(sheet.procedure(main).build().encode())
}

/// The same, at 189, in a procedure for ?R, which main settles to the rights
/// of the records in its array.
fn settled_to(record: QualifiedRecord, pair: [Structure; 2]) -> Run {
    let (sheet, [source, destination]) = apart(pair);
    let sheet = sheet.qualified(record).array(7, ALL);
    let sheet = sheet.generic().array(9, ALL);
    let main = Procedure::main().variables(&[0, 8]);
    let binds = Procedure::new(0, NONE).bound(2, 2).formal(10, 10);
    let binds = binds.variables(&[0, source, destination]);
    let sheet = sheet
        .procedure(main.body(&[set(0, 0), new_array(1, 0), call(NONE, 1, 1), leave()]))
        .procedure(binds.body(&[set(1, 0), new_array(2, 1), bind(3, 2), leave()]));
    lent(sheet.build().encode())
}

#[rustfmt::skip]
pub fn cases() -> Vec<RunCase> {
    let whole = (&[ALL, ALL][..], CALL_READ);
    let (one, three) = ((&[ALL][..], CALL_READ), (&[ALL, ALL, ALL][..], CALL_READ));
    let name = (&[ALL, ALL][..], QualifiedRecord::GENERIC);
    vec![
        case("bound, three levels equal", VERDICT, bound([whole, whole]), stops(11, 4, &[], (0, 3))),
        case("bound, fewer rights outside", VERDICT, bound([whole, (&[FETCH, ALL], CALL_READ)]), stops(11, 4, &[], (0, 3))),
        case("bound, fewer rights between", VERDICT, bound([whole, (&[ALL, FETCH], CALL_READ)]), watched((8, 108), 18, 2, (0, 2))),
        case("bound, another innermost", VERDICT, bound([whole, (&[ALL, ALL], CALL_BOTH)]), watched((8, 108), 18, 2, (0, 2))),
        case("bound, depth 1 to depth 3", VERDICT, bound([one, three]), watched((8, 108), 18, 2, (0, 2))),
        case("bound, depth 3 to depth 1", VERDICT, bound([three, one]), watched((8, 108), 18, 2, (0, 2))),
        case("bound, ?R innermost in both", VERDICT, settled_to(CALL_BOTH, [name, name]), stops(11, 8, &[], (0, 3))),
        case("bound, ?R beside the set that it is settled to", VERDICT, settled_to(CALL_READ, [name, whole]), watched((8, 189), 11, 8, (0, 3))),
        case("bound, ?R beside another set", VERDICT, settled_to(CALL_BOTH, [name, whole]), watched((8, 189), 18, 5, (1, 2))),
    ]
}
