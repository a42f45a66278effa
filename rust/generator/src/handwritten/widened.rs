//! Document 02, S-3: arrays without store, whose elements may be those of
//! arrays with more rights, with and without store in each level.

use super::catalogue::{
    beside_main, calling, in_main, BOTHS, BOTHS_FETCH, INT, NESTED, NESTED_BOTHS, READS,
    READS_FETCH,
};
use super::depths::{CALL_BOTH, CALL_READ, HORSE_READ};
use super::structures::{bound, named, needed, Structure};
use super::{case, refused, Case, ACCEPTED};
use crate::operations::{bind, call, fetch, give_back, leave, store};
use crate::records::{QualifiedRecord, FETCH as F, NONE, SIZE, STORE};
use crate::sheet::{Procedure, SheetBuilder};

const WIDER: &str =
    "where Q2 lacks store, element of Q1 ≥ element of Q2 is enough in place of equal elements";
const REST: &str = "the rest of Q1 ≥ Q2, its rights included, stands";
const NEED: &str = "need and inner are equal, in the sense given for elements";
const NAMES: &str = "?R ≥ any subset of the least set on that base, and nothing else reaches ?R";
const SETTLES: &str = "A call settles ?R from the declared type of each actual whose need uses it";

const FS: u32 = F | STORE;
const NAME: QualifiedRecord = QualifiedRecord::GENERIC;
const CALL_NONE: QualifiedRecord = QualifiedRecord {
    base: 2,
    rights: 0,
    element: NONE,
};

pub fn cases() -> Vec<Case> {
    let mut all = one_level_cases();
    all.extend(two_level_cases());
    all.extend(three_level_cases());
    all.extend(need_cases());
    all.extend(named_cases());
    all.extend(movement_cases());
    all.extend(settling_cases());
    all
}

/// Arrays of records; the bind stands at 76.
#[rustfmt::skip]
fn one_level_cases() -> Vec<Case> {
    let both = |rights: &'static [u32]| (rights, CALL_BOTH);
    let read = |rights: &'static [u32]| (rights, CALL_READ);
    let none = |rights: &'static [u32]| (rights, CALL_NONE);
    vec![
        case("widened, the source without store", WIDER, bound([both(&[F]), read(&[F])]), ACCEPTED),
        case("widened, the source with store", WIDER, bound([both(&[FS]), read(&[F])]), ACCEPTED),
        case("widened, to an array without any right", WIDER, bound([both(&[FS]), read(&[0])]), ACCEPTED),
        case("widened, to an array with size alone", WIDER, bound([both(&[SIZE]), read(&[SIZE])]), ACCEPTED),
        case("widened to no right", WIDER, bound([read(&[F]), none(&[F])]), ACCEPTED),
        case("more rights under store", WIDER, bound([both(&[FS]), read(&[FS])]), refused(8, 76)),
        case("more rights under store alone", WIDER, bound([both(&[FS]), read(&[STORE])]), refused(8, 76)),
        case("more rights under store, which the source lacks", WIDER, bound([both(&[F]), read(&[FS])]), refused(8, 76)),
        case("equal elements under store, which the source lacks", REST, bound([read(&[F]), read(&[FS])]), refused(9, 76)),
        case("elements that lack a right", WIDER, bound([read(&[F]), both(&[F])]), refused(8, 76)),
        case("elements that lack a right, with store", WIDER, bound([read(&[FS]), both(&[FS])]), refused(8, 76)),
        case("elements that lack a right, and no fetch", WIDER, bound([read(&[0]), both(&[F])]), refused(8, 76)),
        case("elements with more rights, and no fetch", REST, bound([both(&[0]), read(&[F])]), refused(9, 76)),
        case("elements of another base, without store", WIDER, bound([(&[F], HORSE_READ), read(&[F])]), refused(8, 76)),
        case("elements that are integers, without store", WIDER, bound([(&[F], QualifiedRecord::INTEGER), none(&[F])]), refused(8, 76)),
        case("integers, without store", WIDER, bound([(&[FS], QualifiedRecord::INTEGER), (&[F], QualifiedRecord::INTEGER)]), ACCEPTED),
    ]
}

/// K5 to K7 over arrays of arrays; the bind stands at 88.
#[rustfmt::skip]
fn two_level_cases() -> Vec<Case> {
    let both = |rights: &'static [u32]| (rights, CALL_BOTH);
    let read = |rights: &'static [u32]| (rights, CALL_READ);
    vec![
        case("K5 over arrays, store given up outside", WIDER, bound([read(&[FS, FS]), read(&[F, FS])]), ACCEPTED),
        case("K5 over arrays, store given up in both", WIDER, bound([read(&[FS, FS]), read(&[F, F])]), ACCEPTED),
        case("K5 over arrays, store given up inside", WIDER, bound([read(&[F, FS]), read(&[F, F])]), ACCEPTED),
        case("K5 over arrays, store given up inside store", WIDER, bound([read(&[FS, FS]), read(&[FS, F])]), refused(8, 88)),
        case("K5 over arrays, store gained inside", WIDER, bound([read(&[F, F]), read(&[F, FS])]), refused(8, 88)),
        case("K6 over arrays, store in both", WIDER, bound([both(&[FS, FS]), read(&[FS, FS])]), refused(8, 88)),
        case("K6 over arrays, store outside", WIDER, bound([both(&[FS, F]), read(&[FS, F])]), refused(8, 88)),
        case("K6 over arrays, store inside", WIDER, bound([both(&[F, FS]), read(&[F, FS])]), refused(8, 88)),
        case("K6 over arrays, store inside, given up outside", WIDER, bound([both(&[FS, FS]), read(&[F, FS])]), refused(8, 88)),
        case("K7 over arrays", WIDER, bound([both(&[F, F]), read(&[F, F])]), ACCEPTED),
        case("K7 over arrays, the source with store", WIDER, bound([both(&[FS, FS]), read(&[F, F])]), ACCEPTED),
        case("K7 over arrays, the source with store inside", WIDER, bound([both(&[F, FS]), read(&[F, F])]), ACCEPTED),
        case("K7 over arrays, back", WIDER, bound([read(&[F, F]), both(&[F, F])]), refused(8, 88)),
        case("fewer rights inside, with store there", WIDER, bound([read(&[F, FS | SIZE]), read(&[F, FS])]), ACCEPTED),
        case("fetch lacking inside", WIDER, bound([both(&[F, SIZE]), read(&[F, F])]), refused(8, 88)),
        case("fetch lacking outside", REST, bound([both(&[SIZE, F]), read(&[F, F])]), refused(9, 88)),
        case("depth 1 to depth 2, without store", WIDER, bound([both(&[F]), read(&[F, F])]), refused(8, 82)),
        case("depth 2 to depth 1, without store", WIDER, bound([both(&[F, F]), read(&[F])]), refused(8, 82)),
    ]
}

/// Store in one of three levels; the bind stands at 100.
#[rustfmt::skip]
fn three_level_cases() -> Vec<Case> {
    let both = |rights: &'static [u32]| (rights, CALL_BOTH);
    let read = |rights: &'static [u32]| (rights, CALL_READ);
    vec![
        case("widened in the third level", WIDER, bound([both(&[FS, FS, FS]), read(&[F, F, F])]), ACCEPTED),
        case("store in the first of three levels", WIDER, bound([both(&[FS, F, F]), read(&[FS, F, F])]), refused(8, 100)),
        case("store in the second of three levels", WIDER, bound([both(&[F, FS, F]), read(&[F, FS, F])]), refused(8, 100)),
        case("store in the third of three levels", WIDER, bound([both(&[F, F, FS]), read(&[F, F, FS])]), refused(8, 100)),
        case("store below what differs", WIDER, bound([read(&[FS, FS, FS]), read(&[F, F, FS])]), ACCEPTED),
        case("store given up below store", WIDER, bound([read(&[F, FS, FS]), read(&[F, FS, F])]), refused(8, 100)),
    ]
}

/// The formal stands at 84, over arrays of arrays at 96.
#[rustfmt::skip]
fn need_cases() -> Vec<Case> {
    let both = |rights: &'static [u32]| (rights, CALL_BOTH);
    let read = |rights: &'static [u32]| (rights, CALL_READ);
    vec![
        case("need of more rights, without store", NEED, needed([both(&[F]), read(&[F])]), refused(7, 84)),
        case("need of fewer rights, without store", NEED, needed([read(&[F]), both(&[F])]), refused(7, 84)),
        case("need with store, inner without", NEED, needed([read(&[FS]), read(&[F])]), refused(7, 84)),
        case("need of more array rights inside, without store", NEED, needed([read(&[F, FS]), read(&[F, F])]), refused(7, 96)),
        case("need and inner without store, equal", NEED, needed([read(&[F, F]), read(&[F, F])]), ACCEPTED),
    ]
}

/// Inside a procedure for ?R ≥ call{read}; the bind stands at 97, over arrays
/// of arrays at 109.
#[rustfmt::skip]
fn named_cases() -> Vec<Case> {
    let name = |rights: &'static [u32]| -> Structure { (rights, NAME) };
    let read = |rights: &'static [u32]| (rights, CALL_READ);
    vec![
        case("?R widened to its least set", NAMES, named([name(&[F]), read(&[F])]), ACCEPTED),
        case("?R widened to less than its least set", NAMES, named([name(&[FS]), (&[F], CALL_NONE)]), ACCEPTED),
        case("?R widened to itself", NAMES, named([name(&[FS]), name(&[F])]), ACCEPTED),
        case("?R to its least set, under store", WIDER, named([name(&[FS]), read(&[FS])]), refused(8, 97)),
        case("?R to more than its least set, without store", NAMES, named([name(&[F]), (&[F], CALL_BOTH)]), refused(8, 97)),
        case("?R to another base, without store", NAMES, named([name(&[F]), (&[F], HORSE_READ)]), refused(8, 97)),
        case("the least set to ?R, without store", NAMES, named([read(&[F]), name(&[F])]), refused(8, 97)),
        case("all rights to ?R, without store", NAMES, named([(&[F], CALL_BOTH), name(&[F])]), refused(8, 97)),
        case("another base to ?R, without store", NAMES, named([(&[F], HORSE_READ), name(&[F])]), refused(8, 97)),
        case("?R widened over arrays", NAMES, named([name(&[FS, FS]), read(&[F, F])]), ACCEPTED),
        case("?R over arrays, store inside", WIDER, named([name(&[F, FS]), read(&[F, FS])]), refused(8, 109)),
        case("?R over arrays, store outside", WIDER, named([name(&[FS, F]), read(&[FS, F])]), refused(8, 109)),
    ]
}

/// The incident in its several ways, to a variable that lacks store.
#[rustfmt::skip]
fn movement_cases() -> Vec<Case> {
    let takes = |need: u8| Procedure::new(0, NONE).formal(need, need).body(&[leave()]);
    let gives = |inner: u8, result: u8| Procedure::new(0, result).variable(inner).body(&[give_back(0)]);
    vec![
        case("incident, for reading", WIDER, in_main(&[READS_FETCH, BOTHS], bind(0, 1)), ACCEPTED),
        case("incident, for reading, the other way", WIDER, in_main(&[BOTHS_FETCH, READS], bind(0, 1)), refused(8, 178)),
        case("inner array fetched for reading", WIDER, in_main(&[READS_FETCH, NESTED_BOTHS, INT], fetch(0, 1, 2)), ACCEPTED),
        case("inner array stored for reading, in an array that may store", WIDER, in_main(&[NESTED, INT, BOTHS], store(0, 1, 2)), refused(8, 182)),
        case("actual for reading", WIDER, calling(&[BOTHS], call(NONE, 0, 1), takes(READS_FETCH)), ACCEPTED),
        case("actual for amending, given for reading", WIDER, calling(&[READS], call(NONE, 0, 1), takes(BOTHS_FETCH)), refused(8, 174)),
        case("given back for reading", WIDER, beside_main(gives(BOTHS, READS_FETCH)).encode(), ACCEPTED),
        case("kept for reading", WIDER, calling(&[READS_FETCH], call(0, NONE, 1), gives(BOTHS, BOTHS)), ACCEPTED),
        case("kept for reading, with store", WIDER, calling(&[READS], call(0, NONE, 1), gives(BOTHS, BOTHS)), refused(8, 174)),
    ]
}

/// Main hands over two arrays where ?R is needed in arrays without store.
fn handed(actuals: [u8; 2]) -> Vec<u8> {
    let main = Procedure::main().variables(&actuals);
    let takes = Procedure::new(0, NONE).bound(2, 2);
    let takes = takes.formal(5, 5).formal(5, 5);
    SheetBuilder::new()
        .record_type(2, &[])
        .qualified(CALL_READ)
        .qualified(CALL_BOTH)
        .array(0, F)
        .array(1, F)
        .generic()
        .array(4, F)
        .procedure(main.body(&[call(NONE, 0, 1), leave()]))
        .procedure(takes.body(&[leave()]))
        .build()
        .encode()
}

/// The call stands at 70.
#[rustfmt::skip]
fn settling_cases() -> Vec<Case> {
    vec![
        case("two arrays for reading that settle alike", SETTLES, handed([3, 3]), ACCEPTED),
        case("two arrays for reading, one of which could be the other", SETTLES, handed([3, 2]), refused(20, 70)),
    ]
}
