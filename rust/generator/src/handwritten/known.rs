//! The results that document 01 writes out, and the incident.

use super::catalogue::{
    calling, in_main, BOTHS, BOTHS_FETCH, CALL_BOTH, CALL_NONE, CALL_READ, CALL_READ_TWIN,
    HORSE_READ, NESTED, NESTED_BOTHS, NESTED_TWIN, READS, READS_FETCH, READS_FETCH_STORE,
    READS_TWIN,
};
use super::{case, refused, Case, ACCEPTED};
use crate::operations::{bind, call, leave};
use crate::records::NONE;
use crate::sheet::Procedure;

pub const SMALLEST: [u8; 22] = [
    0x48, 0x44, 0x01, 0x00, 0x00, 0x01, 0x50, 0x52, 0x00, 0x00, 0x00, 0xFF, 0x01, 0x00, 0x49, 0x4E,
    0x11, 0xFF, 0xFF, 0xFF, 0x00, 0x00,
];

#[rustfmt::skip]
pub fn cases() -> Vec<Case> {
    let mut all = vec![
        case("smallest", "The smallest, in hexadecimal", SMALLEST.to_vec(), ACCEPTED),
        case("K12", "empty input, whole output: refused 2 0", Vec::new(), refused(2, 0)),
    ];
    all.extend(order_cases());
    all.extend(incident_cases());
    all
}

/// Variable 0 is bound to variable 1: 1 is the source.
fn bound(source: u8, destination: u8) -> Vec<u8> {
    in_main(&[destination, source], bind(0, 1))
}

#[rustfmt::skip]
fn order_cases() -> Vec<Case> {
    vec![
        case("K1", "call{read,amend} ≥ call{read}", bound(CALL_BOTH, CALL_READ), ACCEPTED),
        case("K2", "not the reverse", bound(CALL_READ, CALL_BOTH), refused(9, 178)),
        case("K3", "call{} ≥ call{}", bound(CALL_NONE, CALL_NONE), ACCEPTED),
        case("K4", "not call{read} ≥ horse{read}", bound(CALL_READ, HORSE_READ), refused(8, 178)),
        case("K5", "tray[call{read}]{fetch,store} ≥ tray[call{read}]{fetch}", bound(READS_FETCH_STORE, READS_FETCH), ACCEPTED),
        case("K6", "not tray[call{read,amend}]{fetch,store} ≥ tray[call{read}]{fetch,store}", bound(BOTHS, READS_FETCH_STORE), refused(8, 178)),
        case("K7", "K7 becomes a yes and K6 remains a no", bound(BOTHS_FETCH, READS_FETCH), ACCEPTED),
        case("K8 there", "two QT records of the same fields stand ≥ each other", bound(CALL_READ, CALL_READ_TWIN), ACCEPTED),
        case("K8 back", "two QT records of the same fields stand ≥ each other", bound(CALL_READ_TWIN, CALL_READ), ACCEPTED),
        case("K8 for elements", "same base, same rights, equal elements all the way down", bound(READS, READS_TWIN), ACCEPTED),
        case("K8 two levels down", "same base, same rights, equal elements all the way down", bound(NESTED_TWIN, NESTED), ACCEPTED),
        case("unequal two levels down", "same base, same rights, equal elements all the way down", bound(NESTED_BOTHS, NESTED), refused(8, 178)),
    ]
}

/// An array of amendable calls bound to an array of read-only calls, and the
/// ways around a bind.
#[rustfmt::skip]
fn incident_cases() -> Vec<Case> {
    let through_actual = Procedure::new(0, NONE)
        .formal(READS, READS)
        .body(&[leave()]);
    vec![
        case("incident", "Source document 001 orders components by subset; that isn't taken", bound(BOTHS, READS), refused(8, 178)),
        case("incident, the other way", "Source document 001 orders components by subset; that isn't taken", bound(READS, BOTHS), refused(8, 178)),
        case("incident through an actual", "Each movement needs source ≥ destination: need QT", calling(&[BOTHS], call(NONE, 0, 1), through_actual), refused(8, 174)),
    ]
}
