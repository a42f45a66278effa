//! The types that the hand-written sheets of edition 2 share.

use super::{bit, Second};
use crate::records::{named_rights, ARRAY_ALL, FETCH, OPEN};
use crate::sheet::SheetBuilder;

pub const WIDE: u8 = 2;

pub const INT: u8 = 0;
pub const NO_RIGHT: u8 = 1;
pub const R15: u8 = 2;
pub const R16: u8 = 3;
pub const R30: u8 = 4;
pub const R31: u8 = 5;
/// Rights 16 and 31, without and with open.
pub const BOTH: u8 = 6;
pub const OPENED: u8 = 7;
/// All 31 rights, and all but right 31, but right 16.
pub const ALL: u8 = 8;
pub const BUT_31: u8 = 9;
pub const BUT_16: u8 = 10;
/// Arrays of records.
pub const R31S: u8 = 11;
pub const BOTHS: u8 = 12;
pub const R31S_FETCH: u8 = 13;
/// ?R and an array of it.
pub const GENERIC: u8 = 14;
pub const GENERICS: u8 = 15;

/// The slots of the type.
pub const SLOT_R31: u16 = 0;

/// One type with 31 rights and a slot. Its 16 QT end at 146, where main's PR
/// stands; its VRs stand from 154, its first IN at 154 + 4 v.
pub fn types() -> SheetBuilder {
    let all = named_rights(31);
    SheetBuilder::in_edition(Second)
        .record_type(31, &[R31])
        .integer()
        .record(WIDE, 0)
        .record(WIDE, bit(15))
        .record(WIDE, bit(16))
        .record(WIDE, bit(30))
        .record(WIDE, bit(31))
        .record(WIDE, bit(16) | bit(31))
        .record(WIDE, OPEN | bit(16) | bit(31))
        .record(WIDE, all)
        .record(WIDE, all & !bit(31))
        .record(WIDE, all & !bit(16))
        .array(R31, ARRAY_ALL)
        .array(BOTH, ARRAY_ALL)
        .array(R31, FETCH)
        .generic()
        .array(GENERIC, ARRAY_ALL)
}
