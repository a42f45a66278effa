//! The seventeen operations as records, written with their operands in the
//! order of document 01.

use crate::records::{InstructionRecord, NONE};

fn record(code: u8, a: u8, b: u8, c: u8, k: u16) -> InstructionRecord {
    InstructionRecord { code, a, b, c, k }
}

pub fn set(a: u8, k: u16) -> InstructionRecord {
    record(1, a, NONE, NONE, k)
}

pub fn add(a: u8, b: u8, c: u8) -> InstructionRecord {
    record(2, a, b, c, 0)
}

pub fn subtract(a: u8, b: u8, c: u8) -> InstructionRecord {
    record(3, a, b, c, 0)
}

pub fn less(a: u8, b: u8, c: u8) -> InstructionRecord {
    record(4, a, b, c, 0)
}

pub fn jump_if_zero(a: u8, k: u16) -> InstructionRecord {
    record(5, a, NONE, NONE, k)
}

pub fn bind(a: u8, b: u8) -> InstructionRecord {
    record(6, a, b, NONE, 0)
}

pub fn take(a: u8) -> InstructionRecord {
    record(7, a, NONE, NONE, 0)
}

pub fn put(a: u8) -> InstructionRecord {
    record(8, a, NONE, NONE, 0)
}

pub fn new_array(a: u8, b: u8) -> InstructionRecord {
    record(9, a, b, NONE, 0)
}

pub fn fetch(a: u8, b: u8, c: u8) -> InstructionRecord {
    record(10, a, b, c, 0)
}

pub fn store(a: u8, b: u8, c: u8) -> InstructionRecord {
    record(11, a, b, c, 0)
}

pub fn size(a: u8, b: u8) -> InstructionRecord {
    record(12, a, b, NONE, 0)
}

pub fn new_record(a: u8) -> InstructionRecord {
    record(13, a, NONE, NONE, 0)
}

/// a ← slot k of b.
pub fn get_slot(a: u8, b: u8, k: u16) -> InstructionRecord {
    record(14, a, b, NONE, k)
}

/// Slot k of a ← b.
pub fn set_slot(a: u8, b: u8, k: u16) -> InstructionRecord {
    record(15, a, b, NONE, k)
}

/// a ← procedure k, the actuals from variable b on.
pub fn call(a: u8, b: u8, k: u16) -> InstructionRecord {
    record(16, a, b, NONE, k)
}

/// Return a variable, or NONE.
pub fn give_back(a: u8) -> InstructionRecord {
    record(17, a, NONE, NONE, 0)
}

/// A return without a value.
pub fn leave() -> InstructionRecord {
    give_back(NONE)
}
