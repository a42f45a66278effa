//! The fields of the seven records, by name, and their widths.

use reference::Edition;

/// A field of a record, or of a call one of its actuals.
#[derive(Clone, Copy, Debug, PartialEq, Eq)]
pub enum Field {
    Edition,
    Types,
    Qualified,
    Procedures,
    NamedRights,
    SlotCount,
    Slot(usize),
    Base,
    Rights,
    Element,
    /// The rights that a rights name has at least.
    Least,
    Owner,
    Formals,
    Variables,
    Result,
    Instructions,
    Inner,
    Need,
    Code,
    A,
    B,
    C,
    K,
    Actual(usize),
}

impl Field {
    /// The bytes that it takes in a sheet of the edition.
    pub fn width(self, edition: Edition) -> usize {
        match self {
            Field::Rights | Field::Least => edition.rights_bytes(),
            Field::Instructions | Field::K => 2,
            _ => 1,
        }
    }

    /// The greatest value that it holds.
    pub fn greatest(self, edition: Edition) -> u32 {
        u32::MAX >> (u32::BITS as usize - 8 * self.width(edition))
    }
}
