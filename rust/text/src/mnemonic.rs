//! The seventeen instructions: their mnemonics and how their operands are
//! written. The grammar reads by this table and the disassembler writes by
//! it, so that each undoes the other.

/// A piece of an instruction after its mnemonic.
#[derive(Clone, Copy, Debug, PartialEq, Eq)]
pub enum Piece {
    /// A variable, in the field a, b or c.
    A,
    B,
    C,
    /// The field k: a number, a label of the procedure, or a slot of the
    /// owner's type.
    Number,
    Label,
    Slot,
    Mark(&'static str),
    /// `[a <-] procedure(actuals)`, the whole of a call.
    Call,
    /// A variable in the field a, or nothing.
    MaybeA,
}

pub struct Mnemonic {
    pub code: u8,
    pub word: &'static str,
    pub pieces: &'static [Piece],
}

use Piece::{Call, Label, Mark, MaybeA, Number, Slot, A, B, C};

const fn entry(code: u8, word: &'static str, pieces: &'static [Piece]) -> Mnemonic {
    Mnemonic { code, word, pieces }
}

#[rustfmt::skip]
pub const MNEMONICS: [Mnemonic; 17] = [
    entry( 1, "set",       &[A, Mark(":="), Number]),
    entry( 2, "add",       &[A, Mark(":="), B, Mark("+"), C]),
    entry( 3, "subtract",  &[A, Mark(":="), B, Mark("-"), C]),
    entry( 4, "less",      &[A, Mark(":="), B, Mark("<"), C]),
    entry( 5, "jumpzero",  &[A, Mark(","), Label]),
    entry( 6, "bind",      &[A, Mark("<-"), B]),
    entry( 7, "take",      &[A]),
    entry( 8, "put",       &[A]),
    entry( 9, "newtray",   &[A, Mark("["), B, Mark("]")]),
    entry(10, "fetch",     &[A, Mark("<-"), B, Mark("["), C, Mark("]")]),
    entry(11, "store",     &[A, Mark("["), B, Mark("]"), Mark("<-"), C]),
    entry(12, "size",      &[A, Mark("<-"), B]),
    entry(13, "newrecord", &[A]),
    entry(14, "getslot",   &[A, Mark("<-"), B, Mark("."), Slot]),
    entry(15, "setslot",   &[A, Mark("."), Slot, Mark("<-"), B]),
    entry(16, "call",      &[Call]),
    entry(17, "return",    &[MaybeA]),
];

impl Mnemonic {
    pub fn by_word(word: &str) -> Option<&'static Mnemonic> {
        MNEMONICS.iter().find(|mnemonic| mnemonic.word == word)
    }

    pub fn by_code(code: u8) -> Option<&'static Mnemonic> {
        MNEMONICS.iter().find(|mnemonic| mnemonic.code == code)
    }
}
