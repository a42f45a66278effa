//! Worksheets as text: an assembler and a disassembler. docs/TEXT.md has the
//! grammar.
//!
//! [`assemble`] makes the bytes of a text and a [`Listing`], which tells the
//! line and the columns of every record, or tells all errors of the text.
//! [`disassemble`] makes a text of any bytes, which assembles to the same
//! bytes again. Both take time in proportion to what they are given.

mod assemble;
mod disassemble;
mod edition;
mod errors;
pub mod field;
mod grammar;
pub mod layout;
mod lexer;
mod listing;
mod mnemonic;
mod names;
mod notation;
mod outline;
mod outlines;
mod procedure;
mod qualified;
mod quote;
mod raw;
mod raw_text;
mod record;
mod sheet;
mod span;
mod syntax;
mod types;

pub use assemble::{assemble, Assembled};
pub use disassemble::disassemble;
pub use edition::of_sheet as edition_of;
pub use errors::MAX_ERRORS;
pub use listing::{At, Entry, Listing};
pub use mnemonic::{Mnemonic, Piece, MNEMONICS};
pub use names::Names;
pub use notation::{down, Notation, ONLY_A_NAME};
pub use quote::quoted;
pub use record::{Record, RecordKind};
pub use sheet::{Instruction, Kind, Procedure, Qualified, RightsName, Sheet, Variable};
pub use span::{Error, Span};
pub use types::{Reading, Type, Unlike, Why};
