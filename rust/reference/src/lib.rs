//! The second engine: worksheets checked and run with plain data structures.
//!
//! It is written from documents 01 and 02 alone, so that what it says can be
//! held against what the proved engine says. [`parse`] reads the bytes into a
//! [`Program`] (refusals 1 to 5); [`access::check`] applies the access rules
//! to it (6 to 9, 20, 21); [`check`] does one after the other. [`run`] runs
//! an accepted sheet on the plain machine, [`watch`] a well-formed one on the
//! watched machine; [`machine`] has both, to be driven step by step.
//! [`provenance`] tells where a right came from in a run on the watched one.

pub mod access;
mod calls;
mod decode;
mod edition;
pub mod fault;
pub mod generic;
pub mod layout;
pub mod machine;
mod order;
mod program;
pub mod provenance;
mod refusal;
mod settling;

pub use edition::Edition;
pub use machine::{run, watch, Outcome, Place, Stop};
pub use program::{
    Instruction, Kind, Operation, Procedure, Program, QualifiedType, RecordType, Rights, Variable,
};
pub use refusal::{Reason, Refusal, Verdict};
pub use settling::Settled;

/// The longest sheet that is read at all.
pub const MAX_SHEET: usize = 32_768;

/// Reads a well-formed sheet: the layout pass, then leftover bytes, then the
/// pass for calls.
pub fn parse(sheet: &[u8]) -> Result<Program, Refusal> {
    if sheet.len() > MAX_SHEET {
        return Err(Refusal::new(Reason::TooLong, 0));
    }
    let program = layout::read(sheet)?;
    calls::check(&program)?;
    Ok(program)
}

/// Accepts a sheet, or refuses it with the number and the place of document 01.
pub fn check(sheet: &[u8]) -> Verdict {
    let outcome = parse(sheet).and_then(|program| access::check(&program));
    Verdict::from(outcome)
}
