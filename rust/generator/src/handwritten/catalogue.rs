//! The types that the hand-written sheets share.
//!
//! Type 2 is call, with the rights 1 read and 2 amend and three slots; type 3
//! is horse, with two rights too. HD and the two TY end at 30, the 22 QT end
//! at 162. So main's PR stands at 162, its VRs from 170, and its first IN at
//! 170 + 4 v.

use crate::operations::leave;
use crate::records::{InstructionRecord, ARRAY_ALL, FETCH, NONE, OPEN, SIZE, STORE};
use crate::sheet::{Procedure, Sheet, SheetBuilder};

pub const CALL: u8 = 2;
pub const HORSE: u8 = 3;
pub const READ: u32 = 1 << 1;
pub const AMEND: u32 = 1 << 2;

pub const INT: u8 = 0;
pub const CALL_NONE: u8 = 1;
pub const CALL_READ: u8 = 2;
pub const CALL_BOTH: u8 = 3;
pub const CALL_OPEN: u8 = 4;
pub const HORSE_READ: u8 = 5;
/// Arrays of call{read}: with all rights, and with some.
pub const READS: u8 = 6;
pub const READS_FETCH: u8 = 7;
/// Arrays of call{read,amend}.
pub const BOTHS: u8 = 8;
pub const BOTHS_FETCH: u8 = 9;
pub const READS_NONE: u8 = 10;
pub const INTS: u8 = 11;
/// The same fields as CALL_READ; READS_TWIN is an array of it.
pub const CALL_READ_TWIN: u8 = 12;
pub const READS_TWIN: u8 = 13;
/// Arrays of arrays.
pub const NESTED: u8 = 14;
pub const NESTED_TWIN: u8 = 15;
pub const NESTED_BOTHS: u8 = 16;
pub const HORSE_OPEN: u8 = 17;
pub const READS_STORE_SIZE: u8 = 18;
pub const READS_FETCH_STORE: u8 = 19;
pub const HORSES: u8 = 20;
pub const READS_FETCH_SIZE: u8 = 21;

/// The slots of call.
pub const SLOT_INT: u16 = 0;
pub const SLOT_CALL_READ: u16 = 1;
pub const SLOT_READS: u16 = 2;

pub fn types() -> SheetBuilder {
    SheetBuilder::new()
        .record_type(2, &[INT, CALL_READ, READS])
        .record_type(2, &[])
        .integer()
        .record(CALL, 0)
        .record(CALL, READ)
        .record(CALL, READ | AMEND)
        .record(CALL, OPEN | READ | AMEND)
        .record(HORSE, READ)
        .array(CALL_READ, ARRAY_ALL)
        .array(CALL_READ, FETCH)
        .array(CALL_BOTH, ARRAY_ALL)
        .array(CALL_BOTH, FETCH)
        .array(CALL_READ, 0)
        .array(INT, ARRAY_ALL)
        .record(CALL, READ)
        .array(CALL_READ_TWIN, ARRAY_ALL)
        .array(READS, ARRAY_ALL)
        .array(READS_TWIN, ARRAY_ALL)
        .array(BOTHS, ARRAY_ALL)
        .record(HORSE, OPEN | READ)
        .array(CALL_READ, STORE | SIZE)
        .array(CALL_READ, FETCH | STORE)
        .array(HORSE_READ, ARRAY_ALL)
        .array(CALL_READ, FETCH | SIZE)
}

/// Main alone: the variables, one instruction, a return.
/// The instruction stands at 170 + 4 v.
pub fn in_main(variables: &[u8], instruction: InstructionRecord) -> Vec<u8> {
    let main = Procedure::main()
        .variables(variables)
        .body(&[instruction, leave()]);
    types().procedure(main).build().encode()
}

/// Main with a return alone, at 162 and 170, and procedure 1 at 178. Its VRs
/// stand from 186, its first IN at 186 + 4 v.
pub fn beside_main(procedure: Procedure) -> Sheet {
    types()
        .procedure(Procedure::main().body(&[leave()]))
        .procedure(procedure)
        .build()
}

/// Procedure 1 of the module of call: the variables, one instruction, a
/// return. The instruction stands at 186 + 4 v.
pub fn in_module(variables: &[u8], instruction: InstructionRecord) -> Vec<u8> {
    let procedure = Procedure::new(CALL, NONE)
        .variables(variables)
        .body(&[instruction, leave()]);
    beside_main(procedure).encode()
}

/// Main with the variables and one instruction at 170 + 4 v, and after it
/// procedure 1.
pub fn calling(variables: &[u8], instruction: InstructionRecord, callee: Procedure) -> Vec<u8> {
    let main = Procedure::main()
        .variables(variables)
        .body(&[instruction, leave()]);
    types().procedure(main).procedure(callee).build().encode()
}
