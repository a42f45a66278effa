//! Accepted sheets of the largest sizes, for the benchmark.

use crate::operations::{add, bind, call, give_back, jump_if_zero, leave, less, put, set, take};
use crate::records::{InstructionRecord, ARRAY_ALL, FETCH, NONE};
use crate::sheet::{Procedure, Sheet, SheetBuilder};

const MAX_INSTRUCTIONS: usize = 1000;

/// A sheet of so many bytes, or a few less.
type Make = fn(usize) -> Sheet;

/// All of them, with their names.
pub const SHEETS: [(&str, Make); 4] = [
    ("mostly instructions", mostly_instructions),
    ("one array 62 deep", one_deep_array),
    ("two arrays 31 deep", two_deep_arrays),
    ("64 procedures", many_procedures),
];

/// As near below the byte count as instructions of integers can fill it.
pub fn mostly_instructions(bytes: usize) -> Sheet {
    let pattern = |step: usize| match step % 7 {
        0 => set(0, step as u16),
        1 => take(1),
        2 => add(0, 0, 1),
        3 => less(1, 0, 1),
        4 => jump_if_zero(1, 0),
        5 => put(0),
        _ => bind(1, 0),
    };
    let start = SheetBuilder::new().integer();
    filled(start, bytes, &[0, 0], pattern)
}

/// Two chains of arrays, each 31 deep, equal all the way down without sharing
/// a record, and binds between the ends of the two.
pub fn two_deep_arrays(bytes: usize) -> Sheet {
    let start = SheetBuilder::new().integer().integer();
    bound_chains(start, ARRAY_ALL, bytes)
}

/// The same but for the innermost elements, which are unequal, so that the
/// first bind is refused.
pub fn unequal_inside(bytes: usize) -> Sheet {
    let start = SheetBuilder::new().record_type(0, &[]);
    bound_chains(start.integer().record(2, 0), ARRAY_ALL, bytes)
}

/// The same but for the outermost elements, which lack rights.
pub fn unequal_outside(bytes: usize) -> Sheet {
    let start = SheetBuilder::new().integer().integer();
    bound_chains(start, FETCH, bytes)
}

/// Two chains of arrays, each 31 deep, the second without store in any level,
/// so that each level of the first is compared by its own rights.
pub fn widened_arrays(bytes: usize) -> Sheet {
    let mut start = SheetBuilder::new().integer().integer();
    for number in 2..64 {
        let rights = if number % 2 == 0 { ARRAY_ALL } else { FETCH };
        start = start.array(number - 2, rights);
    }
    filled(start, bytes, &[62, 63], |_| bind(1, 0))
}

/// Two chains of arrays, each 31 deep, over the two innermost elements that
/// the start has, and binds from the end of the first to that of the second.
/// The outermost element of the first has these rights.
fn bound_chains(mut start: SheetBuilder, outside: u32, bytes: usize) -> Sheet {
    for number in 2..60 {
        start = start.array(number - 2, ARRAY_ALL);
    }
    start = start.array(58, outside).array(59, ARRAY_ALL);
    start = start.array(60, ARRAY_ALL).array(61, FETCH);
    filled(start, bytes, &[62, 63], |_| bind(1, 0))
}

/// One chain of 63 qualified types nested in each other, and binds between two
/// arrays of its end, so that it is compared with itself.
pub fn one_deep_array(bytes: usize) -> Sheet {
    let mut start = SheetBuilder::new().integer();
    for number in 1..63 {
        start = start.array(number - 1, ARRAY_ALL);
    }
    start = start.array(61, FETCH);
    filled(start, bytes, &[62, 63], |_| bind(1, 0))
}

/// Adds procedures of at most 1,000 instructions until no further
/// instruction fits.
fn filled(
    mut start: SheetBuilder,
    bytes: usize,
    variables: &[u8],
    pattern: impl Fn(usize) -> InstructionRecord,
) -> Sheet {
    let mut used = start.byte_count();
    let head = 8 + 4 * variables.len();
    loop {
        let room = bytes.saturating_sub(used + head) / 8;
        if room == 0 {
            return start.build();
        }
        let length = room.min(MAX_INSTRUCTIONS);
        let mut body: Vec<InstructionRecord> = (1..length).map(&pattern).collect();
        body.push(leave());
        start = start.procedure(Procedure::main().variables(variables).body(&body));
        used += head + 8 * length;
    }
}

/// Sixty-four procedures that call each other with eight actuals.
pub fn many_procedures(bytes: usize) -> Sheet {
    let mut sheet = SheetBuilder::new()
        .record_type(15, &[])
        .integer()
        .record(2, 0xfffe)
        .array(1, ARRAY_ALL)
        .build();
    let formals = [0, 1, 2, 0, 1, 2, 0, 1];
    let length = (bytes - sheet.byte_count()) / 64;
    for number in 0..64 {
        let mut procedure = if number == 0 {
            Procedure::main().variables(&formals)
        } else {
            let callable = Procedure::new(0, 0);
            formals
                .iter()
                .fold(callable, |all, &inner| all.formal(inner, inner))
        };
        for step in 1..(length - 8 - 4 * formals.len()) / 8 {
            let callee = (number + step) % 63 + 1;
            let kept = if step % 2 == 0 { 0 } else { NONE };
            procedure = procedure.body(&[call(kept, 0, callee as u16)]);
        }
        let last = if number == 0 { leave() } else { give_back(0) };
        sheet.procedures.push(procedure.body(&[last]));
    }
    sheet.seal();
    sheet
}
