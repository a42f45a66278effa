//! The operands that an instruction reads and does not move.

use reference::Operation;
use text::field::Field;

/// The kind that a variable must hold to be read.
#[derive(Clone, Copy, Debug, PartialEq, Eq)]
pub enum Due {
    Integer,
    Array,
    /// A record of the owner's type.
    Owned,
}

pub struct Read {
    /// The part of the instruction that names the variable.
    pub part: Field,
    pub variable: usize,
    pub due: Due,
}

/// In the order in which they are tested.
pub fn reads(operation: Operation) -> Vec<Read> {
    use Due::{Array, Integer, Owned};
    use Field::{A, B, C};
    let read = |part, variable, due| Read {
        part,
        variable,
        due,
    };
    match operation {
        Operation::Add { left, right, .. }
        | Operation::Subtract { left, right, .. }
        | Operation::Less { left, right, .. } => {
            vec![read(B, left, Integer), read(C, right, Integer)]
        }
        Operation::JumpIfZero { test: a, .. } | Operation::Put { from: a } => {
            vec![read(A, a, Integer)]
        }
        Operation::NewArray { size, .. } => vec![read(B, size, Integer)],
        Operation::Fetch { array, index, .. } => {
            vec![read(B, array, Array), read(C, index, Integer)]
        }
        Operation::Store { array, index, .. } => {
            vec![read(A, array, Array), read(B, index, Integer)]
        }
        Operation::Size { array, .. } => vec![read(B, array, Array)],
        Operation::GetSlot { record, .. } => vec![read(B, record, Owned)],
        Operation::SetSlot { record, .. } => vec![read(A, record, Owned)],
        Operation::Set { .. }
        | Operation::Bind { .. }
        | Operation::Take { .. }
        | Operation::NewRecord { .. }
        | Operation::Call { .. }
        | Operation::Return { .. } => Vec::new(),
    }
}
