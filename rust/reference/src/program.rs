//! A well-formed sheet as plain data.
//!
//! Types, qualified types, procedures and variables are named by their index
//! in the vectors below. Type 2 of document 01, the first declared one, has
//! index 0 in [`Program::types`].

use crate::generic::Bound;

/// Everything that the records of a sheet say.
#[derive(Clone, Debug, PartialEq)]
pub struct Program {
    pub types: Vec<RecordType>,
    pub qualified: Vec<QualifiedType>,
    pub procedures: Vec<Procedure>,
}

/// A TY record.
#[derive(Clone, Debug, PartialEq)]
pub struct RecordType {
    pub place: usize,
    /// Rights 1 to this number are the type's own; right 0 is open.
    pub named_rights: usize,
    /// The qualified type of each slot.
    pub slots: Vec<usize>,
}

/// A QT record.
#[derive(Clone, Debug, PartialEq)]
pub struct QualifiedType {
    pub place: usize,
    pub kind: Kind,
    pub rights: Rights,
}

/// The base of a qualified type, with the element where the base is an array.
#[derive(Clone, Copy, Debug, PartialEq, Eq)]
pub enum Kind {
    Integer,
    /// "Tray" in document 01; the element is an earlier qualified type.
    Array {
        element: usize,
    },
    /// A declared type, by its index in [`Program::types`].
    Record {
        of: usize,
    },
    /// "?R" in document 02: what the bound of a procedure stands for.
    Generic,
}

/// A set of rights: entry i says whether right i is in it.
#[derive(Clone, Copy, Debug, PartialEq, Eq, Hash)]
pub struct Rights([bool; 32]);

impl Rights {
    pub const OPEN: usize = 0;
    pub const FETCH: usize = 1;
    pub const STORE: usize = 2;
    pub const SIZE: usize = 3;

    pub const NONE: Rights = Rights([false; 32]);

    /// The set that a QT record writes as a number, bit i for right i.
    pub fn from_bits(bits: u32) -> Self {
        Rights(std::array::from_fn(|right| bits >> right & 1 == 1))
    }

    /// The rights from the first to the last, both included.
    pub fn range(first: usize, last: usize) -> Self {
        Rights(std::array::from_fn(|right| first <= right && right <= last))
    }

    pub fn contains(&self, right: usize) -> bool {
        self.0[right]
    }

    /// The set without one right.
    pub fn without(mut self, right: usize) -> Self {
        self.0[right] = false;
        self
    }

    /// Whether every right of the other set is in this one.
    pub fn includes(&self, other: &Rights) -> bool {
        other.members().all(|right| self.contains(right))
    }

    pub fn members(&self) -> impl Iterator<Item = usize> + '_ {
        (0..self.0.len()).filter(|&right| self.contains(right))
    }
}

/// A PR record with its variables and instructions.
#[derive(Clone, Debug, PartialEq)]
pub struct Procedure {
    pub place: usize,
    /// The declared type whose module the procedure belongs to.
    pub owner: Option<usize>,
    /// How many of the variables, from the first, are formals.
    pub formals: usize,
    pub result: Option<usize>,
    /// What the procedure declares of its rights name, if it has one.
    pub bound: Option<Bound>,
    pub variables: Vec<Variable>,
    pub instructions: Vec<Instruction>,
}

/// A VR record.
#[derive(Clone, Debug, PartialEq)]
pub struct Variable {
    pub place: usize,
    /// The qualified type inside the procedure.
    pub inner: usize,
    /// The qualified type that an actual must meet; formals have one.
    pub need: Option<usize>,
}

/// An IN record.
#[derive(Clone, Debug, PartialEq)]
pub struct Instruction {
    pub place: usize,
    pub operation: Operation,
}

/// The seventeen operations; operands are variables unless named otherwise.
#[derive(Clone, Copy, Debug, PartialEq, Eq)]
pub enum Operation {
    Set {
        to: usize,
        value: u32,
    },
    Add {
        to: usize,
        left: usize,
        right: usize,
    },
    Subtract {
        to: usize,
        left: usize,
        right: usize,
    },
    Less {
        to: usize,
        left: usize,
        right: usize,
    },
    /// The target is an instruction of the same procedure.
    JumpIfZero {
        test: usize,
        target: usize,
    },
    Bind {
        to: usize,
        from: usize,
    },
    Take {
        to: usize,
    },
    Put {
        from: usize,
    },
    NewArray {
        to: usize,
        size: usize,
    },
    Fetch {
        to: usize,
        array: usize,
        index: usize,
    },
    Store {
        array: usize,
        index: usize,
        from: usize,
    },
    Size {
        to: usize,
        array: usize,
    },
    NewRecord {
        to: usize,
    },
    GetSlot {
        to: usize,
        record: usize,
        slot: usize,
    },
    SetSlot {
        record: usize,
        slot: usize,
        from: usize,
    },
    /// The actuals are as many variables as the callee has formals, from
    /// `first_actual` on.
    Call {
        result: Option<usize>,
        procedure: usize,
        first_actual: Option<usize>,
    },
    Return {
        value: Option<usize>,
    },
}

impl Operation {
    /// The code of the operation in an IN record.
    pub fn code(&self) -> u8 {
        match self {
            Operation::Set { .. } => 1,
            Operation::Add { .. } => 2,
            Operation::Subtract { .. } => 3,
            Operation::Less { .. } => 4,
            Operation::JumpIfZero { .. } => 5,
            Operation::Bind { .. } => 6,
            Operation::Take { .. } => 7,
            Operation::Put { .. } => 8,
            Operation::NewArray { .. } => 9,
            Operation::Fetch { .. } => 10,
            Operation::Store { .. } => 11,
            Operation::Size { .. } => 12,
            Operation::NewRecord { .. } => 13,
            Operation::GetSlot { .. } => 14,
            Operation::SetSlot { .. } => 15,
            Operation::Call { .. } => 16,
            Operation::Return { .. } => 17,
        }
    }
}
