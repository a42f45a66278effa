//! The fields of an IN record made into an operation.

use crate::layout::NONE;
use crate::program::Operation;

/// The fields of an IN record as they stand.
pub struct Fields {
    pub code: u8,
    pub a: u8,
    pub b: u8,
    pub c: u8,
    pub k: u16,
}

/// What an instruction may name in its procedure.
pub struct Scope {
    pub variables: usize,
    pub instructions: usize,
    /// The number of slots of the owner's type, if there is an owner.
    pub owner_slots: Option<usize>,
}

impl Scope {
    fn variable(&self, byte: u8) -> Option<usize> {
        Some(usize::from(byte)).filter(|&number| number < self.variables)
    }

    /// A variable, or nothing where the byte says so; the outer None is a
    /// byte that is neither.
    fn variable_or_none(&self, byte: u8) -> Option<Option<usize>> {
        if byte == NONE {
            Some(None)
        } else {
            self.variable(byte).map(Some)
        }
    }

    /// A is a variable, B and C are unused.
    fn one(&self, fields: &Fields) -> Option<usize> {
        let unused = fields.b == NONE && fields.c == NONE;
        self.variable(fields.a).filter(|_| unused)
    }

    /// A and B are variables, C is unused.
    fn two(&self, fields: &Fields) -> Option<(usize, usize)> {
        let pair = (self.variable(fields.a)?, self.variable(fields.b)?);
        Some(pair).filter(|_| fields.c == NONE)
    }

    /// A, B and C are variables.
    fn three(&self, fields: &Fields) -> Option<(usize, usize, usize)> {
        let (a, b) = (self.variable(fields.a)?, self.variable(fields.b)?);
        Some((a, b, self.variable(fields.c)?))
    }

    fn slot(&self, k: u16) -> Option<usize> {
        let slots = self.owner_slots?;
        Some(usize::from(k)).filter(|&slot| slot < slots)
    }
}

/// The operation, or None where a field is out of range.
pub fn decode(fields: &Fields, scope: &Scope) -> Option<Operation> {
    match fields.code {
        1 | 5 | 14 | 15 | 16 => with_constant(fields, scope),
        _ if fields.k == 0 => without_constant(fields, scope),
        _ => None,
    }
}

/// The operations that use the field k.
fn with_constant(fields: &Fields, scope: &Scope) -> Option<Operation> {
    let operation = match fields.code {
        1 => Operation::Set {
            to: scope.one(fields)?,
            value: u32::from(fields.k),
        },
        5 => Operation::JumpIfZero {
            test: scope.one(fields)?,
            target: Some(usize::from(fields.k)).filter(|&target| target < scope.instructions)?,
        },
        14 => {
            let (to, record) = scope.two(fields)?;
            let slot = scope.slot(fields.k)?;
            Operation::GetSlot { to, record, slot }
        }
        15 => {
            let (record, from) = scope.two(fields)?;
            let slot = scope.slot(fields.k)?;
            Operation::SetSlot { record, slot, from }
        }
        // The procedure and the actuals wait for the pass for calls.
        16 if fields.c == NONE => Operation::Call {
            result: scope.variable_or_none(fields.a)?,
            procedure: usize::from(fields.k),
            first_actual: (fields.b != NONE).then_some(usize::from(fields.b)),
        },
        _ => return None,
    };
    Some(operation)
}

/// The operations whose field k is unused.
fn without_constant(fields: &Fields, scope: &Scope) -> Option<Operation> {
    match fields.code {
        2 | 3 | 4 | 10 | 11 => {
            let operands = scope.three(fields)?;
            with_three(fields.code, operands)
        }
        6 | 9 | 12 => {
            let operands = scope.two(fields)?;
            with_two(fields.code, operands)
        }
        7 => scope.one(fields).map(|to| Operation::Take { to }),
        8 => scope.one(fields).map(|from| Operation::Put { from }),
        13 => {
            scope.owner_slots?;
            scope.one(fields).map(|to| Operation::NewRecord { to })
        }
        17 if fields.b == NONE && fields.c == NONE => {
            let value = scope.variable_or_none(fields.a)?;
            Some(Operation::Return { value })
        }
        _ => None,
    }
}

fn with_three(code: u8, (a, b, c): (usize, usize, usize)) -> Option<Operation> {
    let (to, left, right) = (a, b, c);
    match code {
        2 => Some(Operation::Add { to, left, right }),
        3 => Some(Operation::Subtract { to, left, right }),
        4 => Some(Operation::Less { to, left, right }),
        10 => Some(Operation::Fetch {
            to,
            array: b,
            index: c,
        }),
        11 => Some(Operation::Store {
            array: a,
            index: b,
            from: c,
        }),
        _ => None,
    }
}

fn with_two(code: u8, (a, b): (usize, usize)) -> Option<Operation> {
    match code {
        6 => Some(Operation::Bind { to: a, from: b }),
        9 => Some(Operation::NewArray { to: a, size: b }),
        12 => Some(Operation::Size { to: a, array: b }),
        _ => None,
    }
}
