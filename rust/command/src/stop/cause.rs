//! What an instruction stopped at, and of that 13, 14 and 17, which both
//! machines know.

use super::reads::{reads, Read};
use crate::trace::machine::{operation, Machine};
use crate::trace::value::Teller;
use reference::{Operation, Place, Procedure, Program, Stop};
use text::field::Field;
use text::{Names, Sheet, Type};

/// The parts of the instruction that are at fault, and why in words.
#[derive(Default)]
pub struct Reason {
    pub parts: Vec<Field>,
    pub lines: Vec<String>,
}

impl Reason {
    /// A reason that is about all of the instruction.
    pub fn line(line: String) -> Self {
        Reason {
            parts: Vec::new(),
            lines: vec![line],
        }
    }
}

/// The machine before the step that it does not make.
pub struct Cause<'a> {
    pub program: &'a Program,
    pub sheet: &'a Sheet,
    pub machine: &'a Machine<'a>,
    pub teller: Teller<'a>,
    pub place: Place,
    pub operation: Operation,
    pub memory_words: usize,
}

impl<'a> Cause<'a> {
    /// None where no instruction is due.
    pub fn new(teller: Teller<'a>, machine: &'a Machine, memory_words: usize) -> Option<Self> {
        let place = machine.due()?;
        let program = teller.program;
        Some(Cause {
            program,
            sheet: teller.sheet,
            machine,
            teller,
            place,
            operation: operation(program, place),
            memory_words,
        })
    }

    /// Why it stops so. The tests before the one that fails hold, so that it
    /// is the first of its number. None where none fails.
    pub fn reason(&self, stop: Stop) -> Option<Reason> {
        match stop {
            Stop::Blank => self.blank(),
            Stop::PastEnd => self.past_end(),
            Stop::MemoryFull => self.memory_full(),
            Stop::WrongKind => self
                .form()
                .or_else(|| self.unsettled())
                .or_else(|| self.wrong_kind_read())
                .or_else(|| self.no_tray())
                .or_else(|| self.wrong_kind_moved()),
            Stop::MissingRight => self
                .short()
                .or_else(|| self.missing_right_used())
                .or_else(|| self.missing_right_moved()),
            Stop::Done | Stop::FuelSpent | Stop::InputEnded | Stop::OutputFull => None,
        }
    }

    pub fn names(&self) -> &Names {
        self.teller.names
    }

    pub fn procedure(&self) -> &Procedure {
        &self.program.procedures[self.place.procedure]
    }

    /// The type that the procedure is of, where it is of one.
    pub fn owner(&self) -> usize {
        self.procedure().owner.unwrap_or(0)
    }

    pub fn name(&self, variable: usize) -> String {
        self.names().variable(self.place.procedure, variable)
    }

    /// What a variable is declared, as the frame reads it.
    pub fn inner(&self, variable: usize) -> Type {
        let inner = self.procedure().variables[variable].inner;
        self.sheet.read_type(inner, &self.machine.reading(0))
    }

    fn blank(&self) -> Option<Reason> {
        let mut read = reads(self.operation).into_iter();
        let read = read.find(|read| self.machine.variable(read.variable).is_none());
        let (parts, what) = match read {
            Some(Read { part, variable, .. }) => (vec![part], format!("`{}`", self.name(variable))),
            None => {
                let mut moved = self.movements().into_iter().map(|movement| movement.value);
                moved.find_map(|moved| Some((moved.parts, moved.blank?)))?
            }
        };
        let lines = vec![format!("{what} has no value yet")];
        Some(Reason { parts, lines })
    }

    fn past_end(&self) -> Option<Reason> {
        let (part, array, index) = match self.operation {
            Operation::Fetch { array, index, .. } => (Field::C, array, index),
            Operation::Store { array, index, .. } => (Field::B, array, index),
            _ => return None,
        };
        let (array_name, index_name) = (self.name(array), self.name(index));
        let object = self.machine.object(array)?;
        let index = self.machine.integer(index)?;
        let size = self.machine.size(object);
        let last = match size.checked_sub(1) {
            Some(last) => format!("its last cell is {last}"),
            None => String::from("it has no cells"),
        };
        let line = format!(
            "`{index_name}` is {index}, and `{array_name}` (object {object}) has size {size}: {last}"
        );
        Some(Reason {
            parts: vec![part],
            lines: vec![line],
        })
    }

    fn memory_full(&self) -> Option<Reason> {
        let (parts, what, needed, units) = match self.operation {
            Operation::NewArray { size, .. } => {
                let size = self.machine.integer(size)? as usize;
                let what = format!("a tray of size {size}");
                (vec![Field::B], what, size + 1, "size + 1")
            }
            Operation::NewRecord { .. } => {
                let owner = self.owner();
                let what = format!("a record of `{}`", self.names().declared(owner));
                let slots = self.program.types[owner].slots.len();
                (Vec::new(), what, slots + 1, "slots + 1")
            }
            Operation::Call { procedure, .. } => {
                let what = format!("a frame of `{}`", self.names().procedure(procedure));
                let variables = self.program.procedures[procedure].variables.len();
                (vec![Field::K], what, variables + 2, "variables + 2")
            }
            _ => return None,
        };
        let (used, lent) = (self.machine.units(), self.memory_words);
        let line = format!(
            "{what} needs {needed} words ({units}), and {used} of the {lent} lent are in use"
        );
        Some(Reason {
            parts,
            lines: vec![line],
        })
    }
}
