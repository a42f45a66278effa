//! The tests of an instruction, in the order of document 01: "18 for a
//! return, or a call keeping a result, against the PR's result; 13 for a
//! blank variable that is read and not moved; kinds of the values read;
//! right; 14; then 15, 16 or 17; then moved values in order". What a call
//! settles is tested "with kinds" (document 02).
//!
//! Every test is asked, also after one that fails, as far as there is
//! something to ask: a blank variable has no kind, and where an index is past
//! the end there is no cell to move.

use super::state::{Cell, Value};
use super::Machine;
use crate::generic::{Form, Read};
use crate::machine::outcome::Stop;
use crate::program::{Operation, Rights};

/// The parts of a step's order.
#[derive(Clone, Copy, Debug, PartialEq, Eq, PartialOrd, Ord)]
pub enum Phase {
    /// The form of a return, or of a call that keeps a result.
    Form,
    /// Variables that are read and not moved.
    Blank,
    Kind,
    /// What a call settles: 18 and 19 for what check refuses with 20 and 21.
    Settling,
    Right,
    Index,
    /// Input, output and memory.
    Resource,
    /// Moved values, in order.
    Movement,
}

/// A test that fails.
#[derive(Clone, Copy, Debug, PartialEq, Eq, PartialOrd, Ord)]
pub struct Failure {
    pub phase: Phase,
    pub stop: Stop,
}

/// The kind that a variable must hold to be read.
#[derive(Clone, Copy)]
enum Due {
    Integer,
    Array,
    /// A record of the owner's type.
    Owned,
}

/// Collects the failures of one phase after the other.
pub(super) struct Report {
    failures: Vec<Failure>,
}

impl Report {
    pub fn require(&mut self, holds: bool, phase: Phase, stop: Stop) {
        if !holds {
            self.failures.push(Failure { phase, stop });
        }
    }
}

impl Machine<'_> {
    /// The tests of the instruction that fail, in their order.
    pub fn failures(&self, operation: Operation) -> Vec<Failure> {
        let mut report = Report {
            failures: Vec::new(),
        };
        self.test_form(operation, &mut report);
        let reads = reads(operation);
        for &(number, _) in &reads {
            let filled = self.variable(number).is_some();
            report.require(filled, Phase::Blank, Stop::Blank);
        }
        for &(number, due) in &reads {
            self.test_kind(number, due, &mut report);
        }
        self.test_new_array(operation, &mut report);
        self.test_settling(operation, &mut report);
        self.test_right(operation, &mut report);
        self.test_index(operation, &mut report);
        self.test_resource(operation, &mut report);
        self.test_movement(operation, &mut report);
        report.failures
    }

    /// A return gives a value exactly if the procedure has a result; a call
    /// keeps one only if the procedure called has one.
    fn test_form(&self, operation: Operation, report: &mut Report) {
        let holds = match operation {
            Operation::Return { value } => value.is_some() == self.procedure().result.is_some(),
            Operation::Call {
                result: Some(_),
                procedure,
                ..
            } => self.program.procedures[procedure].result.is_some(),
            _ => true,
        };
        report.require(holds, Phase::Form, Stop::WrongKind);
    }

    fn test_kind(&self, number: usize, due: Due, report: &mut Report) {
        let Some(held) = self.variable(number) else {
            return;
        };
        let holds = match (due, self.state.form(held.value)) {
            (Due::Integer, Form::Integer) | (Due::Array, Form::Array { .. }) => true,
            (Due::Owned, Form::Record { of }) => self.procedure().owner == Some(of),
            _ => false,
        };
        report.require(holds, Phase::Kind, Stop::WrongKind);
    }

    /// The variable of a new array must be declared an array.
    fn test_new_array(&self, operation: Operation, report: &mut Report) {
        if let Operation::NewArray { to, .. } = operation {
            let declared = self.declared_type(to).form;
            let is_array = matches!(declared, Form::Array { .. });
            report.require(is_array, Phase::Kind, Stop::WrongKind);
        }
    }

    /// The rights name of a procedure called is settled, and not short.
    fn test_settling(&self, operation: Operation, report: &mut Report) {
        if let Operation::Call {
            procedure,
            first_actual,
            ..
        } = operation
        {
            let settled = self.settled(procedure, first_actual);
            report.require(!settled.is_unsettled(), Phase::Settling, Stop::WrongKind);
            report.require(!settled.is_short(), Phase::Settling, Stop::MissingRight);
        }
    }

    fn test_right(&self, operation: Operation, report: &mut Report) {
        let (number, right) = match operation {
            Operation::Fetch { array, .. } => (array, Rights::FETCH),
            Operation::Store { array, .. } => (array, Rights::STORE),
            Operation::Size { array, .. } => (array, Rights::SIZE),
            Operation::GetSlot { record, .. } | Operation::SetSlot { record, .. } => {
                (record, Rights::OPEN)
            }
            _ => return,
        };
        if let Some(held) = self.variable(number) {
            let carried = held.rights.contains(right);
            report.require(carried, Phase::Right, Stop::MissingRight);
        }
    }

    fn test_index(&self, operation: Operation, report: &mut Report) {
        let (array, index) = match operation {
            Operation::Fetch { array, index, .. } | Operation::Store { array, index, .. } => {
                (array, index)
            }
            _ => return,
        };
        if let (Some((_, cells)), Some(index)) = (self.array(array), self.integer(index)) {
            let inside = (index as usize) < cells.len();
            report.require(inside, Phase::Index, Stop::PastEnd);
        }
    }

    fn test_resource(&self, operation: Operation, report: &mut Report) {
        let more = match operation {
            Operation::Take { .. } => {
                let left = self.state.taken < self.resources.input.len();
                return report.require(left, Phase::Resource, Stop::InputEnded);
            }
            Operation::Put { .. } => {
                let free = self.state.output.len() < self.resources.output_words;
                return report.require(free, Phase::Resource, Stop::OutputFull);
            }
            Operation::NewArray { size, .. } => match self.integer(size) {
                Some(size) => size as usize + 1,
                None => return,
            },
            Operation::NewRecord { .. } => self.owner_slots().len() + 1,
            Operation::Call { procedure, .. } => {
                self.program.procedures[procedure].variables.len() + 2
            }
            _ => return,
        };
        let fits = self.state.units() + more <= self.resources.memory_words;
        report.require(fits, Phase::Resource, Stop::MemoryFull);
    }

    pub(crate) fn integer(&self, number: usize) -> Option<u32> {
        match self.variable(number)?.value {
            Value::Integer(value) => Some(value),
            Value::Object(_) => None,
        }
    }

    /// The element and the cells of the array that a variable holds.
    pub(super) fn array(&self, number: usize) -> Option<(Read, &[Cell])> {
        let Value::Object(object) = self.variable(number)?.value else {
            return None;
        };
        let object = &self.state.objects[object];
        match object.form() {
            Form::Array { element } => Some((element, &object.cells)),
            _ => None,
        }
    }

    pub(super) fn array_cell(&self, array: usize, index: usize) -> Option<Cell> {
        let index = self.integer(index)? as usize;
        self.array(array)?.1.get(index).copied()
    }

    /// A slot of the record of the owner's type that a variable holds.
    pub(super) fn owned_slot(&self, number: usize, slot: usize) -> Option<Cell> {
        let Value::Object(object) = self.variable(number)?.value else {
            return None;
        };
        let object = &self.state.objects[object];
        match object.form() {
            Form::Record { of } if Some(of) == self.procedure().owner => {
                object.cells.get(slot).copied()
            }
            _ => None,
        }
    }

    /// The types of the slots of the owner's type.
    pub(super) fn owner_slots(&self) -> &[usize] {
        match self.procedure().owner {
            Some(owner) => &self.program.types[owner].slots,
            None => &[],
        }
    }
}

/// The variables that an instruction reads and does not move.
fn reads(operation: Operation) -> Vec<(usize, Due)> {
    match operation {
        Operation::Add { left, right, .. }
        | Operation::Subtract { left, right, .. }
        | Operation::Less { left, right, .. } => vec![(left, Due::Integer), (right, Due::Integer)],
        Operation::JumpIfZero { test: number, .. }
        | Operation::Put { from: number }
        | Operation::NewArray { size: number, .. } => vec![(number, Due::Integer)],
        Operation::Fetch { array, index, .. } | Operation::Store { array, index, .. } => {
            vec![(array, Due::Array), (index, Due::Integer)]
        }
        Operation::Size { array, .. } => vec![(array, Due::Array)],
        Operation::GetSlot { record, .. } | Operation::SetSlot { record, .. } => {
            vec![(record, Due::Owned)]
        }
        _ => Vec::new(),
    }
}
