//! What a step did, in a few words.

use super::columns::spanned;
use super::machine::{operation, Cell, Machine};
use super::value::Teller;
use crate::source::Source;
use reference::{Operation, Place, Program};
use text::field::Field;
use text::{Reading, Sheet};

/// Tells of the steps of a run.
pub struct Effects<'a> {
    pub source: &'a Source,
    /// The lines of the source.
    pub lines: &'a [&'a str],
    pub program: &'a Program,
    pub sheet: &'a Sheet,
    /// How many reads are lent.
    pub reads: usize,
}

/// A step that is about to be made, with what can only be seen before.
pub struct Due {
    pub place: Place,
    operation: Operation,
    /// The values that it moves.
    moved: Vec<Cell>,
}

impl Effects<'_> {
    /// The step that is due, unless main's first frame has returned.
    pub fn due(&self, machine: &Machine) -> Option<Due> {
        let place = machine.due()?;
        let operation = operation(self.program, place);
        Some(Due {
            place,
            operation,
            moved: self.moved(machine, operation),
        })
    }

    fn moved(&self, machine: &Machine, operation: Operation) -> Vec<Cell> {
        match operation {
            Operation::Bind { from, .. }
            | Operation::Store { from, .. }
            | Operation::SetSlot { from, .. } => vec![machine.variable(from)],
            Operation::Fetch { array, index, .. } => {
                let index = machine.integer(index).unwrap_or(0);
                vec![machine.cell(array, index as usize)]
            }
            Operation::GetSlot { record, slot, .. } => vec![machine.cell(record, slot)],
            Operation::Call {
                procedure,
                first_actual: Some(first),
                ..
            } => {
                let formals = self.program.procedures[procedure].formals;
                let actuals = first..first + formals;
                actuals.map(|actual| machine.variable(actual)).collect()
            }
            Operation::Return { value: Some(value) } => vec![machine.variable(value)],
            _ => Vec::new(),
        }
    }

    /// What the step did, told after it.
    pub fn told(&self, due: &Due, machine: &Machine) -> String {
        let procedure = due.place.procedure;
        let assigned = |to| self.assigned(machine, procedure, to, &due.moved);
        match due.operation {
            Operation::Set { to, .. }
            | Operation::Add { to, .. }
            | Operation::Subtract { to, .. }
            | Operation::Less { to, .. }
            | Operation::Bind { to, .. }
            | Operation::Fetch { to, .. }
            | Operation::Size { to, .. }
            | Operation::GetSlot { to, .. } => assigned(to),
            Operation::Take { to } => {
                let (taken, reads) = (machine.taken(), self.reads);
                format!("{}, read {taken} of {reads}", assigned(to))
            }
            Operation::Put { .. } => {
                let word = machine.put().last().copied().unwrap_or(0);
                format!("put {word}")
            }
            Operation::JumpIfZero { test, target } => self.jumped(due, machine, test, target),
            Operation::Call { procedure, .. } => self.called(due, machine, procedure),
            Operation::Return { .. } => self.returned(due, machine),
            Operation::NewArray { .. }
            | Operation::NewRecord { .. }
            | Operation::Store { .. }
            | Operation::SetSlot { .. } => self.made_or_written(due, machine),
        }
    }

    /// What became of an object.
    fn made_or_written(&self, due: &Due, machine: &Machine) -> String {
        let procedure = due.place.procedure;
        let owner = self.program.procedures[procedure].owner.unwrap_or(0);
        let assigned = |to| self.assigned(machine, procedure, to, &[]);
        match due.operation {
            Operation::NewArray { to, .. } => {
                let size = machine.object(to).map_or(0, |object| machine.size(object));
                format!("{}, new tray of {size}", assigned(to))
            }
            Operation::NewRecord { to } => {
                let name = self.source.names.declared(owner);
                format!("{}, new {name}", assigned(to))
            }
            Operation::Store { array, index, .. } => {
                let index = machine.integer(index).unwrap_or(0);
                let part = format!("[{index}]");
                self.written(due, machine, array, index as usize, &part)
            }
            Operation::SetSlot { record, slot, .. } => {
                let part = format!(".{}", self.source.names.slot(owner, slot));
                self.written(due, machine, record, slot, &part)
            }
            _ => String::new(),
        }
    }

    fn teller(&self) -> Teller<'_> {
        Teller {
            program: self.program,
            sheet: self.sheet,
            names: &self.source.names,
        }
    }

    /// For example `i = 3`.
    fn assigned(&self, machine: &Machine, procedure: usize, to: usize, moved: &[Cell]) -> String {
        let name = self.source.names.variable(procedure, to);
        let before = moved.first().unwrap_or(&None);
        let value = self.teller().moved(&machine.variable(to), before);
        format!("{name} = {value}")
    }

    fn jumped(&self, due: &Due, machine: &Machine, test: usize, target: usize) -> String {
        let name = self.source.names.variable(due.place.procedure, test);
        match machine.integer(test).unwrap_or(0) {
            0 => format!("{name} is 0: goes to {}", self.target(due.place, target)),
            word => format!("{name} is {word}: goes on"),
        }
    }

    /// The label of a jump, if its text has one, and the instruction.
    fn target(&self, place: Place, target: usize) -> String {
        let instruction = &self.program.procedures[place.procedure].instructions[place.instruction];
        let entry = self.source.listing.at_byte(instruction.place);
        let span = entry.and_then(|entry| entry.part(Field::K));
        let label = span.map_or_else(String::new, |span| spanned(self.lines, span));
        match label.starts_with(|first: char| !first.is_ascii_digit()) {
            true => format!("{label}, instruction {target}"),
            false => format!("instruction {target}"),
        }
    }

    /// For example `object 2[3] = 7` or `object 2.length = 7`.
    fn written(
        &self,
        due: &Due,
        machine: &Machine,
        holder: usize,
        index: usize,
        part: &str,
    ) -> String {
        let object = machine.object(holder).unwrap_or(0);
        let before = due.moved.first().unwrap_or(&None);
        let value = self.teller().moved(&machine.cell(holder, index), before);
        format!("object {object}{part} = {value}")
    }

    /// For example `opens length_of: item = object 1`. A frame with a rights
    /// name says what it is settled to: `opens sort for ?R = call{read}`.
    fn called(&self, due: &Due, machine: &Machine, procedure: usize) -> String {
        let names = &self.source.names;
        let formals = due.moved.iter().enumerate().map(|(formal, before)| {
            let name = names.variable(procedure, formal);
            let value = self.teller().moved(&machine.variable(formal), before);
            format!("{name} = {value}")
        });
        let formals: Vec<String> = formals.collect();
        let settled = match machine.reading(0) {
            Reading::As(settled) => {
                format!(" for ?R = {}", self.teller().notation().said(&settled))
            }
            Reading::Name(_) => String::new(),
        };
        let opens = format!("opens {}{settled}", names.procedure(procedure));
        match formals.is_empty() {
            true => opens,
            false => format!("{opens}: {}", formals.join(", ")),
        }
    }

    /// For example `back in main: length = 9`.
    fn returned(&self, due: &Due, machine: &Machine) -> String {
        let Some(call) = machine.returned_to() else {
            return String::from("main ends");
        };
        let back = format!("back in {}", self.source.names.procedure(call.procedure));
        let Some(value) = due.moved.first() else {
            return back;
        };
        match operation(self.program, call) {
            Operation::Call {
                result: Some(to), ..
            } => {
                let kept = self.assigned(machine, call.procedure, to, &due.moved);
                format!("{back}: {kept}")
            }
            _ => format!("{back}: {} is dropped", self.teller().cell(value)),
        }
    }
}
