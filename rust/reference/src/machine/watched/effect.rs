//! What an instruction does once all of its tests hold.

use super::state::{Held, Object, Value};
use super::Machine;
use crate::generic::{Form, Read};
use crate::program::{Kind, Operation};

impl Machine<'_> {
    /// Does the instruction and goes on to the next; None where a value that
    /// the tests have seen is not there.
    pub(super) fn effect(&mut self, operation: Operation) -> Option<()> {
        let frame = self.state.frames.len() - 1;
        self.state.frames[frame].next += 1;
        match operation {
            Operation::Set { to, value } => self.fill_integer(to, value),
            Operation::Add { to, left, right } => {
                self.fill_integer(to, self.word(left)?.wrapping_add(self.word(right)?));
            }
            Operation::Subtract { to, left, right } => {
                self.fill_integer(to, self.word(left)?.wrapping_sub(self.word(right)?));
            }
            Operation::Less { to, left, right } => {
                let less = self.word(left)? < self.word(right)?;
                self.fill_integer(to, if less { 1 } else { 0 });
            }
            Operation::JumpIfZero { test, target } => {
                if self.word(test)? == 0 {
                    self.state.frames[frame].next = target;
                }
            }
            Operation::Bind { to, from } => self.fill(to, self.variable(from)?.value),
            Operation::Take { to } => {
                self.fill_integer(to, *self.resources.input.get(self.state.taken)?);
                self.state.taken += 1;
            }
            Operation::Put { from } => {
                let word = self.word(from)?;
                self.state.output.push(word);
            }
            Operation::Call {
                procedure,
                first_actual,
                ..
            } => self.enter(procedure, first_actual)?,
            Operation::Return { value } => self.leave(value)?,
            _ => self.object_effect(operation)?,
        }
        Some(())
    }

    /// Arrays and records.
    fn object_effect(&mut self, operation: Operation) -> Option<()> {
        match operation {
            Operation::NewArray { to, size } => {
                let kind = self.program.qualified[self.inner(to).qualified].kind;
                let size = self.word(size)? as usize;
                self.create(to, kind, size);
            }
            Operation::Fetch { to, array, index } => {
                let index = self.word(index)? as usize;
                let cell = self.state.objects[self.object(array)?].cells[index];
                self.fill(to, cell?.value);
            }
            Operation::Store { array, index, from } => {
                let index = self.word(index)? as usize;
                self.write(self.object(array)?, index, self.variable(from)?.value)?;
            }
            Operation::Size { to, array } => {
                let size = self.state.objects[self.object(array)?].cells.len();
                self.fill_integer(to, size as u32);
            }
            Operation::NewRecord { to } => {
                let of = self.procedure().owner?;
                self.create(to, Kind::Record { of }, self.program.types[of].slots.len());
            }
            Operation::GetSlot { to, record, slot } => {
                let cell = self.state.objects[self.object(record)?].cells[slot];
                self.fill(to, cell?.value);
            }
            Operation::SetSlot { record, slot, from } => {
                self.write(self.object(record)?, slot, self.variable(from)?.value)?;
            }
            _ => return None,
        }
        Some(())
    }

    /// Opens a frame with the settled set, whose formals carry the rights of
    /// their inner types, amplified or bound.
    fn enter(&mut self, procedure: usize, first_actual: Option<usize>) -> Option<()> {
        let callee = &self.program.procedures[procedure];
        let set = self.settled(procedure, first_actual).reading.rights();
        let mut frame = self.new_frame(procedure, set);
        for number in 0..callee.formals {
            let value = self.variable(first_actual? + number)?.value;
            let rights = self.program.read(self.declared(&frame, number)).rights;
            frame.variables[number] = Some(Held { value, rights });
        }
        self.state.frames.push(frame);
        Some(())
    }

    fn leave(&mut self, value: Option<usize>) -> Option<()> {
        let keeps = self.kept().map(|(_, to)| to);
        let value = match value {
            Some(number) => Some(self.variable(number)?.value),
            None => None,
        };
        self.state.frames.pop();
        if let Some(to) = keeps {
            self.fill(to, value?);
        }
        Some(())
    }

    fn word(&self, number: usize) -> Option<u32> {
        match self.variable(number)?.value {
            Value::Integer(word) => Some(word),
            Value::Object(_) => None,
        }
    }

    fn object(&self, number: usize) -> Option<usize> {
        match self.variable(number)?.value {
            Value::Object(object) => Some(object),
            Value::Integer(_) => None,
        }
    }

    /// The variable holds the value with the rights it is declared with.
    fn fill(&mut self, to: usize, value: Value) {
        let rights = self.declared_type(to).rights;
        let frame = self.state.frames.len() - 1;
        self.state.frames[frame].variables[to] = Some(Held { value, rights });
    }

    fn fill_integer(&mut self, to: usize, value: u32) {
        self.fill(to, Value::Integer(value));
    }

    /// A new object; in its element, base and set stand in place of ?R.
    fn create(&mut self, to: usize, kind: Kind, cells: usize) {
        let number = self.state.objects.len();
        let object = Object {
            kind,
            reading: self.reading(),
            cells: vec![None; cells],
        };
        self.state.objects.push(object);
        self.fill(to, Value::Object(number));
    }

    /// The cell holds the value with the rights that the element, or the slot
    /// of the type, is declared with.
    fn write(&mut self, object: usize, index: usize, value: Value) -> Option<()> {
        let object = &mut self.state.objects[object];
        let declared = match object.form() {
            Form::Array { element } => element,
            Form::Record { of } => Read::unread(self.program.types[of].slots[index]),
            Form::Integer | Form::Generic { .. } => return None,
        };
        let rights = self.program.read(declared).rights;
        object.cells[index] = Some(Held { value, rights });
        Some(())
    }
}
