//! One step of the plain machine, operation by operation.

use super::state::{Cell, Frame, Object};
use super::{End, Machine};
use crate::machine::outcome::Stop;
use crate::program::Operation;

const BLANK: End = End::Stop(Stop::Blank);

fn integer(cell: Cell) -> Result<u32, End> {
    match cell {
        Cell::Integer(value) => Ok(value),
        Cell::Blank | Cell::Object(_) => Err(End::Stuck),
    }
}

fn filled(cell: Cell) -> Result<Cell, End> {
    match cell {
        Cell::Blank => Err(BLANK),
        cell => Ok(cell),
    }
}

impl Machine<'_> {
    pub(super) fn perform(&mut self, operation: Operation) -> Result<(), End> {
        match operation {
            Operation::Set { to, value } => self.assign(to, Cell::Integer(value)),
            Operation::Add { to, left, right } => {
                self.compute(to, left, right, u32::wrapping_add)?;
            }
            Operation::Subtract { to, left, right } => {
                self.compute(to, left, right, u32::wrapping_sub)?;
            }
            Operation::Less { to, left, right } => {
                self.compute(to, left, right, |left, right| u32::from(left < right))?;
            }
            Operation::JumpIfZero { test, target } => return self.jump_if_zero(test, target),
            Operation::Bind { to, from } => {
                let value = filled(self.variable(from))?;
                self.assign(to, value)
            }
            Operation::Take { to } => self.take(to)?,
            Operation::Put { from } => self.put(from)?,
            Operation::NewArray { to, size } => self.new_array(to, size)?,
            Operation::Fetch { to, array, index } => self.fetch(to, array, index)?,
            Operation::Store { array, index, from } => self.store(array, index, from)?,
            Operation::Size { to, array } => self.size(to, array)?,
            Operation::NewRecord { to } => self.new_record(to)?,
            Operation::GetSlot { to, record, slot } => self.get_slot(to, record, slot)?,
            Operation::SetSlot { record, slot, from } => self.set_slot(record, slot, from)?,
            Operation::Call {
                result,
                procedure,
                first_actual,
            } => return self.call(result, procedure, first_actual),
            Operation::Return { value } => return self.leave(value),
        }
        self.frame_mut().next += 1;
        Ok(())
    }

    fn frame(&self) -> &Frame {
        self.state.frames.last().expect("a frame works")
    }

    fn frame_mut(&mut self) -> &mut Frame {
        self.state.frames.last_mut().expect("a frame works")
    }

    fn variable(&self, number: usize) -> Cell {
        self.frame().variables[number]
    }

    fn assign(&mut self, number: usize, cell: Cell) {
        self.frame_mut().variables[number] = cell;
    }

    /// Both are filled, then both are integers.
    fn compute(
        &mut self,
        to: usize,
        left: usize,
        right: usize,
        operation: fn(u32, u32) -> u32,
    ) -> Result<(), End> {
        let left = filled(self.variable(left))?;
        let right = filled(self.variable(right))?;
        let value = operation(integer(left)?, integer(right)?);
        self.assign(to, Cell::Integer(value));
        Ok(())
    }

    /// The number and the cells of an array.
    fn array(&self, cell: Cell) -> Result<(usize, &[Cell]), End> {
        let Cell::Object(number) = cell else {
            return Err(End::Stuck);
        };
        match &self.state.objects[number] {
            Object::Array(cells) => Ok((number, cells)),
            Object::Record(_) => Err(End::Stuck),
        }
    }

    /// The number and the cells of a record.
    fn record(&self, cell: Cell) -> Result<(usize, &[Cell]), End> {
        let Cell::Object(number) = cell else {
            return Err(End::Stuck);
        };
        match &self.state.objects[number] {
            Object::Record(cells) => Ok((number, cells)),
            Object::Array(_) => Err(End::Stuck),
        }
    }

    fn jump_if_zero(&mut self, test: usize, target: usize) -> Result<(), End> {
        let value = integer(filled(self.variable(test))?)?;
        let frame = self.frame_mut();
        frame.next = if value == 0 { target } else { frame.next + 1 };
        Ok(())
    }

    fn take(&mut self, to: usize) -> Result<(), End> {
        let Some(&word) = self.resources.input.get(self.state.taken) else {
            return Err(End::Stop(Stop::InputEnded));
        };
        self.state.taken += 1;
        self.assign(to, Cell::Integer(word));
        Ok(())
    }

    fn put(&mut self, from: usize) -> Result<(), End> {
        let word = integer(filled(self.variable(from))?)?;
        if self.state.output.len() == self.resources.output_words {
            return Err(End::Stop(Stop::OutputFull));
        }
        self.state.output.push(word);
        Ok(())
    }

    fn new_array(&mut self, to: usize, size: usize) -> Result<(), End> {
        let size = integer(filled(self.variable(size))?)? as usize;
        self.free(size + 1)?;
        self.add_object(to, Object::Array(vec![Cell::Blank; size]));
        Ok(())
    }

    fn new_record(&mut self, to: usize) -> Result<(), End> {
        let procedure = &self.program.procedures[self.frame().procedure];
        let owner = procedure.owner.ok_or(End::Stuck)?;
        let slots = self.program.types[owner].slots.len();
        self.free(slots + 1)?;
        self.add_object(to, Object::Record(vec![Cell::Blank; slots]));
        Ok(())
    }

    fn fetch(&mut self, to: usize, array: usize, index: usize) -> Result<(), End> {
        let (_, cells, index) = self.array_and_index(array, index)?;
        let cell = *cells.get(index).ok_or(End::Stop(Stop::PastEnd))?;
        self.assign(to, filled(cell)?);
        Ok(())
    }

    fn store(&mut self, array: usize, index: usize, from: usize) -> Result<(), End> {
        let (number, cells, index) = self.array_and_index(array, index)?;
        if index >= cells.len() {
            return Err(End::Stop(Stop::PastEnd));
        }
        let value = filled(self.variable(from))?;
        self.write(number, index, value);
        Ok(())
    }

    /// Both are filled, then one is an array and the other an integer.
    fn array_and_index(&self, array: usize, index: usize) -> Result<(usize, &[Cell], usize), End> {
        let array = filled(self.variable(array))?;
        let index = filled(self.variable(index))?;
        let (number, cells) = self.array(array)?;
        Ok((number, cells, integer(index)? as usize))
    }

    fn size(&mut self, to: usize, array: usize) -> Result<(), End> {
        let array = filled(self.variable(array))?;
        let size = self.array(array)?.1.len();
        self.assign(to, Cell::Integer(size as u32));
        Ok(())
    }

    fn get_slot(&mut self, to: usize, record: usize, slot: usize) -> Result<(), End> {
        let record = filled(self.variable(record))?;
        let (_, cells) = self.record(record)?;
        let cell = *cells.get(slot).ok_or(End::Stuck)?;
        self.assign(to, filled(cell)?);
        Ok(())
    }

    fn set_slot(&mut self, record: usize, slot: usize, from: usize) -> Result<(), End> {
        let record = filled(self.variable(record))?;
        let (number, cells) = self.record(record)?;
        if slot >= cells.len() {
            return Err(End::Stuck);
        }
        let value = filled(self.variable(from))?;
        self.write(number, slot, value);
        Ok(())
    }

    /// The frame must fit before the actuals are looked at.
    fn call(
        &mut self,
        keep: Option<usize>,
        procedure: usize,
        first_actual: Option<usize>,
    ) -> Result<(), End> {
        self.free(self.frame_units(procedure))?;
        let formals = self.program.procedures[procedure].formals;
        let actuals = match first_actual {
            Some(first) => &self.frame().variables[first..first + formals],
            None => &[],
        };
        if actuals.contains(&Cell::Blank) {
            return Err(BLANK);
        }
        let actuals = actuals.to_vec();
        self.frame_mut().next += 1;
        self.open_frame(procedure, &actuals, keep);
        Ok(())
    }

    /// A blank value stops the return even if nobody keeps it.
    fn leave(&mut self, value: Option<usize>) -> Result<(), End> {
        let value = match value {
            Some(number) => Some(filled(self.variable(number))?),
            None => None,
        };
        let keep = self.frame().keep;
        if keep.is_some() && value.is_none() {
            return Err(End::Stuck);
        }
        self.state.units -= self.frame_units(self.frame().procedure);
        self.state.frames.pop();
        if let (Some(to), Some(value)) = (keep, value) {
            self.assign(to, value);
        }
        Ok(())
    }

    /// The units of a frame of the procedure.
    pub(super) fn frame_units(&self, procedure: usize) -> usize {
        self.program.procedures[procedure].variables.len() + 2
    }

    /// Whether so many more units fit in the memory.
    fn free(&self, more: usize) -> Result<(), End> {
        if self.state.units + more > self.resources.memory_words {
            return Err(End::Stop(Stop::MemoryFull));
        }
        Ok(())
    }

    fn use_units(&mut self, more: usize) {
        self.state.units += more;
        self.most_units = self.most_units.max(self.state.units);
    }

    /// Opens a frame whose first variables are the actuals, the others blank.
    pub(super) fn open_frame(&mut self, procedure: usize, actuals: &[Cell], keep: Option<usize>) {
        let mut variables = actuals.to_vec();
        let count = self.program.procedures[procedure].variables.len();
        variables.resize(count, Cell::Blank);
        self.use_units(self.frame_units(procedure));
        self.state.frames.push(Frame {
            procedure,
            next: 0,
            variables,
            keep,
        });
    }

    fn add_object(&mut self, to: usize, object: Object) {
        self.use_units(object.cells().len() + 1);
        self.assign(to, Cell::Object(self.state.objects.len()));
        self.state.objects.push(object);
    }

    fn write(&mut self, object: usize, index: usize, value: Cell) {
        match &mut self.state.objects[object] {
            Object::Array(cells) | Object::Record(cells) => cells[index] = value,
        }
    }
}
