//! How a body on trial fills its operands.

use super::chooser::Fill;
use super::program::CONTROL;
use super::trial::Operands;
use super::writer::Writer;
use crate::operations::{bind, give_back, leave, new_array, new_record, set, set_slot, store};
use crate::records::NONE;

/// The variables for the filling, counted from the first after the operands:
/// an array, a cell of it, an opened record and its slot.
const ARRAY: u8 = 0;
const CELL: u8 = 1;
const OPENED: u8 = 2;
const SLOT: u8 = 3;

impl Writer<'_> {
    /// An array of chance size, before which makers have left room.
    pub(super) fn tight(&mut self) {
        let array = self.control(CONTROL as u8);
        let size = self.control(CONTROL as u8 - 1);
        let words = self.chooser.random.below(40) as u16;
        self.emit(set(size, words));
        self.emit(new_array(array, size));
    }

    pub(super) fn fill_operands(&mut self, trial: Operands) {
        let after = trial.first + trial.count;
        if matches!(trial.instruction.code, 14 | 15) {
            self.fill_slot(after, trial.instruction.k);
        }
        for operand in trial.first..after {
            if !self.chooser.random.one_in(7) {
                self.fill_operand(operand, after);
            }
        }
        if self.chooser.random.one_in(2) {
            self.tight();
        }
    }

    /// Fills an operand if that can be done in this procedure.
    fn fill_operand(&mut self, operand: u8, after: u8) {
        let inner = self.chooser.inner(operand);
        let owner = self.chooser.procedure().head.owner;
        let record = self.chooser.typing.get(inner);
        match record.base {
            0 => {
                let value = self.chooser.random.below(4) as u16;
                self.emit(set(operand, value));
            }
            1 => self.fill_array(operand, after),
            base if base == owner && self.chooser.fill(after + OPENED) == Fill::Filled => {
                self.emit(bind(operand, after + OPENED));
            }
            _ => {
                self.produce_closed(operand);
                return;
            }
        }
        self.chooser.set_fill(operand, Fill::Filled);
    }

    /// An array with all of its cells filled, or none, made with all rights;
    /// a new one where the elements are others.
    fn fill_array(&mut self, operand: u8, after: u8) {
        let (array, cell) = (after + ARRAY, after + CELL);
        let inner = self.chooser.inner(operand);
        if !self.chooser.typing.fits(self.chooser.inner(array), inner) {
            self.produce(operand);
            return;
        }
        let size = self.control(CONTROL as u8 - 1);
        let words = self.chooser.random.between(0, 3) as u16;
        self.emit(set(size, words));
        self.emit(new_array(array, size));
        if !self.chooser.random.one_in(4) && self.produce_closed(cell) {
            for index in 0..words {
                self.emit(set(size, index));
                self.emit(store(array, size, cell));
            }
        }
        self.emit(bind(operand, array));
    }

    /// Fills a variable unless its type has open, which only its owner can
    /// give.
    fn produce_closed(&mut self, variable: u8) -> bool {
        let inner = self.chooser.inner(variable);
        let owner = self.chooser.procedure().head.owner;
        let open = self.chooser.typing.has_open(inner);
        if open && self.chooser.typing.get(inner).base != owner {
            return false;
        }
        self.produce(variable)
    }

    /// A new record of the owner's type, its slot filled mostly.
    fn fill_slot(&mut self, after: u8, slot: u16) {
        let (opened, value) = (after + OPENED, after + SLOT);
        self.emit(new_record(opened));
        self.chooser.set_fill(opened, Fill::Filled);
        if !self.chooser.random.one_in(4) && self.produce_closed(value) {
            self.emit(set_slot(opened, value, slot));
        }
    }

    /// Mostly the form that is right.
    pub(super) fn leave_by_chance(&mut self) {
        let result = self.chooser.procedure().head.result;
        let value = match (result, self.chooser.random.one_in(8)) {
            (NONE, true) => self.control(0),
            (NONE, false) | (_, true) => NONE,
            (result, false) => match self.chooser.giver(result) {
                Some(given) => {
                    self.ready(given);
                    given
                }
                None => self.control(0),
            },
        };
        match value {
            NONE => self.emit(leave()),
            value => self.emit(give_back(value)),
        }
    }
}
