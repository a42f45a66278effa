//! Statements of a single instruction, with what makes its operands ready.

use super::chooser::Fill;
use super::writer::{Writer, INDEX, ONE, ZERO};
use crate::operations::{
    add, bind, fetch, get_slot, less, new_array, new_record, put, set, set_slot, size, store,
    subtract, take,
};
use crate::records::{FETCH, OPEN, SIZE, STORE};

impl Writer<'_> {
    pub(super) fn arithmetic(&mut self) {
        let [a, b, c] = [(); 3].map(|()| self.chooser.integer());
        self.ready(b);
        self.ready(c);
        let operation = match self.chooser.random.below(3) {
            0 => add,
            1 => subtract,
            _ => less,
        };
        self.emit(operation(a, b, c));
        self.filled(a);
    }

    /// 0 − 1 put on the output.
    pub(super) fn wrap(&mut self) {
        let [zero, one] = [ZERO, ONE].map(|which| self.control(which));
        let a = self.chooser.integer();
        self.emit(subtract(a, zero, one));
        self.emit(put(a));
        self.filled(a);
    }

    pub(super) fn put(&mut self) {
        let a = self.chooser.integer();
        self.ready(a);
        self.emit(put(a));
    }

    pub(super) fn take(&mut self) {
        let a = self.chooser.integer();
        self.emit(take(a));
        self.filled(a);
    }

    pub(super) fn bind(&mut self) {
        let Some(b) = self.chooser.variable(|_, _| true) else {
            return;
        };
        let Some(a) = self.chooser.receiver(self.chooser.inner(b)) else {
            return;
        };
        if self.ready(b) {
            self.emit(bind(a, b));
            self.chooser.set_fill(a, self.chooser.fill(b));
        }
    }

    /// A new array of a size that is anything, or one that is filled.
    pub(super) fn new_array(&mut self) {
        let Some(a) = self.chooser.array(0) else {
            return;
        };
        if self.chooser.random.one_in(4) {
            let b = self.chooser.integer();
            if !self.careless() {
                self.ready(b);
            }
            self.emit(new_array(a, b));
            self.filled(a);
        } else {
            self.produce(a);
        }
    }

    /// Whether an array is not known to be empty, or used all the same.
    fn has_cells(&mut self, array: u8) -> bool {
        self.chooser.fill(array) != Fill::Sized(0) || self.careless()
    }

    /// Sets the index: mostly inside the array, else at or past its end.
    fn index(&mut self, array: u8) -> u8 {
        let index = self.control(INDEX);
        let count = match self.chooser.fill(array) {
            Fill::Sized(count) => count,
            _ => 1,
        };
        let value = match self.chooser.random.below(30) {
            0 => count,
            1 => count + 1,
            2 => u16::MAX,
            _ if count > 0 => self.chooser.random.below(usize::from(count)) as u16,
            _ => 0,
        };
        self.emit(set(index, value));
        index
    }

    pub(super) fn store(&mut self) {
        if let Some(a) = self.chooser.array(STORE) {
            self.store_to(a);
        }
    }

    fn store_to(&mut self, a: u8) {
        let Some(c) = self.chooser.giver(self.chooser.element(a)) else {
            return;
        };
        if self.ready(a) && self.has_cells(a) && (self.careless() || self.ready(c)) {
            let b = self.index(a);
            self.emit(store(a, b, c));
        }
    }

    pub(super) fn fetch(&mut self) {
        if let Some(b) = self.chooser.array(FETCH) {
            self.fetch_from(b);
        }
    }

    fn fetch_from(&mut self, b: u8) {
        let Some(a) = self.chooser.receiver(self.chooser.element(b)) else {
            return;
        };
        if self.ready(b) && self.has_cells(b) {
            let c = self.index(b);
            self.emit(fetch(a, b, c));
            self.filled(a);
        }
    }

    /// A second name for an array, by which less is asked of its elements: what
    /// is stored by the first is fetched by both.
    pub(super) fn two_names(&mut self) {
        let Some(first) = self.chooser.array(FETCH | STORE) else {
            return;
        };
        let Some(second) = self.chooser.widened(self.chooser.inner(first)) else {
            return;
        };
        if !self.ready(first) {
            return;
        }
        self.emit(bind(second, first));
        self.chooser.set_fill(second, self.chooser.fill(first));
        self.store_to(first);
        let inner = self.chooser.inner(second);
        if self.chooser.typing.is_array_with(inner, FETCH) {
            self.fetch_from(second);
        }
        self.fetch_from(first);
    }

    pub(super) fn size(&mut self) {
        if let Some(b) = self.chooser.array(SIZE) {
            let a = self.chooser.integer();
            self.ready(b);
            self.emit(size(a, b));
            self.filled(a);
        }
    }

    pub(super) fn new_record(&mut self) {
        if let Some(a) = self.chooser.owned(0) {
            self.emit(new_record(a));
            self.filled(a);
        }
    }

    /// A slot of the owner's type and its type.
    fn slot(&mut self) -> Option<(u16, u8)> {
        let slots = self.chooser.owner_slots();
        let numbers: Vec<u16> = (0..slots.len() as u16).collect();
        let slot = self.chooser.random.pick(&numbers)?;
        Some((slot, slots[usize::from(slot)]))
    }

    pub(super) fn set_slot(&mut self) {
        let (Some(a), Some((slot, slot_type))) = (self.chooser.owned(OPEN), self.slot()) else {
            return;
        };
        let Some(b) = self.chooser.giver(slot_type) else {
            return;
        };
        if self.ready(a) && (self.careless() || self.ready(b)) {
            self.emit(set_slot(a, b, slot));
        }
    }

    pub(super) fn get_slot(&mut self) {
        let (Some(b), Some((slot, slot_type))) = (self.chooser.owned(OPEN), self.slot()) else {
            return;
        };
        let Some(a) = self.chooser.receiver(slot_type) else {
            return;
        };
        if self.ready(b) {
            self.emit(get_slot(a, b, slot));
            self.filled(a);
        }
    }
}
