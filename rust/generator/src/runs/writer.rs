//! Bodies that mostly use what they have filled: statements of one or more
//! instructions, all of which keep the access rules.

use super::chooser::{Chooser, Fill};
use super::program::{recursive, CONTROL};
use crate::body;
use crate::operations::{
    bind, call, fetch, give_back, jump_if_zero, leave, less, new_array, new_record, set, set_slot,
    store, subtract, take,
};
use crate::random::Random;
use crate::records::{InstructionRecord, FETCH, GENERIC, NONE, STORE};
use crate::sheet::Sheet;
use crate::typing::Typing;

/// A call for which the variables are there.
#[derive(Clone, Copy, Debug)]
pub struct Plan {
    pub callee: usize,
    pub first_actual: u8,
    pub kept: u8,
}

/// The body's own variables.
pub(super) const ZERO: u8 = 0;
pub(super) const ONE: u8 = 1;
const COUNTERS: [u8; 2] = [2, 3];
pub(super) const INDEX: u8 = 4;
const SCRATCH: u8 = 5;

/// One in so many variables is used without seeing to it that it is filled.
const CARELESS: usize = 40;

pub struct Writer<'a> {
    pub chooser: Chooser<'a>,
    pub body: Vec<InstructionRecord>,
    /// How many loops are open.
    loops: usize,
}

impl<'a> Writer<'a> {
    pub fn new(
        random: &'a mut Random,
        sheet: &'a Sheet,
        typing: &'a Typing,
        number: usize,
    ) -> Self {
        let procedure = &sheet.procedures[number];
        let formals = usize::from(procedure.head.formals);
        let mut fills = vec![Fill::Unknown; procedure.variables.len()];
        fills[..formals].fill(Fill::Filled);
        Writer {
            chooser: Chooser {
                random,
                sheet,
                typing,
                number,
                fills,
            },
            body: Vec::new(),
            loops: 0,
        }
    }

    pub fn control(&self, which: u8) -> u8 {
        self.chooser.control(which)
    }

    pub fn emit(&mut self, instruction: InstructionRecord) {
        self.body.push(instruction);
    }

    pub(super) fn filled(&mut self, variable: u8) {
        self.chooser.set_fill(variable, Fill::Filled);
    }

    /// Fills the variables that every body has for itself.
    pub fn start(&mut self) {
        for which in 0..CONTROL as u8 {
            let variable = self.control(which);
            self.emit(set(variable, u16::from(which == ONE)));
            self.filled(variable);
        }
    }

    /// The body of a maker: a new record, most of its slots filled.
    pub fn maker(&mut self) -> Vec<InstructionRecord> {
        self.start();
        let record = CONTROL as u8;
        self.emit(new_record(record));
        self.filled(record);
        for slot in 0..self.chooser.owner_slots().len() as u8 {
            let variable = record + 1 + slot;
            if !self.chooser.random.one_in(12) && self.produce(variable) {
                self.emit(set_slot(record, variable, u16::from(slot)));
            }
        }
        self.emit(give_back(record));
        std::mem::take(&mut self.body)
    }

    /// The body of main or a worker.
    pub fn worker(&mut self, plans: &[Plan]) -> Vec<InstructionRecord> {
        self.start();
        let recurses = recursive(self.chooser.procedure());
        let guard = self.body.len();
        let at_start = self.chooser.fills.clone();
        if recurses {
            self.emit(jump_if_zero(0, 0));
        }
        for _ in 0..self.chooser.random.between(3, 8) {
            self.statement(plans);
        }
        for plan in plans {
            if self.chooser.random.one_in(2) {
                self.call(*plan);
            }
        }
        if recurses {
            self.body[guard].k = self.body.len() as u16;
            self.chooser.fills = at_start;
        }
        self.leaving();
        std::mem::take(&mut self.body)
    }

    fn leaving(&mut self) {
        match self.chooser.procedure().head.result {
            NONE => self.emit(leave()),
            result => {
                let given = self.chooser.giver(result).unwrap_or(NONE);
                self.ready(given);
                self.emit(give_back(given));
            }
        }
    }

    fn statement(&mut self, plans: &[Plan]) {
        match self.chooser.random.below(28) {
            0 | 1 => self.arithmetic(),
            2 => self.put(),
            3 => self.take(),
            4 => self.bind(),
            5 => self.new_array(),
            6 | 7 => self.store(),
            8 | 9 => self.fetch(),
            10 => self.size(),
            11 => self.new_record(),
            12 => self.set_slot(),
            13 => self.get_slot(),
            14..=16 => {
                if let Some(plan) = self.chooser.random.pick(plans) {
                    self.call(plan);
                }
            }
            17 | 18 => self.counted_loop(plans),
            19 => self.branch(plans),
            20 => self.wrap(),
            21 => self.set_slot(),
            22..=24 => self.get_slot(),
            25 | 26 => self.two_names(),
            _ if self.chooser.random.one_in(4) => self.wild(),
            _ => self.put(),
        }
    }

    /// Sees to it that a variable is filled, but for a careless moment; false
    /// where it cannot be.
    pub fn ready(&mut self, variable: u8) -> bool {
        if self.chooser.fill(variable) != Fill::Unknown {
            return true;
        }
        if self.chooser.random.one_in(CARELESS) {
            return true;
        }
        self.produce(variable)
    }

    /// More careless moments, for what is rarely blank otherwise.
    pub(super) fn careless(&mut self) -> bool {
        self.chooser.random.one_in(8)
    }

    /// Fills a variable with something new of its type.
    pub fn produce(&mut self, variable: u8) -> bool {
        let record = self.chooser.typing.get(self.chooser.inner(variable));
        match record.base {
            0 if self.chooser.random.one_in(8) => self.emit(take(variable)),
            0 => {
                let value = self.chooser.small();
                self.emit(set(variable, value));
            }
            1 => return self.produce_array(variable),
            // Nothing but ?R reaches ?R.
            GENERIC => match self.chooser.filled_generic() {
                Some(filled) => self.emit(bind(variable, filled)),
                None => return false,
            },
            base if base == self.chooser.procedure().head.owner => self.emit(new_record(variable)),
            base => match self.chooser.maker(base) {
                Some(maker) => self.emit(call(variable, NONE, maker as u16)),
                None => return false,
            },
        }
        self.filled(variable);
        true
    }

    /// A new array, mostly with all of its cells filled.
    fn produce_array(&mut self, variable: u8) -> bool {
        let count = [0, 1, 2, 2, 3, 4][self.chooser.random.below(6)];
        let size = self.control(SCRATCH);
        self.emit(set(size, count));
        self.emit(new_array(variable, size));
        self.chooser.set_fill(variable, Fill::Sized(count));
        let inner = self.chooser.inner(variable);
        let storable = self.chooser.typing.is_array_with(inner, STORE);
        if storable && count > 0 && !self.chooser.random.one_in(10) {
            let element = self.chooser.element(variable);
            if let Some(source) = self.chooser.giver(element) {
                if self.ready(source) {
                    self.store_all(variable, source, count);
                }
            }
        }
        true
    }

    /// Stores to the cells from the last to the first.
    fn store_all(&mut self, array: u8, source: u8, count: u16) {
        let [zero, one, index] = [ZERO, ONE, INDEX].map(|which| self.control(which));
        self.emit(set(index, count));
        let start = self.body.len() as u16;
        self.emit(subtract(index, index, one));
        self.emit(store(array, index, source));
        self.emit(jump_if_zero(index, start + 4));
        self.emit(jump_if_zero(zero, start));
    }

    fn call(&mut self, plan: Plan) {
        let callee = &self.chooser.sheet.procedures[plan.callee];
        for number in 0..callee.head.formals {
            self.ready(plan.first_actual + number);
        }
        if recursive(callee) {
            let depth = plan.first_actual;
            if plan.callee == self.chooser.number {
                self.emit(subtract(depth, 0, self.control(ONE)));
            } else {
                let value = self.chooser.random.below(4) as u16;
                self.emit(set(depth, value));
            }
        }
        self.emit(call(plan.kept, plan.first_actual, plan.callee as u16));
        if plan.kept != NONE {
            self.filled(plan.kept);
            if self.chooser.typing.uses_generic(callee.head.result) {
                self.use_kept(plan.kept);
            }
        }
    }

    /// Stores to an array that may have been made under ?R, and fetches from
    /// it.
    fn use_kept(&mut self, kept: u8) {
        let inner = self.chooser.inner(kept);
        if !self.chooser.typing.is_array_with(inner, STORE | FETCH) {
            return;
        }
        let [zero, element] = [self.control(ZERO), self.chooser.element(kept)];
        if let Some(given) = self.chooser.giver(element) {
            if self.ready(given) {
                self.emit(store(kept, zero, given));
            }
        }
        if let Some(to) = self.chooser.receiver(element) {
            self.emit(fetch(to, kept, zero));
            self.filled(to);
        }
    }

    fn counted_loop(&mut self, plans: &[Plan]) {
        let Some(&counter) = COUNTERS.get(self.loops) else {
            return;
        };
        let [zero, one, counter] = [ZERO, ONE, counter].map(|which| self.control(which));
        let turns = self.chooser.random.between(1, 4) as u16;
        self.emit(set(counter, turns));
        let start = self.body.len() as u16;
        self.loops += 1;
        for _ in 0..self.chooser.random.between(1, 3) {
            self.statement(plans);
        }
        self.loops -= 1;
        self.emit(subtract(counter, counter, one));
        let after = self.body.len() as u16 + 2;
        self.emit(jump_if_zero(counter, after));
        self.emit(jump_if_zero(zero, start));
    }

    /// Statements that are made only if an integer is not zero, or less than
    /// another.
    fn branch(&mut self, plans: &[Plan]) {
        let [b, c] = [(); 2].map(|()| self.chooser.integer());
        self.ready(b);
        let test = match self.chooser.random.one_in(2) {
            true => b,
            false => {
                self.ready(c);
                self.emit(less(self.control(SCRATCH), b, c));
                self.control(SCRATCH)
            }
        };
        let jump = self.body.len();
        self.emit(jump_if_zero(test, 0));
        let before = self.chooser.fills.clone();
        for _ in 0..self.chooser.random.between(1, 2) {
            self.statement(plans);
        }
        if self.chooser.random.one_in(4) {
            self.leaving();
        }
        self.chooser.fills = before;
        self.body[jump].k = self.body.len() as u16;
    }

    /// Any instruction that keeps the access rules.
    fn wild(&mut self) {
        let chooser = &mut self.chooser;
        let mut writer = body::Writer {
            random: chooser.random,
            typing: chooser.typing,
            types: &chooser.sheet.types,
            procedures: &chooser.sheet.procedures,
            number: chooser.number,
            length: self.body.len() + 1,
        };
        let instruction = writer.instruction();
        self.emit(instruction);
    }
}
