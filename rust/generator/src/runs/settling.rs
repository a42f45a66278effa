//! Well-formed sheets that lead up to one call of a procedure with a rights
//! name, whose actuals often settle it differently, short or not at all, for
//! the watched machine.
//!
//! Main calls a relay, which has a rights name too; one of the two makes the
//! call on trial.

use super::program::{Author, CONTROL, INTEGER};
use super::writer::Writer;
use crate::operations::call;
use crate::random::Random;
use crate::reading::Leaf;
use crate::records::{InstructionRecord, NONE, OPEN};
use crate::sheet::{Procedure, Sheet};

/// A sheet with a call on trial.
pub fn settling(random: &mut Random) -> Sheet {
    let mut author = Author::new(random);
    author.declare_makers();
    author.declare_generics();
    let relay = author.sheet.procedures.len();
    for most_formals in [2, 3] {
        let bounded = author.bounded(most_formals);
        author.sheet.procedures.push(bounded);
    }
    let by_relay = author.random.one_in(2);
    for number in [0, relay, relay + 1] {
        author.add_variables(number, &[INTEGER; CONTROL]);
    }
    let caller = if by_relay { relay } else { 0 };
    let trial = author.chance_call(caller, relay + 1);
    let lead = by_relay.then(|| author.sound_call(relay));
    author.write_all(relay, caller, trial, lead);
    author.finished()
}

impl Author<'_> {
    /// A procedure with a rights name, which mostly some formal uses.
    fn bounded(&mut self, most_formals: usize) -> Procedure {
        let bound = loop {
            if let Some(bound) = self.bound() {
                break bound;
            }
        };
        let owner = match self.random.one_in(3) {
            true => bound.base,
            false => 0,
        };
        let result = match self.random.one_in(3) {
            true => NONE,
            false => self.named(),
        };
        let mut procedure = Procedure::new(owner, result).bound(bound.base, bound.least);
        for _ in 0..self.random.between(1, most_formals) {
            let need = self.named();
            let inner = match self.random.one_in(8) {
                true => self.named(),
                false => need,
            };
            procedure = procedure.formal(inner, need);
        }
        procedure
    }

    /// Mostly a type in which ?R stands.
    fn named(&mut self) -> u8 {
        let numbers = match self.random.one_in(5) {
            true => self.typing.plain(),
            false => self.generics(),
        };
        self.random.pick(&numbers).unwrap_or(INTEGER)
    }

    /// Something for ?R: the caller's own, or any rights on its base; open
    /// only where the caller can have it.
    fn chance_leaf(&mut self, caller: usize) -> Option<Leaf> {
        let base = self.generic_base?;
        let Procedure { head, bound, .. } = self.sheet.procedures[caller].clone();
        if self.random.one_in(2) && bound.is_some() {
            return bound.map(Leaf::own);
        }
        let records = self.typing.all().map(|number| self.typing.get(number));
        let records = records.filter(|record| record.base == base);
        let records = records.filter(|record| record.rights & OPEN == 0 || head.owner == base);
        let rights: Vec<u32> = records.map(|record| record.rights).collect();
        let rights = self.random.pick(&rights)?;
        Some(Leaf::Record { base, rights })
    }

    /// A call whose actuals are near the needs.
    fn chance_call(&mut self, caller: usize, callee: usize) -> InstructionRecord {
        let called = self.sheet.procedures[callee].clone();
        let leaves = [self.chance_leaf(caller), self.chance_leaf(caller)];
        let first = self.sheet.procedures[caller].variables.len() as u8;
        for formal in called.formals() {
            let actual = self.chance_type(formal.need, leaves);
            self.add_variables(caller, &[actual]);
        }
        let kept = match (called.result(), self.random.below(4)) {
            (_, 0) => None,
            (None, 1) => Some(INTEGER),
            (None, _) => None,
            (Some(result), _) => Some(self.chance_type(result, leaves)),
        };
        let a = match kept {
            Some(kept) => {
                self.add_variables(caller, &[kept]);
                self.sheet.procedures[caller].variables.len() as u8 - 1
            }
            None => NONE,
        };
        let b = if called.head.formals == 0 {
            NONE
        } else {
            first
        };
        call(a, b, callee as u16)
    }

    /// The type read with the first leaf, now and then with the second; or
    /// another shape, or any type.
    fn chance_type(&mut self, number: u8, leaves: [Option<Leaf>; 2]) -> u8 {
        let generics = self.generics();
        let read = match self.random.below(10) {
            0..=5 => self.read_type(number, leaves[0]),
            6 | 7 => self.read_type(number, leaves[1]),
            8 => {
                let other = self.random.pick(&generics).unwrap_or(number);
                self.read_type(other, leaves[0])
            }
            _ => None,
        };
        let read = read.filter(|&read| {
            let own = leaves.iter().flatten();
            let mut own = own.filter(|leaf| matches!(leaf, Leaf::Own { .. }));
            !self.typing.uses_generic(read) || own.next().is_some()
        });
        let plain = self.typing.plain();
        read.or_else(|| self.random.pick(&plain)).unwrap_or(INTEGER)
    }

    /// A call from main that settles the rights name of the relay.
    fn sound_call(&mut self, relay: usize) -> InstructionRecord {
        let called = self.sheet.procedures[relay].clone();
        let generic = called.bound.and_then(|bound| self.settled(0, bound));
        let first = self.sheet.procedures[0].variables.len() as u8;
        for formal in called.formals() {
            let actual = self.read_type(formal.need, generic);
            self.add_variables(0, &[actual.unwrap_or(INTEGER)]);
        }
        call(NONE, first, relay as u16)
    }

    fn write_all(
        &mut self,
        relay: usize,
        caller: usize,
        trial: InstructionRecord,
        lead: Option<InstructionRecord>,
    ) {
        for number in 0..self.sheet.procedures.len() {
            let mut writer = Writer::new(self.random, &self.sheet, &self.typing, number);
            let body = match number {
                number if (1..relay).contains(&number) => writer.maker(),
                number => {
                    writer.start();
                    let made = if number == caller { Some(trial) } else { None };
                    let made = made.or(lead.filter(|_| number == 0));
                    made.into_iter().for_each(|call| writer.lead_to(call));
                    writer.leave_by_chance();
                    writer.body
                }
            };
            self.sheet.procedures[number].instructions = body;
        }
    }
}

impl Writer<'_> {
    /// Fills most of the actuals and makes the call.
    fn lead_to(&mut self, made: InstructionRecord) {
        let callee = &self.chooser.sheet.procedures[usize::from(made.k)];
        for number in 0..callee.head.formals {
            if !self.chooser.random.one_in(8) {
                self.produce(made.b + number);
            }
        }
        self.emit(made);
    }
}
