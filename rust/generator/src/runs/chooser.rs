//! What a body knows of the variables of its procedure.

use super::program::CONTROL;
use crate::random::Random;
use crate::reading::Scope;
use crate::records::GENERIC;
use crate::sheet::{Procedure, Sheet};
use crate::typing::Typing;

/// What is known of a variable at a place of the body.
#[derive(Clone, Copy, PartialEq, Eq)]
pub enum Fill {
    /// Perhaps blank.
    Unknown,
    Filled,
    /// Filled with an array of this size.
    Sized(u16),
}

/// The variables of one procedure.
pub struct Chooser<'a> {
    pub random: &'a mut Random,
    pub sheet: &'a Sheet,
    pub typing: &'a Typing,
    pub number: usize,
    pub fills: Vec<Fill>,
}

impl<'a> Chooser<'a> {
    pub fn procedure(&self) -> &'a Procedure {
        &self.sheet.procedures[self.number]
    }

    pub fn inner(&self, variable: u8) -> u8 {
        self.procedure().variables[usize::from(variable)].inner
    }

    pub fn fill(&self, variable: u8) -> Fill {
        self.fills[usize::from(variable)]
    }

    pub fn set_fill(&mut self, variable: u8, fill: Fill) {
        self.fills[usize::from(variable)] = fill;
    }

    /// One of the variables that a body has for itself.
    pub fn control(&self, which: u8) -> u8 {
        self.procedure().head.formals + which
    }

    fn is_control(&self, variable: u8) -> bool {
        let first = usize::from(self.procedure().head.formals);
        (first..first + CONTROL).contains(&usize::from(variable))
    }

    /// A variable that is free to be used and passes the test, rather one
    /// that is filled.
    pub fn variable(&mut self, test: impl Fn(&Typing, u8) -> bool) -> Option<u8> {
        let count = self.procedure().variables.len() as u8;
        let passing: Vec<u8> = (0..count)
            .filter(|&v| !self.is_control(v) && test(self.typing, self.inner(v)))
            .collect();
        let filled: Vec<u8> = passing
            .iter()
            .copied()
            .filter(|&v| self.fill(v) != Fill::Unknown)
            .collect();
        match self.random.one_in(2) {
            true => self.random.pick(&filled),
            false => None,
        }
        .or_else(|| self.random.pick(&passing))
    }

    /// A filled variable that is ?R itself.
    pub fn filled_generic(&mut self) -> Option<u8> {
        let count = self.procedure().variables.len() as u8;
        let filled: Vec<u8> = (0..count)
            .filter(|&v| self.fill(v) != Fill::Unknown)
            .filter(|&v| self.typing.get(self.inner(v)).base == GENERIC)
            .collect();
        self.random.pick(&filled)
    }

    /// An integer variable; the last of the body's own if there is no other.
    pub fn integer(&mut self) -> u8 {
        let free = self.variable(|typing, inner| typing.is_integer(inner));
        free.unwrap_or(self.control(CONTROL as u8 - 1))
    }

    pub fn array(&mut self, rights: u32) -> Option<u8> {
        self.variable(|typing, inner| typing.is_array_with(inner, rights))
    }

    /// A variable of the owner's type with the rights.
    pub fn owned(&mut self, rights: u32) -> Option<u8> {
        let owner = self.procedure().head.owner;
        self.variable(|typing, inner| {
            let record = typing.get(inner);
            owner >= 2 && record.base == owner && record.rights & rights == rights
        })
    }

    pub fn receiver(&mut self, source: u8) -> Option<u8> {
        match self.typing.is_integer(source) {
            true => Some(self.integer()),
            false => {
                let bound = self.procedure().bound;
                self.variable(|typing, inner| Scope { typing, bound }.fits(source, inner))
            }
        }
    }

    /// An array variable to which one of the type moves, with other elements.
    pub fn widened(&mut self, source: u8) -> Option<u8> {
        let bound = self.procedure().bound;
        self.variable(|typing, inner| Scope { typing, bound }.widens(source, inner))
    }

    pub fn giver(&mut self, destination: u8) -> Option<u8> {
        match self.typing.is_integer(destination) {
            true => Some(self.integer()),
            false => {
                let bound = self.procedure().bound;
                self.variable(|typing, inner| Scope { typing, bound }.fits(inner, destination))
            }
        }
    }

    pub fn element(&self, array: u8) -> u8 {
        self.typing.get(self.inner(array)).element
    }

    /// The types of the slots of the owner's type.
    pub fn owner_slots(&self) -> &'a [u8] {
        match self.procedure().head.owner {
            0 => &[],
            owner => self.sheet.types[usize::from(owner) - 2].used_slots(),
        }
    }

    /// The procedure that makes records of the base, where a body may call it:
    /// makers call only makers of later types, so that they come to an end.
    pub fn maker(&self, base: u8) -> Option<usize> {
        let maker = usize::from(base) - 1;
        let makers = self.sheet.types.len();
        let in_maker = (1..=makers).contains(&self.number);
        (maker <= makers && (!in_maker || maker > self.number)).then_some(maker)
    }

    pub fn small(&mut self) -> u16 {
        match self.random.below(12) {
            0 => self.random.word() as u16,
            _ => self.random.below(5) as u16,
        }
    }
}
