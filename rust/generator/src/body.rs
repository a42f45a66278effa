//! Bodies of procedures in which every instruction keeps the access rules.

use crate::operations::{
    add, bind, call, fetch, get_slot, give_back, jump_if_zero, leave, less, new_array, new_record,
    put, set, set_slot, size, store, subtract, take,
};
use crate::random::Random;
use crate::reading::{Scope, Spelled};
use crate::records::{InstructionRecord, TypeRecord, FETCH, NONE, OPEN, SIZE, STORE};
use crate::sheet::Procedure;
use crate::typing::{Movement, Typing};

/// Writes the instructions of one procedure.
pub struct Writer<'a> {
    pub random: &'a mut Random,
    pub typing: &'a Typing,
    pub types: &'a [TypeRecord],
    pub procedures: &'a [Procedure],
    pub number: usize,
    pub length: usize,
}

impl Writer<'_> {
    pub fn body(&mut self) -> Vec<InstructionRecord> {
        let mut body: Vec<InstructionRecord> =
            (1..self.length).map(|_| self.instruction()).collect();
        body.push(self.leaving());
        body
    }

    /// An instruction of a random code for which fitting operands are found;
    /// a return always is.
    pub fn instruction(&mut self) -> InstructionRecord {
        for _ in 0..20 {
            let code = self.random.between(1, 17) as u8;
            if let Some(instruction) = self.attempt(code) {
                return instruction;
            }
        }
        self.leaving()
    }

    fn attempt(&mut self, code: u8) -> Option<InstructionRecord> {
        let instruction = match code {
            1 => set(self.integer()?, self.random.word() as u16),
            2 => add(self.integer()?, self.integer()?, self.integer()?),
            3 => subtract(self.integer()?, self.integer()?, self.integer()?),
            4 => less(self.integer()?, self.integer()?, self.integer()?),
            5 => jump_if_zero(self.integer()?, self.random.below(self.length) as u16),
            6 => return self.second_name().or_else(|| self.bind()),
            7 => take(self.integer()?),
            8 => put(self.integer()?),
            9..=12 => return self.array_instruction(code),
            13..=15 => return self.record_instruction(code),
            16 => return self.call(),
            _ => self.leaving(),
        };
        Some(instruction)
    }

    fn bind(&mut self) -> Option<InstructionRecord> {
        let b = self.variable(|_, _| true)?;
        Some(bind(self.receiver(self.inner(b))?, b))
    }

    /// Binds an array to a variable that asks for less of its elements.
    fn second_name(&mut self) -> Option<InstructionRecord> {
        let b = self.array(0)?;
        let (source, bound) = (self.inner(b), self.procedure().bound);
        let a = self.variable(|typing, inner| Scope { typing, bound }.widens(source, inner))?;
        Some(bind(a, b))
    }

    fn array_instruction(&mut self, code: u8) -> Option<InstructionRecord> {
        let instruction = match code {
            9 => new_array(self.array(0)?, self.integer()?),
            10 => {
                let b = self.array(FETCH)?;
                let a = self.receiver(self.element(b))?;
                fetch(a, b, self.integer()?)
            }
            11 => {
                let a = self.array(STORE)?;
                let c = self.giver(self.element(a))?;
                store(a, self.integer()?, c)
            }
            _ => size(self.integer()?, self.array(SIZE)?),
        };
        Some(instruction)
    }

    fn record_instruction(&mut self, code: u8) -> Option<InstructionRecord> {
        let owner = usize::from(self.procedure().head.owner);
        let slots = self.types.get(owner.checked_sub(2)?)?.used_slots();
        if code == 13 {
            return Some(new_record(self.owned(0)?));
        }
        let record = self.owned(OPEN)?;
        let slot = self.random.below(slots.len().max(1));
        let slot_type = *slots.get(slot)?;
        let instruction = match code {
            14 => get_slot(self.receiver(slot_type)?, record, slot as u16),
            _ => set_slot(record, self.giver(slot_type)?, slot as u16),
        };
        Some(instruction)
    }

    fn call(&mut self) -> Option<InstructionRecord> {
        let number = self.random.below(self.procedures.len());
        let callee = &self.procedures[number];
        let (first, result) = self.actuals(callee)?;
        let kept = match result {
            Some(result) if !self.random.one_in(4) => self.keeper(&result)?,
            _ => NONE,
        };
        Some(call(kept, first, number as u16))
    }

    /// The first of consecutive variables with which the procedure can be
    /// called, and what its result is then.
    fn actuals(&mut self, callee: &Procedure) -> Option<(u8, Option<Spelled>)> {
        let scope = self.scope();
        let formals = callee.formals().len();
        if formals == 0 {
            return scope.call(callee, &[]).map(|result| (NONE, result));
        }
        let variables = &self.procedure().variables;
        let inners: Vec<u8> = variables.iter().map(|variable| variable.inner).collect();
        let calls: Vec<(u8, Option<Spelled>)> = inners
            .windows(formals)
            .zip(0..)
            .filter_map(|(actuals, first)| scope.call(callee, actuals).map(|call| (first, call)))
            .collect();
        let numbers: Vec<usize> = (0..calls.len()).collect();
        self.random.pick(&numbers).map(|at| calls[at].clone())
    }

    /// A variable that can keep a result.
    fn keeper(&mut self, result: &Spelled) -> Option<u8> {
        let bound = self.procedure().bound;
        self.variable(|typing, inner| {
            let kept = Scope { typing, bound }.spelled(inner);
            result.movement(&kept) == Movement::Fits
        })
    }

    /// The types as the procedure reads them.
    fn scope(&self) -> Scope<'_> {
        Scope {
            typing: self.typing,
            bound: self.procedure().bound,
        }
    }

    fn leaving(&mut self) -> InstructionRecord {
        match self.procedure().head.result {
            NONE => leave(),
            result => give_back(self.giver(result).unwrap_or(NONE)),
        }
    }

    fn procedure(&self) -> &Procedure {
        &self.procedures[self.number]
    }

    fn inner(&self, variable: u8) -> u8 {
        self.procedure().variables[usize::from(variable)].inner
    }

    fn element(&self, variable: u8) -> u8 {
        self.typing.get(self.inner(variable)).element
    }

    /// A variable whose type passes the test.
    fn variable(&mut self, test: impl Fn(&Typing, u8) -> bool) -> Option<u8> {
        let count = self.procedure().variables.len() as u8;
        let passing: Vec<u8> = (0..count)
            .filter(|&variable| test(self.typing, self.inner(variable)))
            .collect();
        self.random.pick(&passing)
    }

    fn integer(&mut self) -> Option<u8> {
        self.variable(|typing, inner| typing.is_integer(inner))
    }

    fn array(&mut self, rights: u32) -> Option<u8> {
        self.variable(|typing, inner| typing.is_array_with(inner, rights))
    }

    /// A variable of the owner's type with the rights.
    fn owned(&mut self, rights: u32) -> Option<u8> {
        let owner = self.procedure().head.owner;
        self.variable(|typing, inner| {
            let record = typing.get(inner);
            record.base == owner && record.rights & rights == rights
        })
    }

    fn receiver(&mut self, source: u8) -> Option<u8> {
        let bound = self.procedure().bound;
        self.variable(|typing, inner| Scope { typing, bound }.fits(source, inner))
    }

    fn giver(&mut self, destination: u8) -> Option<u8> {
        let bound = self.procedure().bound;
        self.variable(|typing, inner| Scope { typing, bound }.fits(inner, destination))
    }
}
