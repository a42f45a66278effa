//! Well-formed sheets that lead up to one instruction on operands whose types
//! are often wrong and which are sometimes blank, for the watched machine.
//!
//! Main fills the actuals and calls the procedure on trial; that one fills
//! its operands and comes to the instruction, which may be a call of a third
//! procedure. An array of chance size before it makes the memory tight.

use super::program::{with_base, Author, CONTROL, INTEGER};
use super::writer::Writer;
use crate::operations::call;
use crate::random::Random;
use crate::records::{
    InstructionRecord, QualifiedRecord, TypeRecord, VariableRecord, ARRAY_ALL, NONE,
};
use crate::sheet::{Procedure, Sheet};

/// A sheet with a code on trial.
pub fn trial(random: &mut Random, code: u8) -> Sheet {
    let mut author = Author::new(random);
    author.give_slots();
    author.declare_makers();
    let ints = author.add(QualifiedRecord::array(INTEGER, ARRAY_ALL));
    let number = author.sheet.procedures.len();
    let subject = author.procedure(matches!(code, 13..=15), 1);
    author.sheet.procedures.push(subject);
    let callee = author.procedure(false, 3);
    author.sheet.procedures.push(callee);
    for procedure in [0, number, number + 1] {
        author.add_variables(procedure, &[INTEGER; CONTROL]);
        author.add_variables(procedure, &[ints]);
    }
    let arguments = author.call_operands(0, number, ints);
    let operands = match code {
        16 => author.call_operands(number, number + 1, ints),
        _ => author.operands(number, code, ints),
    };
    for (body_of, body) in author.bodies(number, arguments, operands) {
        author.sheet.procedures[body_of].instructions = body;
    }
    author.finished()
}

/// The instruction on trial and its operands, which are consecutive variables;
/// those for their filling come after them.
#[derive(Clone, Copy)]
pub(super) struct Operands {
    pub instruction: InstructionRecord,
    pub first: u8,
    pub count: u8,
}

impl Author<'_> {
    /// Sees to it that every type has a slot.
    fn give_slots(&mut self) {
        for declared in &mut self.sheet.types {
            if declared.slot_count == 0 {
                *declared = TypeRecord::new(declared.named_rights, &[INTEGER]);
            }
        }
    }

    fn any(&mut self) -> u8 {
        self.random.below(self.typing.count()) as u8
    }

    fn of_base(&mut self, base: u8) -> u8 {
        let all = self.typing.all();
        let of_base: Vec<u8> = all.filter(|&n| self.typing.get(n).base == base).collect();
        self.random.pick(&of_base).unwrap_or(INTEGER)
    }

    /// The type itself, one of the same base, or any.
    fn near(&mut self, number: u8) -> u8 {
        match self.random.below(8) {
            0..=3 => number,
            4..=6 => self.of_base(self.typing.get(number).base),
            _ => self.any(),
        }
    }

    /// A type of the base, or any.
    fn mostly(&mut self, base: u8) -> u8 {
        match self.random.below(5) {
            0 => self.any(),
            _ => self.of_base(base),
        }
    }

    fn procedure(&mut self, owned: bool, most_formals: usize) -> Procedure {
        let types = self.sheet.types.len();
        let owner = match owned || self.random.one_in(2) {
            true => self.random.below(types) as u8 + 2,
            false => 0,
        };
        let result = match self.random.one_in(3) {
            true => NONE,
            false => self.any(),
        };
        let mut procedure = Procedure::new(owner, result);
        for _ in 0..self.random.below(most_formals + 1) {
            let inner = match owner >= 2 && self.random.one_in(2) {
                true => self.of_base(owner),
                false => self.any(),
            };
            let need = self.near(inner);
            procedure = procedure.formal(inner, need);
        }
        procedure
    }

    /// A call with actuals near the needs, and a result that is kept if there
    /// is one, by chance if there is none.
    fn call_operands(&mut self, number: usize, callee: usize, ints: u8) -> Operands {
        let head = self.sheet.procedures[callee].head.clone();
        let formals = usize::from(head.formals);
        let needs: Vec<VariableRecord> =
            self.sheet.procedures[callee].variables[..formals].to_vec();
        let mut inners: Vec<u8> = needs.iter().map(|formal| self.near(formal.need)).collect();
        let first = self.sheet.procedures[number].variables.len() as u8;
        let kept = match (head.result, self.random.below(8)) {
            (_, 0) => NONE,
            (NONE, 1) => INTEGER,
            (NONE, _) => NONE,
            (result, _) => self.near(result),
        };
        let a = match kept {
            NONE => NONE,
            kept => {
                inners.push(kept);
                first + formals as u8
            }
        };
        let b = if formals == 0 { NONE } else { first };
        self.with_fillers(number, &inners, &inners, ints);
        Operands {
            instruction: call(a, b, callee as u16),
            first,
            count: inners.len() as u8,
        }
    }

    /// Adds the operands and the variables for their filling: an array, for
    /// the first of some of them that is one, a cell of it, and an opened
    /// record.
    fn with_fillers(&mut self, number: usize, inners: &[u8], rather: &[u8], ints: u8) {
        let owner = self.sheet.procedures[number].head.owner;
        self.add_variables(number, inners);
        let array = rather
            .iter()
            .copied()
            .find(|&n| self.typing.get(n).base == 1);
        let array = array.unwrap_or(ints);
        let element = self.typing.get(array).element;
        let opened = match owner {
            0 => INTEGER,
            owner => with_base(&self.typing, owner, true),
        };
        let full = self.add(QualifiedRecord::array(element, ARRAY_ALL));
        self.add_variables(number, &[full, element, opened]);
    }

    /// The operands of a code on trial, mostly of the kinds that it takes.
    fn operands(&mut self, number: usize, code: u8, ints: u8) -> Operands {
        let owner = self.sheet.procedures[number].head.owner;
        let (mut slot, mut slot_type) = (0, INTEGER);
        if (14..=15).contains(&code) {
            let slots = self.sheet.types[usize::from(owner) - 2].used_slots();
            slot = self.random.below(slots.len());
            slot_type = slots[slot];
        }
        let inners = self.operand_types(number, code, slot_type);
        let first = self.sheet.procedures[number].variables.len() as u8;
        // What is bound or fetched from is to be filled rather than a.
        let rather = match code {
            6 | 10 => &inners[1..],
            _ => &inners[..],
        };
        self.with_fillers(number, &inners, rather, ints);
        self.add_variables(number, &[slot_type]);
        let fields = inners.iter().zip(first..).map(|(_, variable)| variable);
        let mut fields = fields.chain([NONE; 3]);
        let [a, b, c] = [(); 3].map(|()| fields.next().unwrap_or(NONE));
        let k = slot as u16;
        Operands {
            instruction: InstructionRecord { code, a, b, c, k },
            first,
            count: inners.len() as u8,
        }
    }

    fn operand_types(&mut self, number: usize, code: u8, slot_type: u8) -> Vec<u8> {
        let head = self.sheet.procedures[number].head.clone();
        match code {
            2..=4 => (0..3).map(|_| self.mostly(0)).collect(),
            6 => {
                let b = self.any();
                vec![self.near(b), b]
            }
            9 => vec![self.mostly(1), self.mostly(0)],
            10 => {
                let b = self.mostly(1);
                let a = self.near_element(b);
                vec![a, b, self.mostly(0)]
            }
            11 => {
                let a = self.mostly(1);
                let c = self.near_element(a);
                vec![a, self.mostly(0), c]
            }
            12 => vec![self.mostly(0), self.mostly(1)],
            13 => vec![self.mostly(head.owner)],
            14 => vec![self.near(slot_type), self.mostly(head.owner)],
            15 => vec![self.mostly(head.owner), self.near(slot_type)],
            17 => match head.result {
                NONE if self.random.one_in(2) => Vec::new(),
                NONE => vec![self.any()],
                result => vec![self.near(result)],
            },
            _ => vec![self.mostly(0)],
        }
    }

    fn near_element(&mut self, array: u8) -> u8 {
        match self.typing.get(array).element {
            NONE => self.any(),
            element => self.near(element),
        }
    }

    /// The bodies of all procedures, by number.
    fn bodies(
        &mut self,
        number: usize,
        arguments: Operands,
        operands: Operands,
    ) -> Vec<(usize, Vec<InstructionRecord>)> {
        let mut bodies = Vec::new();
        for maker in 1..number {
            let mut writer = Writer::new(self.random, &self.sheet, &self.typing, maker);
            bodies.push((maker, writer.maker()));
        }
        for (procedure, trial) in [
            (0, Some(arguments)),
            (number, Some(operands)),
            (number + 1, None),
        ] {
            let mut writer = Writer::new(self.random, &self.sheet, &self.typing, procedure);
            writer.start();
            if let Some(trial) = trial {
                writer.tight();
                writer.fill_operands(trial);
                writer.emit(trial.instruction);
            }
            writer.leave_by_chance();
            bodies.push((procedure, writer.body));
        }
        bodies
    }
}
