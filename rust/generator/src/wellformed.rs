//! Sheets whose layout is right; whether the access rules hold is chance.

use crate::accepted::accepted;
use crate::random::Random;
use crate::records::{
    named_rights, BoundRecord, InstructionRecord, QualifiedRecord, VariableRecord, ARRAY_ALL,
    GENERIC, NONE, OPEN,
};
use crate::second_edition::in_either_edition;
use crate::sheet::{At, Procedure, Sheet, SheetBuilder};
use crate::typing::Typing;

/// Either fields drawn at random within the layout, or an accepted sheet with
/// a few fields drawn anew.
pub fn wellformed(random: &mut Random) -> Sheet {
    if random.one_in(2) {
        let mut sheet = Chance::new(random).sheet();
        in_either_edition(random, &mut sheet);
        return sheet;
    }
    let mut sheet = accepted(random);
    for _ in 0..random.between(1, 4) {
        redraw(random, &mut sheet);
    }
    sheet
}

/// Draws whole sheets. The rarer open and unequal needs are, the further into
/// a sheet a checker gets.
struct Chance<'a> {
    random: &'a mut Random,
    open_rarity: usize,
    unequal_rarity: usize,
}

impl<'a> Chance<'a> {
    fn new(random: &'a mut Random) -> Self {
        let open_rarity = [2, 10, 1000][random.below(3)];
        let unequal_rarity = [2, 10, 1000][random.below(3)];
        Chance {
            random,
            open_rarity,
            unequal_rarity,
        }
    }

    fn sheet(mut self) -> Sheet {
        let types = self.random.below(4);
        let qualified = self.random.below(8);
        let procedures = self.random.between(1, 4);
        let counts: Vec<u8> = (0..types).map(|_| self.random.below(16) as u8).collect();
        let mut typing = Typing::of(&[]);
        for number in 0..qualified {
            typing.push(self.qualified(&counts, number));
        }
        let mut builder = SheetBuilder::new();
        for &named in &counts {
            let slots: Vec<u8> = (0..self.random.below(9))
                .filter_map(|_| self.named(&typing, None))
                .collect();
            builder = builder.record_type(named, &slots);
        }
        builder = typing
            .all()
            .fold(builder, |builder, n| builder.qualified(typing.get(n)));
        let mut sheet = builder.build();
        sheet.procedures = (0..procedures)
            .map(|number| self.procedure(&counts, &typing, number == 0))
            .collect();
        for number in 0..procedures {
            let body = self.body(&sheet, number);
            sheet.procedures[number].instructions = body;
        }
        sheet.seal();
        sheet
    }

    fn qualified(&mut self, counts: &[u8], number: usize) -> QualifiedRecord {
        let base = self.random.below(counts.len() + 2);
        match base {
            1 if number > 0 => {
                let rights = self.random.word() as u32 & ARRAY_ALL;
                QualifiedRecord::array(self.random.below(number) as u8, rights)
            }
            0 | 1 if self.random.one_in(3) => QualifiedRecord::GENERIC,
            0 | 1 => QualifiedRecord::INTEGER,
            _ => {
                let named = named_rights(counts[base - 2]);
                let mut rights = self.random.word() as u32 & named;
                if self.random.one_in(self.open_rarity) {
                    rights |= OPEN;
                }
                QualifiedRecord::record(base as u8, rights)
            }
        }
    }

    /// A type that may be named with the bound or without one.
    fn named(&mut self, typing: &Typing, bound: Option<BoundRecord>) -> Option<u8> {
        let all: Vec<u8> = typing
            .all()
            .filter(|&number| bound.is_some() || !typing.uses_generic(number))
            .collect();
        self.random.pick(&all)
    }

    /// A rights name on one of the types.
    fn bound(&mut self, counts: &[u8]) -> Option<BoundRecord> {
        let numbers: Vec<usize> = (0..counts.len()).collect();
        let of = self.random.pick(&numbers)?;
        let base = of as u8 + 2;
        let least = chance_least(self.random, counts[of]);
        self.random.one_in(2).then_some(BoundRecord { base, least })
    }

    fn procedure(&mut self, counts: &[u8], typing: &Typing, is_main: bool) -> Procedure {
        let mut procedure = Procedure::main();
        if !is_main {
            let owner = self.random.below(counts.len() + 1) as u8;
            procedure.head.owner = if owner == 0 { 0 } else { owner + 1 };
            procedure.bound = self.bound(counts);
        }
        let bound = procedure.bound;
        if !is_main && self.random.one_in(2) {
            procedure.head.result = self.named(typing, bound).unwrap_or(NONE);
        }
        let formals = if is_main { 0 } else { self.random.below(4) };
        for _ in 0..formals {
            let drawn = [self.named(typing, bound), self.named(typing, bound)];
            let [Some(inner), Some(other)] = drawn else {
                break;
            };
            let need = match self.random.one_in(self.unequal_rarity) {
                true => other,
                false => inner,
            };
            procedure = procedure.formal(inner, need);
        }
        for _ in 0..self.random.below(5) {
            let inner = self.named(typing, bound);
            procedure = procedure.variables(inner.as_slice());
        }
        procedure
    }

    fn body(&mut self, sheet: &Sheet, number: usize) -> Vec<InstructionRecord> {
        let length = self.random.between(1, 6);
        let mut body = Vec::new();
        while body.len() + 1 < length {
            let code = self.random.between(1, 17) as u8;
            body.extend(instruction(self.random, sheet, number, length, code));
        }
        body.extend(instruction(self.random, sheet, number, length, 17));
        body
    }
}

/// A random instruction of the code whose fields are within the layout, if
/// the procedure allows one.
fn instruction(
    random: &mut Random,
    sheet: &Sheet,
    number: usize,
    length: usize,
    code: u8,
) -> Option<InstructionRecord> {
    let procedure = &sheet.procedures[number];
    let all: Vec<u8> = (0..procedure.variables.len() as u8).collect();
    let some = |random: &mut Random, used: bool| match used {
        true => random.pick(&all),
        false => Some(NONE),
    };
    let a_used = !matches!(code, 16 | 17) || random.one_in(2) && !all.is_empty();
    let a = some(random, a_used)?;
    let mut b = some(random, matches!(code, 2..=4 | 6 | 9..=12 | 14 | 15))?;
    let c = some(random, matches!(code, 2..=4 | 10 | 11))?;
    let owner = usize::from(procedure.head.owner);
    let declared = owner.checked_sub(2).and_then(|of| sheet.types.get(of));
    let k = match code {
        1 => random.word() as u16,
        5 => random.below(length) as u16,
        13 => declared.map(|_| 0)?,
        14 | 15 => {
            let slots: Vec<u16> = (0..u16::from(declared?.slot_count)).collect();
            random.pick(&slots)?
        }
        16 => {
            let callee = random.below(sheet.procedures.len());
            b = first_actual(random, sheet, callee, all.len())?;
            callee as u16
        }
        _ => 0,
    };
    Some(InstructionRecord { code, a, b, c, k })
}

fn first_actual(random: &mut Random, sheet: &Sheet, callee: usize, variables: usize) -> Option<u8> {
    match usize::from(sheet.procedures[callee].head.formals) {
        0 => Some(NONE),
        formals => {
            let last = variables.checked_sub(formals)?;
            Some(random.between(0, last) as u8)
        }
    }
}

/// A least set: few of so many named rights.
fn chance_least(random: &mut Random, count: u8) -> u32 {
    random.word() as u32 & random.word() as u32 & named_rights(count)
}

/// Draws one field of the sheet anew, within the layout: ?R stays out of slots
/// and of procedures without a GN.
pub fn redraw(random: &mut Random, sheet: &mut Sheet) {
    let records = sheet.records();
    let typing = Typing::of(&sheet.qualified);
    let at = records[random.below(records.len())];
    let bound = match at {
        At::Procedure(number) | At::Variable(number, _) => sheet.procedures[number].bound,
        _ => None,
    };
    let named = typing.all();
    let named: Vec<u8> = named
        .filter(|&number| bound.is_some() || !typing.uses_generic(number))
        .collect();
    let drawn = random.pick(&named);
    match (at, drawn) {
        (At::Type(number), Some(drawn)) => {
            let record = &mut sheet.types[number];
            if record.slot_count > 0 {
                let slot = random.below(usize::from(record.slot_count));
                record.slots[slot] = drawn;
            }
        }
        (At::Qualified(number), _) => redraw_qualified(random, sheet, &typing, number),
        (At::Procedure(number), drawn) if number > 0 => {
            let none = random.one_in(4);
            let result = drawn.filter(|_| !none).unwrap_or(NONE);
            sheet.procedures[number].head.result = result;
        }
        (At::Bound(number), _) => redraw_bound(random, sheet, number),
        (At::Variable(number, variable), Some(drawn)) => {
            let record = &mut sheet.procedures[number].variables[variable];
            redraw_variable(random, record, drawn);
        }
        (At::Instruction(number, position), _) => {
            redraw_instruction(random, sheet, number, position)
        }
        _ => {}
    }
}

fn redraw_variable(random: &mut Random, record: &mut VariableRecord, drawn: u8) {
    match record.need != NONE && random.one_in(2) {
        true => record.need = drawn,
        false => record.inner = drawn,
    }
}

/// The base or the least set of a rights name.
fn redraw_bound(random: &mut Random, sheet: &mut Sheet, number: usize) {
    let of = random.below(sheet.types.len());
    let base = of as u8 + 2;
    let least = chance_least(random, sheet.types[of].named_rights);
    sheet.procedures[number].bound = Some(BoundRecord { base, least });
}

/// Rights or an element; where ?R stood one stands again.
fn redraw_qualified(random: &mut Random, sheet: &mut Sheet, typing: &Typing, number: usize) {
    let record = sheet.qualified[number];
    let mask = match record.base {
        0 | GENERIC => 0,
        1 => ARRAY_ALL,
        of => OPEN | named_rights(sheet.types[usize::from(of) - 2].named_rights),
    };
    let target = &mut sheet.qualified[number];
    if record.base == 1 && random.one_in(2) {
        let uses = typing.uses_generic(number as u8);
        let elements = (0..number as u8).filter(|&n| typing.uses_generic(n) == uses);
        let elements: Vec<u8> = elements.collect();
        target.element = random.pick(&elements).unwrap_or(record.element);
    } else {
        target.rights = random.word() as u32 & mask;
    }
}

fn redraw_instruction(random: &mut Random, sheet: &mut Sheet, number: usize, position: usize) {
    let length = sheet.procedures[number].instructions.len();
    let old = sheet.procedures[number].instructions[position];
    let code = match position + 1 == length {
        true => 17,
        // The same code with other operands, or another code.
        false if random.one_in(2) => old.code,
        false => random.between(1, 17) as u8,
    };
    if let Some(new) = instruction(random, sheet, number, length, code) {
        sheet.procedures[number].instructions[position] = new;
    }
}
