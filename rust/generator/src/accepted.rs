//! Accepted sheets, built so that every access rule holds.
//!
//! First types, qualified types and the heads of procedures are made, then
//! variables that give the instructions something to work on, then bodies in
//! which each instruction is chosen among those whose operands fit.

use crate::body::Writer;
use crate::random::Random;
use crate::reading::Scope;
use crate::records::{
    named_rights, BoundRecord, QualifiedRecord, TypeRecord, VariableRecord, ARRAY_ALL, NONE, OPEN,
    STORE,
};
use crate::second_edition::in_either_edition;
use crate::sheet::{Procedure, Sheet, SheetBuilder};
use crate::typing::Typing;

const MAX_VARIABLES: usize = 32;

/// The most records of each kind that a sheet may get.
#[derive(Clone, Copy)]
pub struct Room {
    pub types: usize,
    pub qualified: usize,
    pub procedures: usize,
    pub instructions: usize,
}

impl Room {
    /// The limits of document 01.
    pub const WHOLE: Room = Room {
        types: 32,
        qualified: 64,
        procedures: 64,
        instructions: 1000,
    };
}

/// An accepted sheet; now and then a count is the largest that is allowed.
pub fn accepted(random: &mut Random) -> Sheet {
    accepted_within(random, Room::WHOLE)
}

pub fn accepted_within(random: &mut Random, room: Room) -> Sheet {
    let mut sheet = in_first_edition(random, room);
    in_either_edition(random, &mut sheet);
    sheet
}

/// An accepted sheet of edition 1.
pub fn in_first_edition(random: &mut Random, room: Room) -> Sheet {
    let mut author = Author {
        random,
        sheet: SheetBuilder::new().build(),
        typing: Typing::of(&[]),
        generic: None,
    };
    author.declare_types(room.types);
    author.declare_qualified(room.qualified);
    author.declare_generics(room.qualified);
    author.fill_slots();
    author.declare_procedures(room.procedures);
    author.add_variables();
    author.write_bodies(room.instructions);
    author.sheet.seal();
    author.sheet
}

struct Author<'a> {
    random: &'a mut Random,
    sheet: Sheet,
    typing: Typing,
    /// The bound that some qualified types are made for.
    generic: Option<BoundRecord>,
}

impl Author<'_> {
    /// Usually a small count, rarely the largest.
    fn count(&mut self, usual: usize, largest: usize, rarely: usize) -> usize {
        if self.random.one_in(rarely) {
            largest
        } else {
            self.random.between(0, usual.min(largest))
        }
    }

    fn declare_types(&mut self, largest: usize) {
        for _ in 0..self.count(4, largest, 40) {
            let named_rights = self.count(5, 15, 4) as u8;
            self.sheet.types.push(TypeRecord::new(named_rights, &[]));
        }
    }

    fn declare_qualified(&mut self, largest: usize) {
        for _ in 0..self.count(18, largest, 40) {
            let record = self.qualified();
            self.add(record);
        }
    }

    /// ?R and two sets of rights on its base, each alone, in an array and in
    /// an array of arrays.
    fn declare_generics(&mut self, largest: usize) {
        let full = self.typing.count() + 9 > largest;
        if full || self.sheet.types.is_empty() || self.random.one_in(3) {
            return;
        }
        let of = self.random.below(self.sheet.types.len());
        let (base, named) = (of as u8 + 2, self.named_rights(of));
        let low = self.random.word() as u32 & named;
        let more = low | self.random.word() as u32 & named;
        let least = low & self.random.word() as u32;
        self.generic = Some(BoundRecord { base, least });
        let sets = [low, more].map(|rights| QualifiedRecord::record(base, rights));
        for leaf in [QualifiedRecord::GENERIC, sets[0], sets[1]] {
            self.add(leaf);
            for _ in 0..2 {
                let element = self.typing.count() as u8 - 1;
                self.add(QualifiedRecord::array(element, ARRAY_ALL));
            }
        }
    }

    fn add(&mut self, record: QualifiedRecord) {
        self.sheet.qualified.push(record);
        self.typing.push(record);
    }

    /// The named rights of a declared type.
    fn named_rights(&self, of: usize) -> u32 {
        named_rights(self.sheet.types[of].named_rights)
    }

    fn qualified(&mut self) -> QualifiedRecord {
        let closed = self.typing.closed();
        let element = self.random.pick(&closed);
        match (self.random.below(10), element) {
            (0, Some(original)) if self.typing.is_array_with(original, 0) => self.reader(original),
            (1, _) if self.random.one_in(4) => QualifiedRecord::GENERIC,
            (2 | 3, Some(original)) => self.twin(original),
            (4..=6, Some(element)) => QualifiedRecord::array(element, self.array_rights()),
            (7.., _) if !self.sheet.types.is_empty() => self.record(),
            _ => QualifiedRecord::INTEGER,
        }
    }

    /// An array without store that asks for less of its elements than another
    /// one has, if there is such an element.
    fn reader(&mut self, original: u8) -> QualifiedRecord {
        let QualifiedRecord {
            rights, element, ..
        } = self.typing.get(original);
        let closed = self.typing.closed().into_iter();
        let less = closed.filter(|&n| !self.typing.equal(element, n));
        let less: Vec<u8> = less.filter(|&n| self.typing.fits(element, n)).collect();
        let element = self.random.pick(&less).unwrap_or(element);
        QualifiedRecord::array(element, rights & !STORE)
    }

    fn array_rights(&mut self) -> u32 {
        if self.random.one_in(2) {
            ARRAY_ALL
        } else {
            self.random.word() as u32 & ARRAY_ALL
        }
    }

    fn record(&mut self) -> QualifiedRecord {
        let of = self.random.below(self.sheet.types.len());
        let mut named = self.random.word() as u32 & self.named_rights(of);
        if self.random.one_in(3) {
            named |= OPEN;
        }
        QualifiedRecord::record(of as u8 + 2, named)
    }

    /// Another record equal to the original, perhaps over another element
    /// record.
    fn twin(&mut self, original: u8) -> QualifiedRecord {
        let mut record = self.typing.get(original);
        if record.base == 1 {
            record.element = self.equal_to(record.element);
        }
        record
    }

    fn equal_to(&mut self, number: u8) -> u8 {
        let all = self.typing.all();
        let equal: Vec<u8> = all.filter(|&n| self.typing.equal(n, number)).collect();
        self.random.pick(&equal).unwrap_or(number)
    }

    fn fill_slots(&mut self) {
        let plain = self.typing.plain();
        if plain.is_empty() {
            return;
        }
        for number in 0..self.sheet.types.len() {
            let count = self.count(4, 8, 5);
            let slots: Vec<u8> = (0..count)
                .filter_map(|_| self.random.pick(&plain))
                .collect();
            let named_rights = self.sheet.types[number].named_rights;
            self.sheet.types[number] = TypeRecord::new(named_rights, &slots);
        }
    }

    fn declare_procedures(&mut self, largest: usize) {
        self.sheet.procedures.push(Procedure::main());
        for _ in 0..self.count(4, largest - 1, 100) {
            let owner = self.owner();
            let bound = self.bound();
            let mut procedure = Procedure::new(owner, self.result(bound));
            procedure.bound = bound;
            for number in 0..self.count(3, 8, 20) {
                let formal = match number {
                    0 => self.generic_formal(bound),
                    _ => None,
                };
                let formal = formal.or_else(|| self.formal(owner, bound));
                if let Some(VariableRecord { inner, need }) = formal {
                    procedure = procedure.formal(inner, need);
                }
            }
            self.sheet.procedures.push(procedure);
        }
    }

    /// Often a rights name, mostly the one that types are made for.
    fn bound(&mut self) -> Option<BoundRecord> {
        if self.sheet.types.is_empty() || self.random.one_in(2) {
            return None;
        }
        let of = self.random.below(self.sheet.types.len());
        let some = self.random.word() as u32 & self.random.word() as u32;
        let any = BoundRecord {
            base: of as u8 + 2,
            least: some & self.named_rights(of),
        };
        match self.random.one_in(4) {
            true => Some(any),
            false => self.generic.map(|bound| BoundRecord {
                least: bound.least & (some | self.random.word() as u32),
                ..bound
            }),
        }
    }

    /// A formal that settles the rights name.
    fn generic_formal(&mut self, bound: Option<BoundRecord>) -> Option<VariableRecord> {
        bound?;
        let all = self.typing.all();
        let users: Vec<u8> = all.filter(|&n| self.typing.uses_generic(n)).collect();
        let inner = self.random.pick(&users)?;
        let need = self.equal_to(inner);
        Some(VariableRecord { inner, need })
    }

    fn owner(&mut self) -> u8 {
        match self.sheet.types.len() {
            0 => 0,
            _ if self.random.one_in(3) => 0,
            types => self.random.below(types) as u8 + 2,
        }
    }

    fn result(&mut self, bound: Option<BoundRecord>) -> u8 {
        let closed = match bound {
            Some(_) => self.typing.closed(),
            None => self.typing.plain(),
        };
        if self.random.one_in(3) {
            NONE
        } else {
            self.random.pick(&closed).unwrap_or(NONE)
        }
    }

    /// A formal: amplified if its type is the owner's, else with need equal to
    /// inner.
    fn formal(&mut self, owner: u8, bound: Option<BoundRecord>) -> Option<VariableRecord> {
        let inner = self.inner(owner, bound)?;
        if owner < 2 || self.typing.get(inner).base != owner {
            let need = self.equal_to(inner);
            return Some(VariableRecord { inner, need });
        }
        let closed = self.typing.closed();
        let needs: Vec<u8> = closed
            .into_iter()
            .filter(|&need| self.typing.get(need).base == owner)
            .collect();
        let need = self.random.pick(&needs)?;
        Some(VariableRecord { inner, need })
    }

    /// A type that a variable may have inside a procedure of the owner.
    fn inner(&mut self, owner: u8, bound: Option<BoundRecord>) -> Option<u8> {
        let all = self.typing.all();
        let all: Vec<u8> = all
            .filter(|&n| bound.is_some() || !self.typing.uses_generic(n))
            .collect();
        let owned = |number: u8| owner >= 2 && self.typing.get(number).base == owner;
        let mine: Vec<u8> = all.iter().copied().filter(|&n| owned(n)).collect();
        if self.random.one_in(3) && !mine.is_empty() {
            return self.random.pick(&mine);
        }
        let allowed = |number: u8| owned(number) || !self.typing.has_open(number);
        let allowed: Vec<u8> = all.into_iter().filter(|&n| allowed(n)).collect();
        self.random.pick(&allowed)
    }

    fn add_variables(&mut self) {
        for number in 0..self.sheet.procedures.len() {
            let Procedure { head, bound, .. } = self.sheet.procedures[number].clone();
            let mut inners = Vec::new();
            // A return must have something to give back.
            if head.result != NONE {
                inners.push(self.equal_to(head.result));
            }
            let integers = self.typing.all().filter(|&n| self.typing.is_integer(n));
            let integers: Vec<u8> = integers.collect();
            inners.extend(self.random.pick(&integers));
            inners.extend(self.call_block(bound).unwrap_or_default());
            inners.extend(self.two_names(bound).into_iter().flatten());
            for _ in 0..self.count(8, MAX_VARIABLES, 40) {
                inners.extend(self.inner(head.owner, bound));
            }
            inners.truncate(MAX_VARIABLES - usize::from(head.formals));
            let procedure = &mut self.sheet.procedures[number];
            let extra = inners.into_iter();
            procedure
                .variables
                .extend(extra.map(|inner| VariableRecord { inner, need: NONE }));
        }
    }

    /// Variables that some procedure can be called with, and one for its
    /// result, in a procedure with the bound or without one.
    fn call_block(&mut self, bound: Option<BoundRecord>) -> Option<Vec<u8>> {
        let callee = self.random.below(self.sheet.procedures.len());
        let callee = self.sheet.procedures[callee].clone();
        let typing = &self.typing;
        let scope = Scope { typing, bound };
        let generic = match callee.bound {
            None => None,
            Some(bound) => Some(self.random.pick(&scope.choices(bound))?),
        };
        let needs = callee.formals().iter().map(|formal| formal.need);
        let mut block = Vec::new();
        for declared in needs.chain(callee.result()) {
            let spelled = typing.spelled(declared, generic);
            block.push(self.random.pick(&scope.read_as(&spelled))?);
        }
        Some(block)
    }

    /// Now and then two variables for one array.
    fn two_names(&mut self, bound: Option<BoundRecord>) -> Option<[u8; 2]> {
        let typing = &self.typing;
        let pairs = Scope { typing, bound }.two_names();
        let pair = self.random.pick(&pairs);
        pair.filter(|_| self.random.one_in(2))
    }

    fn write_bodies(&mut self, largest: usize) {
        for number in 0..self.sheet.procedures.len() {
            // Only main may be of the largest length, to keep within a sheet.
            let length = match number {
                0 => 1 + self.count(14, largest - 1, 300),
                _ => 1 + self.count(14, 14, 2),
            };
            let mut writer = Writer {
                random: self.random,
                typing: &self.typing,
                types: &self.sheet.types,
                procedures: &self.sheet.procedures,
                number,
                length,
            };
            let body = writer.body();
            self.sheet.procedures[number].instructions = body;
        }
    }
}
