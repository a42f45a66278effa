//! Runnable programs: types, procedures and variables. The bodies are those
//! of [`super::writer`].
//!
//! Procedure 0 is main. For each declared type there is a maker, which gives
//! back a new record with all rights but open, so that a variable of any type
//! can be filled in any procedure. The others are drawn: workers with formals,
//! some amplified, some of which call themselves, and some with a rights name
//! ([`super::generics`]).

use super::writer::{Plan, Writer};
use crate::random::Random;
use crate::reading::Scope;
use crate::records::{
    named_rights, BoundRecord, QualifiedRecord, TypeRecord, VariableRecord, ARRAY_ALL, FETCH, NONE,
    OPEN, SIZE,
};
use crate::second_edition::in_either_edition;
use crate::sheet::{Procedure, Sheet, SheetBuilder};
use crate::typing::Typing;

const MAX_VARIABLES: usize = 32;

/// The integer type that every program has.
pub const INTEGER: u8 = 0;

/// The variables that a body needs for itself, after the formals.
pub const CONTROL: usize = 6;

/// An accepted sheet that is made to be run.
pub fn runnable(random: &mut Random) -> Sheet {
    let mut author = Author::new(random);
    author.declare_makers();
    if !author.random.one_in(3) {
        author.declare_generics();
    }
    for _ in 0..author.random.between(1, 4) {
        let worker = author.worker();
        author.sheet.procedures.push(worker);
    }
    let plans = author.plan_all();
    author.write_bodies(&plans);
    author.finished()
}

pub(super) struct Author<'a> {
    pub random: &'a mut Random,
    pub sheet: Sheet,
    pub typing: Typing,
    /// The base of the rights names, if there are any.
    pub generic_base: Option<u8>,
}

impl<'a> Author<'a> {
    /// Types of all kinds, and main.
    pub fn new(random: &'a mut Random) -> Self {
        let mut author = Author {
            random,
            sheet: SheetBuilder::new().procedure(Procedure::main()).build(),
            typing: Typing::of(&[]),
            generic_base: None,
        };
        let types = author.random.between(1, 3);
        author.add(QualifiedRecord::INTEGER);
        for number in 0..types {
            author.declare_type(number as u8 + 2);
        }
        for _ in 0..author.random.between(4, 9) {
            author.declare_array();
        }
        author.declare_readers();
        for number in 0..types {
            author.fill_slots(number);
        }
        author
    }

    /// The sheet, in either edition.
    pub fn finished(mut self) -> Sheet {
        self.sheet.seal();
        in_either_edition(self.random, &mut self.sheet);
        self.sheet
    }

    /// Adds a qualified type and gives its number.
    pub fn add(&mut self, record: QualifiedRecord) -> u8 {
        self.sheet.qualified.push(record);
        self.typing.push(record);
        self.typing.count() as u8 - 1
    }

    /// A declared type, first with all rights but open, then with open, then
    /// with fewer rights.
    fn declare_type(&mut self, base: u8) {
        let rights = if self.random.one_in(6) {
            15
        } else {
            self.random.between(1, 3)
        };
        let named = named_rights(rights as u8);
        self.sheet.types.push(TypeRecord::new(rights as u8, &[]));
        let some = self.random.word() as u32 & named;
        for rights in [named, named | OPEN, some, some | OPEN, 0, 1 << 1] {
            self.add(QualifiedRecord::record(base, rights));
        }
    }

    fn declare_array(&mut self) {
        let closed = self.typing.closed();
        let element = self.random.pick(&closed).unwrap_or(INTEGER);
        let element = match self.random.below(3) {
            0 => INTEGER,
            _ => element,
        };
        let rights = match self.random.below(3) {
            0 => self.random.word() as u32 & ARRAY_ALL,
            _ => ARRAY_ALL,
        };
        self.add(QualifiedRecord::array(element, rights));
        if self.random.one_in(3) {
            self.add(QualifiedRecord::array(element, ARRAY_ALL));
        }
    }

    /// An array of records with all rights but open, one of fewer rights that
    /// lacks store, and arrays of both.
    fn declare_readers(&mut self) {
        let base = self.random.below(self.sheet.types.len()) as u8 + 2;
        let all = with_base(&self.typing, base, false);
        let fewer = [all + 2, all + 4, all + 5][self.random.below(3)];
        let reading = match self.random.one_in(4) {
            true => SIZE,
            false => FETCH | SIZE,
        };
        let mut ends = [(all, ARRAY_ALL), (fewer, reading)];
        for _ in 0..2 {
            ends = ends.map(|(element, rights)| {
                let array = self.add(QualifiedRecord::array(element, rights));
                (array, rights)
            });
        }
    }

    fn fill_slots(&mut self, number: usize) {
        let closed = self.typing.closed();
        let count = match self.random.below(8) {
            0 => 0,
            1 => 8,
            _ => self.random.between(1, 4),
        };
        let slots: Vec<u8> = (0..count)
            .filter_map(|_| self.random.pick(&closed))
            .collect();
        let rights = self.sheet.types[number].named_rights;
        self.sheet.types[number] = TypeRecord::new(rights, &slots);
    }

    /// The maker of a type has a variable with open for the new record and
    /// one for each slot.
    pub fn declare_makers(&mut self) {
        for number in 0..self.sheet.types.len() {
            let base = number as u8 + 2;
            let all_but_open = with_base(&self.typing, base, false);
            let open = with_base(&self.typing, base, true);
            let mut maker = Procedure::new(base, all_but_open).variables(&[INTEGER; CONTROL]);
            maker = maker.variable(open);
            maker = maker.variables(self.sheet.types[number].used_slots());
            self.sheet.procedures.push(maker);
        }
    }

    /// A procedure with formals and perhaps an owner and a result; its other
    /// variables come with the plans.
    fn worker(&mut self) -> Procedure {
        let owner = match self.random.below(3) {
            0 => 0,
            _ => self.random.below(self.sheet.types.len()) as u8 + 2,
        };
        let bound = self.bound();
        let mut worker = Procedure::new(owner, self.result(bound));
        worker.bound = bound;
        if self.random.one_in(3) {
            worker = worker.formal(INTEGER, INTEGER);
        }
        if bound.is_some() {
            worker = self.with_generic_formals(worker);
        }
        for _ in 0..self.random.between(0, 3) {
            let inner = self.inner(owner, bound);
            let need = self.need(owner, inner);
            worker = worker.formal(inner, need);
        }
        worker
    }

    fn result(&mut self, bound: Option<BoundRecord>) -> u8 {
        let named = match bound {
            Some(_) if !self.random.one_in(4) => self.generics(),
            _ => self.typing.plain(),
        };
        match self.random.below(3) {
            0 if bound.is_none() => NONE,
            1 if bound.is_none() => INTEGER,
            _ => self.random.pick(&named).unwrap_or(NONE),
        }
    }

    /// What is needed of a formal: any rights on the owner's type, else the
    /// same.
    fn need(&mut self, owner: u8, inner: u8) -> u8 {
        if owner < 2 || self.typing.get(inner).base != owner {
            return inner;
        }
        let needs = self.typing.plain().into_iter();
        let needs: Vec<u8> = needs
            .filter(|&need| self.typing.get(need).base == owner)
            .collect();
        self.random.pick(&needs).unwrap_or(inner)
    }

    /// A type that a variable may have in a procedure of the owner, often one
    /// with open.
    pub fn inner(&mut self, owner: u8, bound: Option<BoundRecord>) -> u8 {
        let generics = self.generics();
        if bound.is_some() && self.random.one_in(3) {
            return self.random.pick(&generics).unwrap_or(INTEGER);
        }
        if owner >= 2 && self.random.one_in(2) {
            return with_base(&self.typing, owner, true);
        }
        let allowed: Vec<u8> = self
            .typing
            .all()
            .filter(|&n| !self.typing.has_open(n) || self.typing.get(n).base == owner)
            .filter(|&n| !self.typing.uses_generic(n))
            .collect();
        self.random.pick(&allowed).unwrap_or(INTEGER)
    }

    /// Adds the variables of main and the workers, with a block of actuals
    /// for every call that is planned.
    fn plan_all(&mut self) -> Vec<Vec<Plan>> {
        let makers = self.sheet.types.len();
        (0..self.sheet.procedures.len())
            .map(|number| match number {
                0 => self.plan(number),
                number if number <= makers => Vec::new(),
                number => self.plan(number),
            })
            .collect()
    }

    fn plan(&mut self, number: usize) -> Vec<Plan> {
        let Procedure { head, bound, .. } = self.sheet.procedures[number].clone();
        self.add_variables(number, &[INTEGER; CONTROL]);
        if head.result != NONE {
            self.add_variables(number, &[head.result]);
        }
        let mut plans = Vec::new();
        for _ in 0..self.random.between(1, 3) {
            let callee = self.callee(number);
            plans.extend(self.plan_call(number, callee));
        }
        if recursive(&self.sheet.procedures[number]) {
            plans.extend(self.plan_call(number, number));
        }
        for _ in 0..self.random.between(2, 6) {
            let inner = self.inner(head.owner, bound);
            self.add_variables(number, &[inner]);
        }
        self.add_two_names(number);
        plans
    }

    /// Mostly two variables for one array.
    fn add_two_names(&mut self, number: usize) {
        let typing = &self.typing;
        let bound = self.sheet.procedures[number].bound;
        let pairs = Scope { typing, bound }.two_names();
        let pair = self.random.pick(&pairs);
        if let Some(pair) = pair.filter(|_| !self.random.one_in(3)) {
            self.add_variables(number, &pair);
        }
    }

    /// Mostly a later procedure, so that calls come to an end.
    fn callee(&mut self, number: usize) -> usize {
        let count = self.sheet.procedures.len();
        let first_worker = self.sheet.types.len() + 1;
        match self.random.below(24) {
            0 => 0,
            1 => self.random.below(count),
            2..=4 => self.random.between(1, first_worker - 1),
            _ if number + 1 < count => {
                let first = first_worker.max(number + 1);
                self.random.between(first, count - 1)
            }
            _ => self.random.between(1, first_worker - 1),
        }
    }

    /// A block of variables that meet the needs, and one that keeps the
    /// result, if they fit.
    fn plan_call(&mut self, number: usize, callee: usize) -> Option<Plan> {
        let called = self.sheet.procedures[callee].clone();
        let formals = called.formals();
        let first = self.sheet.procedures[number].variables.len();
        if first + formals.len() + 1 > MAX_VARIABLES {
            return None;
        }
        let generic = match called.bound {
            Some(bound) => Some(self.settled(number, bound)?),
            None => None,
        };
        let needs = formals.iter().map(|formal| formal.need);
        let actuals: Option<Vec<u8>> = needs.map(|need| self.read_type(need, generic)).collect();
        let actuals = actuals?;
        let result = match called.result() {
            Some(result) => Some(self.read_type(result, generic)?),
            None => None,
        };
        self.add_variables(number, &actuals);
        let kept = result.filter(|_| !self.random.one_in(4)).map(|result| {
            self.add_variables(number, &[result]);
            (first + actuals.len()) as u8
        });
        Some(Plan {
            callee,
            first_actual: if actuals.is_empty() {
                NONE
            } else {
                first as u8
            },
            kept: kept.unwrap_or(NONE),
        })
    }

    pub fn add_variables(&mut self, number: usize, inners: &[u8]) {
        let variables = &mut self.sheet.procedures[number].variables;
        for &inner in inners.iter().take(MAX_VARIABLES - variables.len()) {
            variables.push(VariableRecord { inner, need: NONE });
        }
    }

    fn write_bodies(&mut self, plans: &[Vec<Plan>]) {
        let makers = self.sheet.types.len();
        for (number, plans) in plans.iter().enumerate() {
            let mut writer = Writer::new(self.random, &self.sheet, &self.typing, number);
            let body = match number {
                number if (1..=makers).contains(&number) => writer.maker(),
                _ => writer.worker(plans),
            };
            self.sheet.procedures[number].instructions = body;
        }
    }
}

/// The type of the base with all named rights, with open or without.
pub(super) fn with_base(typing: &Typing, base: u8, open: bool) -> u8 {
    let first = typing.all().find(|&n| typing.get(n).base == base);
    first.unwrap_or(INTEGER) + u8::from(open)
}

/// Whether a procedure calls itself with one less in its first formal.
pub(super) fn recursive(procedure: &Procedure) -> bool {
    procedure.head.formals > 0 && procedure.variables[0].inner == INTEGER
}
