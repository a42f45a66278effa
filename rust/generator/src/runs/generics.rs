//! Rights names in runnable programs.

use super::program::Author;
use crate::reading::{Leaf, Scope};
use crate::records::{named_rights, BoundRecord, QualifiedRecord, ARRAY_ALL, FETCH, GENERIC};
use crate::sheet::Procedure;

const MAX_QUALIFIED: usize = 64;

impl Author<'_> {
    /// ?R, arrays of it, and arrays of arrays.
    pub(super) fn declare_generics(&mut self) {
        self.generic_base = Some(self.random.below(self.sheet.types.len()) as u8 + 2);
        let generic = self.add(QualifiedRecord::GENERIC);
        let array = self.add(QualifiedRecord::array(generic, ARRAY_ALL));
        if self.random.one_in(2) {
            self.add(QualifiedRecord::array(array, ARRAY_ALL));
        }
        if self.random.one_in(3) {
            self.add(QualifiedRecord::array(generic, FETCH));
        }
    }

    /// A rights name, for half of the workers if there are any.
    pub(super) fn bound(&mut self) -> Option<BoundRecord> {
        let base = self.generic_base?;
        let named = named_rights(self.sheet.types[usize::from(base) - 2].named_rights);
        let least = self.random.word() as u32 & self.random.word() as u32 & named;
        (!self.random.one_in(3)).then_some(BoundRecord { base, least })
    }

    /// The types in which ?R stands.
    pub(super) fn generics(&self) -> Vec<u8> {
        let all = self.typing.all();
        all.filter(|&n| self.typing.uses_generic(n)).collect()
    }

    /// One or two formals that settle the rights name.
    pub(super) fn with_generic_formals(&mut self, mut worker: Procedure) -> Procedure {
        let generics = self.generics();
        for _ in 0..self.random.between(1, 2) {
            if let Some(inner) = self.random.pick(&generics) {
                worker = worker.formal(inner, inner);
            }
        }
        worker
    }

    /// What a call from a procedure settles: often its own ?R where it can.
    pub(super) fn settled(&mut self, caller: usize, callee: BoundRecord) -> Option<Leaf> {
        let scope = Scope {
            typing: &self.typing,
            bound: self.sheet.procedures[caller].bound,
        };
        let choices = scope.choices(callee);
        let first = choices.first().copied();
        let own = first.filter(|leaf| matches!(leaf, Leaf::Own { .. }));
        match self.random.one_in(2) {
            true => own,
            false => None,
        }
        .or_else(|| self.random.pick(&choices))
    }

    /// A type with something in place of ?R: one that there is, or a new one.
    /// A caller's own ?R stays as it is.
    pub(super) fn read_type(&mut self, number: u8, generic: Option<Leaf>) -> Option<u8> {
        let Some(Leaf::Record { base, rights }) = generic else {
            return Some(number);
        };
        if !self.typing.uses_generic(number) {
            return Some(number);
        }
        let record = self.typing.get(number);
        let read = match record.base {
            GENERIC => QualifiedRecord::record(base, rights),
            _ => QualifiedRecord::array(self.read_type(record.element, generic)?, record.rights),
        };
        let found = self.typing.all().find(|&n| self.typing.get(n) == read);
        found.or_else(|| (self.typing.count() < MAX_QUALIFIED).then(|| self.add(read)))
    }
}
