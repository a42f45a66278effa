//! The generator's own view of qualified types.
//!
//! Equal types get the same class number, given from the first record to the
//! last; the second engine compares structures instead, so that a slip in
//! one of the two shows.

use crate::records::{QualifiedRecord, GENERIC, OPEN, STORE};

/// What a movement from one qualified type to another comes to.
#[derive(Clone, Copy, Debug, PartialEq, Eq)]
pub enum Movement {
    Fits,
    WrongKind,
    LacksRight,
}

/// The qualified types of a sheet with their classes.
#[derive(Clone)]
pub struct Typing {
    records: Vec<QualifiedRecord>,
    classes: Vec<usize>,
    /// Whether ?R stands in each, itself or as an element at any depth.
    generic: Vec<bool>,
}

impl Typing {
    pub fn of(records: &[QualifiedRecord]) -> Self {
        let mut typing = Typing {
            records: Vec::new(),
            classes: Vec::new(),
            generic: Vec::new(),
        };
        for &record in records {
            typing.push(record);
        }
        typing
    }

    pub fn push(&mut self, record: QualifiedRecord) {
        let key = self.key(&record);
        let same = self.records.iter().position(|other| self.key(other) == key);
        let element = self.generic.get(usize::from(record.element));
        let generic = record.base == GENERIC || element.copied().unwrap_or(false);
        self.classes.push(same.unwrap_or(self.records.len()));
        self.records.push(record);
        self.generic.push(generic);
    }

    /// What two equal types have in common.
    fn key(&self, record: &QualifiedRecord) -> (u8, u32, Option<usize>) {
        (record.base, record.rights, self.element_class(record))
    }

    fn element_class(&self, record: &QualifiedRecord) -> Option<usize> {
        self.classes.get(usize::from(record.element)).copied()
    }

    pub fn count(&self) -> usize {
        self.records.len()
    }

    pub fn all(&self) -> impl Iterator<Item = u8> {
        0..self.records.len() as u8
    }

    pub fn get(&self, number: u8) -> QualifiedRecord {
        self.records[usize::from(number)]
    }

    pub fn equal(&self, left: u8, right: u8) -> bool {
        self.classes[usize::from(left)] == self.classes[usize::from(right)]
    }

    pub fn movement(&self, source: u8, destination: u8) -> Movement {
        let (source, destination) = (self.get(source), self.get(destination));
        if source.base != destination.base || !self.elements_fit(&source, &destination) {
            Movement::WrongKind
        } else if destination.rights & !source.rights != 0 {
            Movement::LacksRight
        } else {
            Movement::Fits
        }
    }

    /// Whether two arrays have other elements, of which the first fit the
    /// second: what moves if the second lacks store.
    pub fn widens(&self, source: u8, destination: u8) -> bool {
        let (source, destination) = (self.get(source), self.get(destination));
        let arrays = source.base == 1 && destination.base == 1;
        arrays
            && !self.equal(source.element, destination.element)
            && self.fits(source.element, destination.element)
    }

    /// Equal elements; without store, elements that fit are enough.
    fn elements_fit(&self, source: &QualifiedRecord, destination: &QualifiedRecord) -> bool {
        let [from, to] = [source.element, destination.element];
        self.element_class(source) == self.element_class(destination)
            || destination.base == 1 && destination.rights & STORE == 0 && self.fits(from, to)
    }

    pub fn fits(&self, source: u8, destination: u8) -> bool {
        self.movement(source, destination) == Movement::Fits
    }

    pub fn is_integer(&self, number: u8) -> bool {
        self.get(number).base == 0
    }

    pub fn is_array_with(&self, number: u8, rights: u32) -> bool {
        let record = self.get(number);
        record.base == 1 && record.rights & rights == rights
    }

    pub fn uses_generic(&self, number: u8) -> bool {
        self.generic[usize::from(number)]
    }

    pub fn has_open(&self, number: u8) -> bool {
        self.get(number).rights & OPEN != 0
    }

    /// The types that may stand everywhere: neither open nor ?R.
    pub fn plain(&self) -> Vec<u8> {
        let mut plain = self.closed();
        plain.retain(|&number| !self.uses_generic(number));
        plain
    }

    /// The types that may stand where open may not.
    pub fn closed(&self) -> Vec<u8> {
        self.all()
            .filter(|&number| !self.has_open(number))
            .collect()
    }
}
