//! ?R where none is declared: in a slot, or in a procedure without a rights
//! name.

use super::{Found, Walk};
use crate::field::Field;
use crate::record::{RecordKind, NAME_BASE};

/// What a sheet says about ?R.
pub struct Misplaced {
    /// The qualified types that are ?R or have it as an element, at any depth.
    uses: Vec<bool>,
    /// The procedures with a rights name.
    named: Vec<usize>,
}

impl Misplaced {
    pub fn of(walk: &Walk) -> Self {
        let mut uses = Vec::new();
        let mut named = Vec::new();
        for found in &walk.found {
            match found.record.kind {
                RecordKind::Qualified => uses.push(is_used(found, &uses)),
                RecordKind::Name => named.extend(found.procedure),
                _ => (),
            }
        }
        Misplaced { uses, named }
    }

    /// The first field of the record that uses ?R and may not, with the
    /// qualified type that it names.
    pub fn in_record(&self, found: &Found) -> Option<(Field, usize)> {
        let is_named = |procedure| self.named.contains(&procedure);
        if found.procedure.is_some_and(is_named) {
            return None;
        }
        fields(found).into_iter().find_map(|field| {
            let number = found.record.value(field)? as usize;
            let uses = self.uses.get(number).copied().unwrap_or(false);
            uses.then_some((field, number))
        })
    }
}

/// Whether a QT is ?R, or a tray whose element, one of those before it, uses
/// ?R.
fn is_used(found: &Found, before: &[bool]) -> bool {
    let element = found.record.number(Field::Element);
    match found.record.value(Field::Base) {
        Some(NAME_BASE) => true,
        Some(1) => before.get(element).copied().unwrap_or(false),
        _ => false,
    }
}

/// The fields that name a qualified type, in their order.
fn fields(found: &Found) -> Vec<Field> {
    match found.record.kind {
        RecordKind::Type => {
            let slots = found.record.number(Field::SlotCount);
            (0..slots).map(Field::Slot).collect()
        }
        RecordKind::Procedure => vec![Field::Result],
        RecordKind::Variable => vec![Field::Inner, Field::Need],
        _ => Vec::new(),
    }
}
