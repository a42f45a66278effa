//! How a call settles the rights name of the procedure called.

use crate::generic::{Bound, Form, Read, Reading};
use crate::program::{Kind, Procedure, Program, Rights};

/// What a call comes to for the rights name of its callee.
#[derive(Clone, Debug, PartialEq)]
pub struct Settled {
    /// What need and result are read with.
    pub reading: Reading,
    /// The formals whose actuals settle ?R, each with what it settles it to.
    pub found: Vec<(usize, Reading)>,
    /// Whether a formal uses the name, as one must if there is a name.
    pub used: bool,
    least: Rights,
}

impl Settled {
    /// The call of a procedure that has no rights name.
    const WITHOUT: Settled = Settled {
        reading: Reading::Unread,
        found: Vec::new(),
        used: true,
        least: Rights::NONE,
    };

    /// "unsettled": no formal uses the name, or two actuals differ.
    pub fn is_unsettled(&self) -> bool {
        !self.used || self.differing().is_some()
    }

    /// The first two formals whose actuals settle ?R differently.
    pub fn differing(&self) -> Option<[usize; 2]> {
        let (first, reading) = self.found.first()?;
        let other = self.found.iter().find(|(_, other)| other != reading);
        other.map(|(other, _)| [*first, *other])
    }

    /// "short": the settled set lacks a least right.
    pub fn is_short(&self) -> bool {
        !self.reading.rights().includes(&self.least)
    }
}

impl Program {
    /// Settles ?R from the declared type of each actual whose need uses it,
    /// read as the caller reads it. Where none settles anything ?R is read
    /// with the least set: whatever it is read with, such an actual does not
    /// fit.
    pub fn settled(&self, callee: &Procedure, actuals: impl Iterator<Item = Read>) -> Settled {
        let Some(bound) = callee.bound else {
            return Settled::WITHOUT;
        };
        let needs = callee.variables.iter().filter_map(|formal| formal.need);
        let used = needs.clone().any(|need| self.uses_generic(need));
        let found = actuals.zip(needs).enumerate();
        let found: Vec<(usize, Reading)> = found
            .filter_map(|(formal, (actual, need))| {
                let reading = self.settles(&bound, need, actual)?;
                Some((formal, reading))
            })
            .collect();
        let first = found.first().map(|&(_, reading)| reading);
        Settled {
            reading: first.unwrap_or_else(|| bound.instance(bound.least)),
            found,
            used,
            least: bound.least,
        }
    }

    /// What an actual settles ?R to: what stands where ?R does in its need,
    /// open left out. Another shape or another base settles nothing.
    pub fn settles(&self, bound: &Bound, need: usize, actual: Read) -> Option<Reading> {
        let found = self.read(actual);
        match (self.qualified[need].kind, found.form) {
            (Kind::Array { element: need }, Form::Array { element }) => {
                self.settles(bound, need, element)
            }
            (Kind::Generic, Form::Record { of }) if of == bound.of => {
                Some(bound.instance(found.rights.without(Rights::OPEN)))
            }
            (Kind::Generic, Form::Generic { of }) if of == Some(bound.of) => Some(actual.reading),
            _ => None,
        }
    }
}
