//! Equality and order of qualified types, each read on its own side.

use crate::generic::{Form, Read, Type};
use crate::program::{Program, Rights};
use crate::refusal::Reason;

impl Program {
    /// Same base, same rights, equal elements all the way down.
    pub fn equal(&self, left: Read, right: Read) -> bool {
        let (left, right) = (self.read(left), self.read(right));
        left.rights == right.rights && self.same_form(left.form, right.form)
    }

    /// Same base and, for arrays, equal elements.
    fn same_form(&self, left: Form, right: Form) -> bool {
        match (left, right) {
            (Form::Array { element: left }, Form::Array { element: right }) => {
                self.equal(left, right)
            }
            (Form::Array { .. }, _) | (_, Form::Array { .. }) => false,
            (left, right) => left == right,
        }
    }

    /// Whether the form is of the kind that a type asks for: the same base and,
    /// for arrays, equal elements. Where the type lacks store nothing comes in
    /// by it, and elements ≥ those asked for are enough.
    pub fn alike(&self, source: Form, destination: Type) -> bool {
        let stores = destination.rights.contains(Rights::STORE);
        match (source, destination.form) {
            (Form::Array { element }, Form::Array { element: asked }) => match stores {
                true => self.equal(element, asked),
                false => self.movement(element, asked).is_ok(),
            },
            (source, destination) => match source.declared().zip(destination.declared()) {
                Some((source, destination)) => source == destination,
                None => self.same_form(source, destination),
            },
        }
    }

    /// Whether source ≥ destination, and if not, what is wrong: the kind
    /// before the rights. Elements that lack a right are another kind. Nothing
    /// but ?R reaches ?R; from another type of its base it is the right that
    /// is lacking.
    pub fn movement(&self, source: Read, destination: Read) -> Result<(), Reason> {
        let source = self.read(source);
        let destination = self.read(destination);
        if !self.alike(source.form, destination) {
            return Err(Reason::WrongKind);
        }
        let reached = match destination.form {
            Form::Generic { .. } => source.form == destination.form,
            _ => source.rights.includes(&destination.rights),
        };
        match reached {
            true => Ok(()),
            false => Err(Reason::MissingRight),
        }
    }
}
