//! Rights names: what ?R stands for where a qualified type is read.
//!
//! The same QT is read differently in a procedure, by its callers and in each
//! of its frames. A [`Read`] type has its number together with the reading of
//! ?R, and [`Program::read`] says what it then is.

use crate::program::{Kind, Procedure, Program, Rights};

/// A GN record: a procedure works on trays under any rights on the base, as
/// long as the least set is among them.
#[derive(Clone, Copy, Debug, PartialEq, Eq)]
pub struct Bound {
    pub place: usize,
    /// The declared type, by its index in [`Program::types`].
    pub of: usize,
    pub least: Rights,
}

impl Bound {
    /// As the rules read ?R in its own procedure: nothing but itself.
    pub fn own(&self) -> Reading {
        let Bound { of, least, .. } = *self;
        Reading::Own { of, least }
    }

    /// As a frame reads ?R, for which a set of rights was settled.
    pub fn instance(&self, rights: Rights) -> Reading {
        let of = self.of;
        Reading::Instance { of, rights }
    }
}

/// What ?R is read as.
#[derive(Clone, Copy, Debug, PartialEq, Eq, Hash)]
pub enum Reading {
    /// Not at all: as it stands in its QT.
    Unread,
    /// The rights name of a procedure with this bound.
    Own { of: usize, least: Rights },
    /// A declared type with a set of rights.
    Instance { of: usize, rights: Rights },
}

impl Reading {
    /// The rights that it certainly has: of a caller's ?R, the least set.
    pub fn rights(&self) -> Rights {
        match *self {
            Reading::Unread => Rights::NONE,
            Reading::Own { least, .. } => least,
            Reading::Instance { rights, .. } => rights,
        }
    }
}

/// A qualified type by its number, and what ?R is read as in it.
#[derive(Clone, Copy, Debug, PartialEq, Eq, Hash)]
pub struct Read {
    pub qualified: usize,
    pub reading: Reading,
}

impl Read {
    /// The type as it stands in its QT.
    pub fn unread(qualified: usize) -> Self {
        let reading = Reading::Unread;
        Read { qualified, reading }
    }
}

/// What a type is once it is read.
#[derive(Clone, Copy, Debug, PartialEq, Eq)]
pub struct Type {
    pub form: Form,
    pub rights: Rights,
}

/// The base of a type that is read, with the element where it is an array.
#[derive(Clone, Copy, Debug, PartialEq, Eq)]
pub enum Form {
    Integer,
    Array {
        element: Read,
    },
    Record {
        of: usize,
    },
    /// ?R inside its procedure, which is of the bound's base; None unread.
    Generic {
        of: Option<usize>,
    },
}

impl Form {
    /// The declared type that a value of this form is a record of.
    pub fn declared(&self) -> Option<usize> {
        match *self {
            Form::Record { of } => Some(of),
            Form::Generic { of } => of,
            Form::Integer | Form::Array { .. } => None,
        }
    }
}

impl Program {
    /// What a type is, read.
    pub fn read(&self, Read { qualified, reading }: Read) -> Type {
        let qualified = &self.qualified[qualified];
        let rights = qualified.rights;
        let form = match (qualified.kind, reading) {
            (Kind::Integer, _) => Form::Integer,
            (Kind::Array { element: qualified }, _) => {
                let element = Read { qualified, reading };
                Form::Array { element }
            }
            (Kind::Record { of }, _) => Form::Record { of },
            (Kind::Generic, reading) => return generic(reading),
        };
        Type { form, rights }
    }

    /// Whether ?R stands in a type, itself or as an element at any depth.
    pub fn uses_generic(&self, qualified: usize) -> bool {
        match self.qualified[qualified].kind {
            Kind::Generic => true,
            Kind::Array { element } => self.uses_generic(element),
            Kind::Integer | Kind::Record { .. } => false,
        }
    }
}

fn generic(reading: Reading) -> Type {
    let form = match reading {
        Reading::Unread => Form::Generic { of: None },
        Reading::Own { of, .. } => Form::Generic { of: Some(of) },
        Reading::Instance { of, .. } => Form::Record { of },
    };
    let rights = reading.rights();
    Type { form, rights }
}

impl Procedure {
    /// What the rules read ?R as in this procedure.
    pub fn own(&self) -> Reading {
        self.bound.map_or(Reading::Unread, |bound| bound.own())
    }

    /// What a frame of this procedure with the settled set reads ?R as.
    pub fn instance(&self, set: Rights) -> Reading {
        self.bound
            .map_or(Reading::Unread, |bound| bound.instance(set))
    }
}
