//! Types with all of their parts, ?R replaced by what it stands for.

use reference::generic::{Form, Read};
use reference::{Kind, Program, Rights};

#[derive(Clone, Debug, PartialEq)]
pub enum Plain {
    Integer,
    Array {
        rights: Rights,
        element: Box<Plain>,
    },
    Declared {
        of: usize,
        rights: Rights,
    },
    /// ?R where nothing is said of it.
    Unread,
}

/// What ?R stands for: a declared type with a set of rights.
pub type Instance = Option<(usize, Rights)>;

impl Plain {
    /// A qualified type with what ?R stands for in it.
    pub fn instance(program: &Program, qualified: usize, instance: Instance) -> Plain {
        let record = &program.qualified[qualified];
        match (record.kind, instance) {
            (Kind::Integer, _) => Plain::Integer,
            (Kind::Array { element }, instance) => Plain::Array {
                rights: record.rights,
                element: Box::new(Plain::instance(program, element, instance)),
            },
            (Kind::Record { of }, _) => Plain::Declared {
                of,
                rights: record.rights,
            },
            (Kind::Generic, Some((of, rights))) => Plain::Declared { of, rights },
            (Kind::Generic, None) => Plain::Unread,
        }
    }

    /// A type as the engine reads it.
    pub fn read(program: &Program, read: Read) -> Plain {
        let declared = program.read(read);
        let rights = declared.rights;
        match declared.form {
            Form::Integer => Plain::Integer,
            Form::Array { element } => Plain::Array {
                rights,
                element: Box::new(Plain::read(program, element)),
            },
            Form::Record { of } => Plain::Declared { of, rights },
            Form::Generic { .. } => Plain::Unread,
        }
    }
}
