//! A well-formed sheet as plain data, rights names included.

use crate::field::Field;
use crate::layout::{well_formed, Found, Walk};
use crate::record::{Record, RecordKind, NAME_BASE, NONE};
use reference::Edition;

/// What the records say. Types, qualified types, procedures and variables are
/// named by their index; type 2, the first declared one, has index 0.
pub struct Sheet {
    pub edition: Edition,
    pub types: Vec<Declared>,
    pub qualified: Vec<Qualified>,
    pub procedures: Vec<Procedure>,
}

/// A TY record.
pub struct Declared {
    /// Rights 1 to this number are the type's own; right 0 is open.
    pub named_rights: usize,
    /// The qualified type of each slot.
    pub slots: Vec<usize>,
}

/// A QT record.
pub struct Qualified {
    pub kind: Kind,
    /// Bit i for right i.
    pub rights: u32,
}

#[derive(Clone, Copy, Debug, PartialEq, Eq)]
pub enum Kind {
    Integer,
    /// The element is an earlier qualified type.
    Tray {
        element: usize,
    },
    /// A declared type, by its index.
    Declared {
        of: usize,
    },
    /// ?R.
    Name,
}

/// A PR record with its rights name, variables and instructions.
pub struct Procedure {
    pub place: usize,
    pub owner: Option<usize>,
    pub formals: usize,
    pub result: Option<usize>,
    pub name: Option<RightsName>,
    pub variables: Vec<Variable>,
    pub instructions: Vec<Instruction>,
}

/// A GN record: the declared type of ?R and the rights that it has at least.
#[derive(Clone, Copy, Debug, PartialEq, Eq)]
pub struct RightsName {
    pub of: usize,
    pub least: u32,
}

/// A VR record.
pub struct Variable {
    pub inner: usize,
    /// Formals have one.
    pub need: Option<usize>,
}

/// An IN record; operands that name nothing are None.
pub struct Instruction {
    pub place: usize,
    pub code: u8,
    pub a: Option<usize>,
    pub b: Option<usize>,
    pub c: Option<usize>,
    pub k: usize,
}

impl Sheet {
    /// None where refusals 1 to 5 have something to say.
    pub fn read(sheet: &[u8]) -> Option<Sheet> {
        Sheet::of(&well_formed(sheet)?)
    }

    /// What records say that are all within the layout, ?R perhaps misplaced.
    pub fn of(walk: &Walk) -> Option<Sheet> {
        let mut read = Sheet {
            edition: walk.edition,
            types: Vec::new(),
            qualified: Vec::new(),
            procedures: Vec::new(),
        };
        for found in &walk.found {
            read.add(found)?;
        }
        Some(read)
    }

    fn add(&mut self, found: &Found) -> Option<()> {
        let (place, record) = (found.place, &found.record);
        let value = |field| record.number(field);
        let procedure = self.procedures.last_mut();
        match record.kind {
            RecordKind::Header => (),
            RecordKind::Type => self.types.push(Declared {
                named_rights: value(Field::NamedRights),
                slots: (0..value(Field::SlotCount))
                    .map(|slot| value(Field::Slot(slot)))
                    .collect(),
            }),
            RecordKind::Qualified => self.qualified.push(qualified(record)),
            RecordKind::Procedure => self.procedures.push(Procedure {
                place,
                owner: value(Field::Owner).checked_sub(2),
                formals: value(Field::Formals),
                result: named(value(Field::Result)),
                name: None,
                variables: Vec::new(),
                instructions: Vec::new(),
            }),
            RecordKind::Name => {
                procedure?.name = Some(RightsName {
                    of: value(Field::Base).checked_sub(2)?,
                    least: record.value(Field::Least)?,
                });
            }
            RecordKind::Variable => procedure?.variables.push(Variable {
                inner: value(Field::Inner),
                need: named(value(Field::Need)),
            }),
            RecordKind::Instruction => procedure?.instructions.push(instruction(place, record)),
        }
        Some(())
    }

    /// Whether two qualified types are equal as they stand: same base, same
    /// rights, equal elements.
    pub fn equal(&self, one: usize, other: usize) -> bool {
        let (mut one, mut other) = (one, other);
        // Elements have lower numbers, so that this ends.
        loop {
            let (left, right) = (&self.qualified[one], &self.qualified[other]);
            match (left.kind, right.kind) {
                _ if left.rights != right.rights => return false,
                (Kind::Tray { element: left }, Kind::Tray { element: right }) => {
                    (one, other) = (left, right);
                }
                (left, right) => return left == right,
            }
        }
    }
}

/// The number in a field of one byte, 255 naming nothing.
fn named(value: usize) -> Option<usize> {
    (value != NONE as usize).then_some(value)
}

fn qualified(record: &Record) -> Qualified {
    let kind = match record.value(Field::Base).unwrap_or(0) {
        0 => Kind::Integer,
        1 => Kind::Tray {
            element: record.number(Field::Element),
        },
        NAME_BASE => Kind::Name,
        base => Kind::Declared {
            of: base as usize - 2,
        },
    };
    let rights = record.value(Field::Rights).unwrap_or(0);
    Qualified { kind, rights }
}

fn instruction(place: usize, record: &Record) -> Instruction {
    let value = |field| record.number(field);
    Instruction {
        place,
        code: value(Field::Code) as u8,
        a: named(value(Field::A)),
        b: named(value(Field::B)),
        c: named(value(Field::C)),
        k: value(Field::K),
    }
}
