//! The records of a sheet by its bytes: what is due at each place, what is
//! found, and which fields are within the layout.

mod instruction;
mod limits;
mod misplaced;

pub use limits::{Context, Excess, Limits};
pub use misplaced::Misplaced;

use crate::edition;
use crate::field::Field;
use crate::record::{Record, RecordKind};
use instruction::{call_limits, Scope};
use reference::{Edition, MAX_SHEET};

/// A record that stands where one of its kind is due.
pub struct Found {
    pub place: usize,
    pub record: Record,
    pub context: Context,
    /// The procedure that it is of.
    pub procedure: Option<usize>,
}

/// The records of a sheet, as far as each is the one due and whole.
pub struct Walk {
    /// The edition that its records are read by.
    pub edition: Edition,
    pub found: Vec<Found>,
    /// Where the walk ended, and the kind of record due there.
    pub end: usize,
    pub due: Option<RecordKind>,
    /// The procedure that is read.
    procedure: Option<usize>,
    /// How many formals each procedure has.
    formals: Vec<u32>,
}

/// Reads the records that the header and the procedures announce.
pub fn walk(sheet: &[u8]) -> Walk {
    let mut walk = Walk {
        edition: edition::of_sheet(sheet),
        found: Vec::new(),
        end: 0,
        due: None,
        procedure: None,
        formals: Vec::new(),
    };
    // Where a record is not the one due, that is kept and the rest not read.
    let _ = walk.sheet(sheet);
    walk
}

/// The records of a well-formed sheet: refusals 1 to 5 have nothing to say.
pub fn well_formed(sheet: &[u8]) -> Option<Walk> {
    if sheet.len() > MAX_SHEET {
        return None;
    }
    let walk = walk(sheet);
    let whole = walk.due.is_none() && walk.end == sheet.len();
    let names = Misplaced::of(&walk);
    let within = |found: &Found| walk.excess(found).is_none() && names.in_record(found).is_none();
    (whole && walk.has_edition() && walk.found.iter().all(within)).then_some(walk)
}

impl Walk {
    fn sheet(&mut self, sheet: &[u8]) -> Option<()> {
        let header = self.next(sheet, RecordKind::Header, Context::Header)?;
        let [_, types, qualified, procedures] = header.values[..] else {
            return None;
        };
        let (mut named_rights, mut slots) = (Vec::new(), Vec::new());
        for _ in 0..types {
            let record = self.next(sheet, RecordKind::Type, Context::Type { qualified })?;
            named_rights.push(record.value(Field::NamedRights)?);
            slots.push(record.value(Field::SlotCount)?);
        }
        for number in 0..qualified {
            let named_rights = named_rights.clone();
            let context = Context::Qualified {
                number,
                named_rights,
            };
            self.next(sheet, RecordKind::Qualified, context)?;
        }
        for number in 0..procedures {
            self.procedure = Some(number as usize);
            let head = self.head(sheet, number, qualified, slots.len())?;
            self.formals.push(head.value(Field::Formals)?);
            self.rights_name(sheet, number, &named_rights)?;
            self.body(sheet, &head, qualified, &slots)?;
        }
        self.due = None;
        Some(())
    }

    fn head(&mut self, sheet: &[u8], number: u32, qualified: u32, types: usize) -> Option<Record> {
        let context = Context::Procedure {
            is_main: number == 0,
            types: types as u32,
            qualified,
        };
        self.next(sheet, RecordKind::Procedure, context)
    }

    /// The rights name, which is due exactly if its mark stands after the
    /// head of a procedure other than main.
    fn rights_name(&mut self, sheet: &[u8], number: u32, named_rights: &[u32]) -> Option<()> {
        let mark = RecordKind::Name.mark().as_bytes();
        if number > 0 && sheet.get(self.end..)?.starts_with(mark) {
            let named_rights = named_rights.to_vec();
            let context = Context::Name { named_rights };
            self.next(sheet, RecordKind::Name, context)?;
        }
        Some(())
    }

    /// The variables and the instructions of a procedure.
    fn body(&mut self, sheet: &[u8], head: &Record, qualified: u32, slots: &[u32]) -> Option<()> {
        let [owner, formals, variables, _, instructions] = head.values[..] else {
            return None;
        };
        for number in 0..variables {
            let is_formal = number < formals;
            let context = Context::Variable {
                is_formal,
                qualified,
            };
            self.next(sheet, RecordKind::Variable, context)?;
        }
        let owner = owner.checked_sub(2);
        let owner_slots = owner.and_then(|owner| slots.get(owner as usize));
        for number in 0..instructions {
            let context = Context::Instruction(Scope {
                variables,
                instructions,
                owner_slots: owner_slots.copied(),
                is_last: number + 1 == instructions,
            });
            self.next(sheet, RecordKind::Instruction, context)?;
        }
        Some(())
    }

    /// Whether the header names the edition that the records are read by; any
    /// other number is that of none.
    pub fn has_edition(&self) -> bool {
        let header = self.found.first();
        let named = header.and_then(|header| header.record.value(Field::Edition));
        named == Some(u32::from(self.edition.number()))
    }

    /// The first field of a record that is outside the layout, those of calls
    /// that wait for the procedure called last.
    pub fn excess(&self, found: &Found) -> Option<Excess> {
        let mut limits = Limits::of(&found.record, self.edition);
        limits.ask(&found.context);
        if let Context::Instruction(scope) = &found.context {
            call_limits(&mut limits, scope, &self.formals);
        }
        limits.exceeded.into_iter().next()
    }

    /// The record of the kind due at the end of those found.
    fn next(&mut self, sheet: &[u8], kind: RecordKind, context: Context) -> Option<Record> {
        self.due = Some(kind);
        let place = self.end;
        let record = Record::read(sheet.get(place..)?, self.edition)?;
        if record.kind != kind {
            return None;
        }
        self.end += kind.size(self.edition);
        self.found.push(Found {
            place,
            record: record.clone(),
            context,
            procedure: self.procedure,
        });
        Some(record)
    }
}
