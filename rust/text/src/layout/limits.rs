//! The limits of the fields of a record, as the layout of documents 01 and 02
//! has them.

use super::instruction::{instruction_limits, Scope};
use crate::field::Field;
use crate::record::{Record, NAME_BASE};
use reference::layout::{
    MAX_FORMALS, MAX_INSTRUCTIONS, MAX_PROCEDURES, MAX_QUALIFIED, MAX_SLOTS, MAX_TYPES,
    MAX_VARIABLES, NONE,
};
use reference::Edition;

/// What the records before a record say about its limits.
#[derive(Clone)]
pub enum Context {
    Header,
    Type {
        qualified: u32,
    },
    Qualified {
        number: u32,
        /// The named rights of each type.
        named_rights: Vec<u32>,
    },
    Procedure {
        is_main: bool,
        types: u32,
        qualified: u32,
    },
    Name {
        /// The named rights of each type.
        named_rights: Vec<u32>,
    },
    Variable {
        is_formal: bool,
        qualified: u32,
    },
    Instruction(Scope),
}

/// The value of a field that names nothing.
pub const UNUSED: u32 = NONE as u32;

/// A field out of range, in words.
pub struct Excess {
    pub field: Field,
    pub words: String,
}

/// Asks one limit of a record after the other and keeps what exceeds them.
pub struct Limits<'a> {
    record: &'a Record,
    edition: Edition,
    pub exceeded: Vec<Excess>,
}

impl<'a> Limits<'a> {
    pub fn of(record: &'a Record, edition: Edition) -> Self {
        Limits {
            record,
            edition,
            exceeded: Vec::new(),
        }
    }

    pub fn value(&self, field: Field) -> u32 {
        self.record.value(field).unwrap_or_default()
    }

    pub fn require(&mut self, field: Field, holds: bool, words: String) {
        if !holds {
            self.exceeded.push(Excess { field, words });
        }
    }

    /// A count from the least to the most.
    pub fn count(&mut self, field: Field, what: &str, least: usize, most: usize) {
        let value = self.value(field);
        let holds = (least..=most).contains(&(value as usize));
        let words = format!("{what}: {value}, it must be from {least} to {most}");
        self.require(field, holds, words);
    }

    /// The number of something of which there are so many.
    pub fn below(&mut self, field: Field, what: &str, most: u32) {
        let value = self.value(field);
        let words = format!("{what}: {value}, it must be below {most}");
        self.require(field, value < most, words);
    }

    pub fn unused(&mut self, field: Field, what: &str) {
        let value = self.value(field);
        let words = format!("{what}: {value}, it is not used here and must be {UNUSED}");
        self.require(field, value == UNUSED, words);
    }

    /// Asks the limits of a record's fields, in their order.
    pub fn ask(&mut self, context: &Context) {
        match context {
            Context::Header => {
                self.count(Field::Types, "types", 0, MAX_TYPES);
                self.count(Field::Qualified, "qualified types", 0, MAX_QUALIFIED);
                self.count(Field::Procedures, "procedures", 1, MAX_PROCEDURES);
            }
            Context::Type { qualified } => self.ask_type(*qualified),
            Context::Qualified {
                number,
                named_rights,
            } => self.ask_qualified(*number, named_rights),
            Context::Procedure {
                is_main,
                types,
                qualified,
            } => self.ask_procedure(*is_main, *types, *qualified),
            Context::Name { named_rights } => self.ask_name(named_rights),
            Context::Variable {
                is_formal,
                qualified,
            } => {
                self.below(Field::Inner, "inner, a qualified type", *qualified);
                match is_formal {
                    true => self.below(Field::Need, "need, a qualified type", *qualified),
                    false => self.unused(Field::Need, "need of a variable that is no formal"),
                }
            }
            Context::Instruction(scope) => instruction_limits(self, scope),
        }
    }

    fn ask_type(&mut self, qualified: u32) {
        self.ask_named_rights();
        self.count(Field::SlotCount, "slots", 0, MAX_SLOTS);
        let slots = self.value(Field::SlotCount) as usize;
        for slot in 0..MAX_SLOTS {
            let field = Field::Slot(slot);
            match slot < slots {
                true => {
                    let what = format!("slot {slot}, a qualified type");
                    self.below(field, &what, qualified);
                }
                false => self.unused(field, &format!("slot {slot}")),
            }
        }
    }

    /// Their limit is the edition's.
    fn ask_named_rights(&mut self) {
        let count = self.value(Field::NamedRights) as usize;
        let limit = |edition: Edition| (edition.number(), edition.most_named_rights());
        let ((edition, most), (second, allowed)) = (limit(self.edition), limit(Edition::Second));
        let words =
            format!("named rights: {count}, in edition {edition} it must be from 0 to {most}");
        let words = match count <= allowed {
            true => format!("{words}; edition {second} allows {allowed}"),
            false => words,
        };
        self.require(Field::NamedRights, count <= most, words);
    }

    /// A set of rights as it stands, a digit for each.
    fn set(&self, field: Field) -> String {
        let digits = 8 * field.width(self.edition);
        format!("0b{:0digits$b}", self.value(field))
    }

    fn ask_qualified(&mut self, number: u32, named_rights: &[u32]) {
        let base = self.value(Field::Base);
        let rights = self.value(Field::Rights);
        if base != NAME_BASE {
            self.below(Field::Base, "base, a type", named_rights.len() as u32 + 2);
        }
        let (allowed, whose) = match base as usize {
            0 => (0, String::from("an integer has no rights")),
            255 => (0, String::from("?R has its rights from a call")),
            1 => (
                0b1110,
                String::from("a tray has the rights 1 fetch, 2 store, 3 size"),
            ),
            base => {
                let named = named_rights.get(base - 2).copied().unwrap_or(0);
                let whose = format!("type {base} has the rights 0 to {named}");
                (rights_to(named), whose)
            }
        };
        let words = format!("rights: {}, and {whose}", self.set(Field::Rights));
        self.require(Field::Rights, rights & !allowed == 0, words);
        match base {
            1 => {
                let what = "element, a qualified type before this one";
                self.below(Field::Element, what, number);
            }
            _ => self.unused(Field::Element, "element of what is no tray"),
        }
    }

    /// A declared type, and of its rights those that it names.
    fn ask_name(&mut self, named_rights: &[u32]) {
        let (base, least) = (self.value(Field::Base), self.value(Field::Least));
        let last = named_rights.len() + 1;
        let words = format!("base of ?R: {base}, it must be a declared type");
        let words = match last {
            1 => format!("{words}, and there is none"),
            _ => format!("{words}, from 2 to {last}"),
        };
        let number = base.checked_sub(2);
        let named = number.and_then(|number| named_rights.get(number as usize));
        self.require(Field::Base, named.is_some(), words);
        let named = named.copied().unwrap_or(0);
        let set = self.set(Field::Least);
        let words = format!("least set of ?R: {set}, and open, right 0, is none of its rights");
        self.require(Field::Least, least & 1 == 0, words);
        let words =
            format!("least set of ?R: {set}, and type {base} names the rights 1 to {named}");
        self.require(Field::Least, least & !rights_to(named) == 0, words);
    }

    fn ask_procedure(&mut self, is_main: bool, types: u32, qualified: u32) {
        let (owner, formals) = (self.value(Field::Owner), self.value(Field::Formals));
        let result = self.value(Field::Result);
        let last = types + 1;
        let words = format!("owner: {owner}, it must be 0 or a type from 2 to {last}");
        let is_type = (2..=last).contains(&owner);
        self.require(Field::Owner, owner == 0 || is_type, words);
        self.count(Field::Formals, "formals", 0, MAX_FORMALS);
        let least = formals as usize;
        let what = "variables, formals included";
        self.count(Field::Variables, what, least, MAX_VARIABLES);
        let words =
            format!("result: {result}, it must be 255 or a qualified type below {qualified}");
        let holds = result == UNUSED || result < qualified;
        self.require(Field::Result, holds, words);
        self.count(Field::Instructions, "instructions", 1, MAX_INSTRUCTIONS);
        for (field, holds, what) in [
            (Field::Owner, owner == 0, "owner"),
            (Field::Formals, formals == 0, "formals"),
            (Field::Result, result == UNUSED, "result"),
        ] {
            let words = format!("the first procedure is main, which has no {what}");
            self.require(field, holds || !is_main, words);
        }
    }
}

/// Bits 0 to named, of which there are at most 32.
fn rights_to(named: u32) -> u32 {
    u32::MAX >> (31 - named.min(31))
}
