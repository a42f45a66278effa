//! Values and what they carry, in the words of the text.

use super::machine::{Cell, Held};
use reference::machine::watched::Value;
use reference::Program;
use text::{Names, Notation, Sheet};

#[derive(Clone, Copy)]
pub struct Teller<'a> {
    pub program: &'a Program,
    pub sheet: &'a Sheet,
    pub names: &'a Names,
}

impl Teller<'_> {
    pub fn notation(&self) -> Notation<'_> {
        Notation {
            sheet: self.sheet,
            names: self.names,
        }
    }

    /// For example `14`, `object 2` or, watched, `object 2 call{read}`.
    pub fn cell(&self, cell: &Cell) -> String {
        let Some(Held { value, carried }) = cell else {
            return String::from("blank");
        };
        match (value, carried) {
            (Value::Integer(word), _) => word.to_string(),
            (Value::Object(number), None) => format!("object {number}"),
            (Value::Object(number), Some(carried)) => {
                format!("object {number} {}", self.notation().said(carried))
            }
        }
    }

    /// The value after a movement and, where it carried other rights before,
    /// those too.
    pub fn moved(&self, after: &Cell, before: &Cell) -> String {
        let said = self.cell(after);
        match (carried(after), carried(before)) {
            (Some(after), Some(before)) if after.rights() != before.rights() => {
                format!("{said} (was {})", self.notation().said(before))
            }
            _ => said,
        }
    }
}

fn carried(cell: &Cell) -> Option<&text::Type> {
    cell.as_ref()?.carried.as_ref()
}
