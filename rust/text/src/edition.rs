//! The edition of a sheet by its bytes, and of a text by its first statement.

use crate::errors::Errors;
use crate::span::{Error, Span};
use reference::Edition;

/// The word of the statement that says the edition of a text.
pub const EDITION: &str = "edition";

/// The edition by which the records of a sheet are read and written: that of
/// the header at its start, and the first where no header of the second stands
/// there.
pub fn of_sheet(sheet: &[u8]) -> Edition {
    let named = sheet.strip_prefix(b"HD").and_then(|after| after.first());
    let edition = named.and_then(|&number| Edition::numbered(number));
    edition.unwrap_or(Edition::First)
}

/// What the statements of a text say of its edition, as far as they are read.
#[derive(Default)]
pub struct OfText {
    /// By an `edition` line.
    said: Option<Edition>,
    /// Whether a statement of another kind is read.
    begun: bool,
    /// Whether a line before all others could not be read.
    unread: bool,
}

impl OfText {
    /// The edition: the first where none is said. What could not be read may
    /// have said the second, which allows more.
    pub fn edition(&self) -> Edition {
        let unsaid = match self.unread {
            true => Edition::Second,
            false => Edition::First,
        };
        self.said.unwrap_or(unsaid)
    }

    /// An `edition` line, which stands before all others.
    pub fn say(&mut self, edition: Edition, span: Span, errors: &mut Errors) {
        let found = match self.said {
            Some(_) => Some("a second one"),
            None => self.begun.then_some("it after others"),
        };
        if let Some(found) = found {
            let message = format!("expected one `edition` line, before all others, found {found}");
            errors.add(Error::new(span, message));
        }
        self.said.get_or_insert(edition);
    }

    /// Any other statement.
    pub fn begin(&mut self) {
        self.begun = true;
    }

    /// A line that could not be read, and may have been an `edition` line.
    pub fn miss(&mut self) {
        self.unread |= !self.begun;
    }
}
