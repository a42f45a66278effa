//! What must hold of a text.

use super::printable::hidden;
use crate::counts::{Counts, Event};
use std::cell::OnceCell;
use text::{assemble, disassemble, Error, Span};

/// The longest message of one error.
const LONGEST: usize = 300;

/// A text and what the assembler says of it.
pub struct Text {
    text: String,
    outcome: OnceCell<Result<Vec<u8>, Vec<Error>>>,
}

impl Text {
    pub fn new(text: String) -> Self {
        let outcome = OnceCell::new();
        Text { text, outcome }
    }

    /// The bytes, or the errors. It is a property's turn when this panics.
    fn outcome(&self) -> &Result<Vec<u8>, Vec<Error>> {
        self.outcome.get_or_init(|| assembled(&self.text))
    }

    fn errors(&self) -> &[Error] {
        self.outcome().as_ref().err().map_or(&[], Vec::as_slice)
    }
}

/// The bytes of a text, or what is wrong with it.
pub fn assembled(text: &str) -> Result<Vec<u8>, Vec<Error>> {
    assemble(text).map(|assembled| assembled.sheet)
}

pub fn assembles_or_not(text: &Text, counts: &mut Counts) -> Result<(), String> {
    let outcome = text.outcome();
    counts.add(Event::Text(outcome.is_ok()));
    match outcome.as_ref().is_err_and(Vec::is_empty) {
        true => Err(String::from("neither bytes nor an error")),
        false => Ok(()),
    }
}

pub fn places_are_inside(text: &Text, _: &mut Counts) -> Result<(), String> {
    let lines: Vec<&str> = text.text.lines().collect();
    for error in text.errors() {
        let Span { line, start, end } = error.span;
        // An empty text has an empty line.
        let said = lines.get(line.wrapping_sub(1)).copied();
        let said = said.or((lines.is_empty() && line == 1).then_some(""));
        let columns = said.map_or(0, |said| said.chars().count() + 1);
        if start < 1 || start > end || end > columns {
            return Err(format!("{:?} is outside: {error}", error.span));
        }
    }
    Ok(())
}

pub fn messages_are_short(text: &Text, _: &mut Counts) -> Result<(), String> {
    for Error { message, .. } in text.errors() {
        if message.is_empty() || message.len() > LONGEST {
            let start: String = message.chars().take(80).collect();
            return Err(format!("{} bytes: {start}", message.len()));
        }
        if let Some(character) = hidden(message) {
            return Err(format!("{character:?} in {message:?}"));
        }
    }
    Ok(())
}

pub fn comes_back(text: &Text, _: &mut Counts) -> Result<(), String> {
    match text.outcome() {
        Ok(sheet) => sheet_comes_back(sheet),
        Err(_) => Ok(()),
    }
}

/// The disassembly of any bytes assembles to them again.
pub fn sheet_comes_back(sheet: &[u8]) -> Result<(), String> {
    match assembled(&disassemble(sheet)) {
        Ok(again) if again == sheet => Ok(()),
        Ok(_) => Err(String::from("its disassembly makes other bytes")),
        Err(errors) => Err(format!(
            "its disassembly does not assemble: {}",
            errors.first().map_or(String::new(), Error::to_string)
        )),
    }
}
