//! From the bytes of a sheet to the lines of its text, and back.

use crate::field::Field;
use crate::record::RecordKind;
use crate::span::Span;

/// A record of a sheet.
#[derive(Clone, Copy, Debug, PartialEq, Eq)]
pub enum At {
    Header,
    Type(usize),
    Qualified(usize),
    Procedure(usize),
    /// The rights name of a procedure.
    Name(usize),
    /// A variable or an instruction of a procedure.
    Variable(usize, usize),
    Instruction(usize, usize),
    /// A record of a raw text, where nothing is counted.
    Raw(RecordKind),
    /// Bytes of a raw text that are no record.
    Bytes,
}

/// A record, its bytes, and the columns that it and its parts stand in.
#[derive(Clone, Debug)]
pub struct Entry {
    pub at: At,
    /// The first byte and their number.
    pub place: usize,
    pub size: usize,
    /// None for the header of a named text, which has no line.
    pub span: Option<Span>,
    pub parts: Vec<(Field, Span)>,
}

impl Entry {
    pub fn part(&self, wanted: Field) -> Option<Span> {
        let mut parts = self.parts.iter();
        let found = parts.find(|(field, _)| *field == wanted);
        found.map(|&(_, span)| span)
    }
}

/// All records of a sheet in their order.
#[derive(Clone, Debug, Default)]
pub struct Listing {
    pub entries: Vec<Entry>,
}

impl Listing {
    /// The record that the byte is of.
    pub fn at_byte(&self, byte: usize) -> Option<&Entry> {
        let after = self.entries.partition_point(|entry| entry.place <= byte);
        let entry = self.entries[..after].last()?;
        (byte < entry.place + entry.size).then_some(entry)
    }

    pub fn find(&self, at: At) -> Option<&Entry> {
        self.entries.iter().find(|entry| entry.at == at)
    }

    /// The records that stand in a line.
    pub fn on_line(&self, line: usize) -> impl Iterator<Item = &Entry> {
        let entries = self.entries.iter();
        entries.filter(move |entry| entry.span.is_some_and(|span| span.line == line))
    }
}
