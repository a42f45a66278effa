//! The seven kinds of record: their marks, their sizes and their fields.

use crate::field::Field;
use reference::Edition;

/// The value that says that a field of one byte names nothing.
pub const NONE: u32 = reference::layout::NONE as u32;

/// The base of a qualified type that stands for the rights name.
pub const NAME_BASE: u32 = 255;

#[derive(Clone, Copy, Debug, PartialEq, Eq)]
pub enum RecordKind {
    Header,
    Type,
    Qualified,
    Procedure,
    /// The rights name of a procedure.
    Name,
    Variable,
    Instruction,
}

use RecordKind::{Header, Instruction, Name, Procedure, Qualified, Type, Variable};

impl RecordKind {
    pub const ALL: [RecordKind; 7] = [
        Header,
        Type,
        Qualified,
        Procedure,
        Name,
        Variable,
        Instruction,
    ];

    pub fn mark(self) -> &'static str {
        match self {
            Header => "HD",
            Type => "TY",
            Qualified => "QT",
            Procedure => "PR",
            Name => "GN",
            Variable => "VR",
            Instruction => "IN",
        }
    }

    pub fn by_mark(mark: &[u8]) -> Option<RecordKind> {
        let mut all = RecordKind::ALL.into_iter();
        all.find(|kind| kind.mark().as_bytes() == mark)
    }

    /// The fields after the mark, in order.
    pub fn fields(self) -> Vec<Field> {
        match self {
            Header => vec![
                Field::Edition,
                Field::Types,
                Field::Qualified,
                Field::Procedures,
            ],
            Type => {
                let mut fields = vec![Field::NamedRights, Field::SlotCount];
                fields.extend((0..8).map(Field::Slot));
                fields
            }
            Qualified => vec![Field::Base, Field::Rights, Field::Element],
            Procedure => vec![
                Field::Owner,
                Field::Formals,
                Field::Variables,
                Field::Result,
                Field::Instructions,
            ],
            Name => vec![Field::Base, Field::Least],
            Variable => vec![Field::Inner, Field::Need],
            Instruction => vec![Field::Code, Field::A, Field::B, Field::C, Field::K],
        }
    }

    /// The bytes of a record, mark included.
    pub fn size(self, edition: Edition) -> usize {
        let widths = self.fields().into_iter().map(|field| field.width(edition));
        2 + widths.sum::<usize>()
    }
}

/// A record with the values of its fields as they stand.
#[derive(Clone, Debug, PartialEq, Eq)]
pub struct Record {
    pub kind: RecordKind,
    /// In the order of [`RecordKind::fields`].
    pub values: Vec<u32>,
}

impl Record {
    pub fn new(kind: RecordKind, values: &[u32]) -> Self {
        let values = values.to_vec();
        Record { kind, values }
    }

    /// The record with a known mark that stands whole at the beginning.
    pub fn read(bytes: &[u8], edition: Edition) -> Option<Record> {
        let kind = RecordKind::by_mark(bytes.get(..2)?)?;
        let mut rest = bytes.get(2..kind.size(edition))?;
        let mut values = Vec::new();
        for field in kind.fields() {
            let (bytes, after) = rest.split_at(field.width(edition));
            let high_first = bytes.iter().rev();
            values.push(high_first.fold(0, |above, &byte| above << 8 | u32::from(byte)));
            rest = after;
        }
        Some(Record { kind, values })
    }

    pub fn write(&self, edition: Edition, out: &mut Vec<u8>) {
        out.extend(self.kind.mark().as_bytes());
        for (field, value) in self.kind.fields().into_iter().zip(&self.values) {
            out.extend(&value.to_le_bytes()[..field.width(edition)]);
        }
    }

    /// The value of a field; None where the record has no such field.
    pub fn value(&self, wanted: Field) -> Option<u32> {
        let fields = self.kind.fields();
        let number = fields.iter().position(|&field| field == wanted)?;
        self.values.get(number).copied()
    }

    /// The value of a field as a count or an index, 0 where there is none.
    pub fn number(&self, field: Field) -> usize {
        self.value(field).unwrap_or(0) as usize
    }
}
