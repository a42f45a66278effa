//! The seven kinds of record, with their fields as they stand in a sheet.
//!
//! Nothing here keeps a field in range: sheets that must be refused are
//! written with the same structures. Rights are numbers of 32 bits, of which
//! a record of edition 1 has the lower half.

use reference::Edition;

/// The byte that says that a field names nothing.
pub const NONE: u8 = 255;

/// The base of a QT that stands for the rights name of a procedure.
pub const GENERIC: u8 = 255;

/// Rights of an array, as bits of a QT record.
pub const FETCH: u32 = 1 << 1;
pub const STORE: u32 = 1 << 2;
pub const SIZE: u32 = 1 << 3;
pub const ARRAY_ALL: u32 = FETCH | STORE | SIZE;
/// The right open of a declared type.
pub const OPEN: u32 = 1;

/// Rights 1 to this number, as bits.
pub fn named_rights(count: u8) -> u32 {
    ((1u64 << (count + 1)) - 2) as u32
}

/// The bytes that rights take in an edition.
fn rights_bytes(rights: u32, edition: Edition) -> impl Iterator<Item = u8> {
    let bytes = rights.to_le_bytes().into_iter();
    bytes.take(edition.rights_bytes())
}

/// The kinds of record, by their marks.
#[derive(Clone, Copy, Debug, PartialEq, Eq, PartialOrd, Ord)]
pub enum RecordKind {
    Header,
    Type,
    Qualified,
    Procedure,
    /// A GN, which only some procedures have.
    Bound,
    Variable,
    Instruction,
}

impl RecordKind {
    pub const ALL: [RecordKind; 7] = [
        RecordKind::Header,
        RecordKind::Type,
        RecordKind::Qualified,
        RecordKind::Procedure,
        RecordKind::Bound,
        RecordKind::Variable,
        RecordKind::Instruction,
    ];

    pub fn mark(self) -> [u8; 2] {
        match self {
            RecordKind::Header => *b"HD",
            RecordKind::Type => *b"TY",
            RecordKind::Qualified => *b"QT",
            RecordKind::Procedure => *b"PR",
            RecordKind::Bound => *b"GN",
            RecordKind::Variable => *b"VR",
            RecordKind::Instruction => *b"IN",
        }
    }

    /// The bytes of a record of this kind, mark included.
    pub fn size(self, edition: Edition) -> usize {
        match self {
            RecordKind::Header => 6,
            RecordKind::Type => 12,
            RecordKind::Qualified => 4 + edition.rights_bytes(),
            RecordKind::Procedure | RecordKind::Instruction => 8,
            RecordKind::Bound => 3 + edition.rights_bytes(),
            RecordKind::Variable => 4,
        }
    }
}

#[derive(Clone, Debug, PartialEq)]
pub struct Header {
    pub edition: u8,
    pub types: u8,
    pub qualified: u8,
    pub procedures: u8,
}

impl Header {
    pub fn encode(&self, out: &mut Vec<u8>) {
        out.extend(RecordKind::Header.mark());
        out.extend([self.edition, self.types, self.qualified, self.procedures]);
    }
}

#[derive(Clone, Debug, PartialEq)]
pub struct TypeRecord {
    pub named_rights: u8,
    pub slot_count: u8,
    pub slots: [u8; 8],
}

impl TypeRecord {
    pub fn new(named_rights: u8, used: &[u8]) -> Self {
        let mut slots = [NONE; 8];
        slots[..used.len()].copy_from_slice(used);
        TypeRecord {
            named_rights,
            slot_count: used.len() as u8,
            slots,
        }
    }

    pub fn used_slots(&self) -> &[u8] {
        &self.slots[..usize::from(self.slot_count)]
    }

    pub fn encode(&self, out: &mut Vec<u8>) {
        out.extend(RecordKind::Type.mark());
        out.extend([self.named_rights, self.slot_count]);
        out.extend(self.slots);
    }
}

#[derive(Clone, Copy, Debug, PartialEq)]
pub struct QualifiedRecord {
    pub base: u8,
    pub rights: u32,
    pub element: u8,
}

impl QualifiedRecord {
    pub const INTEGER: QualifiedRecord = QualifiedRecord {
        base: 0,
        rights: 0,
        element: NONE,
    };

    /// "?R" in document 02.
    pub const GENERIC: QualifiedRecord = QualifiedRecord {
        base: GENERIC,
        rights: 0,
        element: NONE,
    };

    pub fn array(element: u8, rights: u32) -> Self {
        QualifiedRecord {
            base: 1,
            rights,
            element,
        }
    }

    pub fn record(base: u8, rights: u32) -> Self {
        QualifiedRecord {
            base,
            rights,
            element: NONE,
        }
    }

    pub fn encode(&self, edition: Edition, out: &mut Vec<u8>) {
        out.extend(RecordKind::Qualified.mark());
        out.push(self.base);
        out.extend(rights_bytes(self.rights, edition));
        out.push(self.element);
    }
}

#[derive(Clone, Debug, PartialEq)]
pub struct ProcedureRecord {
    pub owner: u8,
    pub formals: u8,
    pub variables: u8,
    pub result: u8,
    pub instructions: u16,
}

impl ProcedureRecord {
    pub fn encode(&self, out: &mut Vec<u8>) {
        out.extend(RecordKind::Procedure.mark());
        out.extend([self.owner, self.formals, self.variables, self.result]);
        out.extend(self.instructions.to_le_bytes());
    }
}

/// A GN: the rights name of a procedure has a base and a least set.
#[derive(Clone, Copy, Debug, PartialEq)]
pub struct BoundRecord {
    pub base: u8,
    pub least: u32,
}

impl BoundRecord {
    pub fn encode(&self, edition: Edition, out: &mut Vec<u8>) {
        out.extend(RecordKind::Bound.mark());
        out.push(self.base);
        out.extend(rights_bytes(self.least, edition));
    }
}

#[derive(Clone, Copy, Debug, PartialEq)]
pub struct VariableRecord {
    pub inner: u8,
    pub need: u8,
}

impl VariableRecord {
    pub fn encode(&self, out: &mut Vec<u8>) {
        out.extend(RecordKind::Variable.mark());
        out.extend([self.inner, self.need]);
    }
}

#[derive(Clone, Copy, Debug, PartialEq)]
pub struct InstructionRecord {
    pub code: u8,
    pub a: u8,
    pub b: u8,
    pub c: u8,
    pub k: u16,
}

impl InstructionRecord {
    pub fn encode(&self, out: &mut Vec<u8>) {
        out.extend(RecordKind::Instruction.mark());
        out.extend([self.code, self.a, self.b, self.c]);
        out.extend(self.k.to_le_bytes());
    }
}
