//! A whole sheet as records, its bytes, and the places of its records.

use crate::records::{
    BoundRecord, Header, InstructionRecord, ProcedureRecord, QualifiedRecord, RecordKind,
    TypeRecord, VariableRecord, NONE,
};
use reference::Edition;

#[derive(Clone, Debug, PartialEq)]
pub struct Sheet {
    pub header: Header,
    pub types: Vec<TypeRecord>,
    pub qualified: Vec<QualifiedRecord>,
    pub procedures: Vec<Procedure>,
}

/// A PR record with the GN, VR and IN records that follow it.
#[derive(Clone, Debug, PartialEq)]
pub struct Procedure {
    pub head: ProcedureRecord,
    pub bound: Option<BoundRecord>,
    pub variables: Vec<VariableRecord>,
    pub instructions: Vec<InstructionRecord>,
}

/// One record of a sheet, by its indexes.
#[derive(Clone, Copy, Debug, PartialEq, Eq)]
pub enum At {
    Header,
    Type(usize),
    Qualified(usize),
    Procedure(usize),
    /// The GN of a procedure that has one.
    Bound(usize),
    Variable(usize, usize),
    Instruction(usize, usize),
}

impl At {
    pub fn kind(self) -> RecordKind {
        match self {
            At::Header => RecordKind::Header,
            At::Type(_) => RecordKind::Type,
            At::Qualified(_) => RecordKind::Qualified,
            At::Procedure(_) => RecordKind::Procedure,
            At::Bound(_) => RecordKind::Bound,
            At::Variable(..) => RecordKind::Variable,
            At::Instruction(..) => RecordKind::Instruction,
        }
    }
}

impl Sheet {
    /// The edition by which the records are written: the first, where the
    /// header names none that there is.
    pub fn edition(&self) -> Edition {
        Edition::numbered(self.header.edition).unwrap_or(Edition::First)
    }

    fn size(&self, at: At) -> usize {
        at.kind().size(self.edition())
    }

    /// Makes the counts of the header and the procedures those of the records
    /// that are there.
    pub fn seal(&mut self) {
        self.header.types = self.types.len() as u8;
        self.header.qualified = self.qualified.len() as u8;
        self.header.procedures = self.procedures.len() as u8;
        for procedure in &mut self.procedures {
            procedure.head.variables = procedure.variables.len() as u8;
            procedure.head.instructions = procedure.instructions.len() as u16;
        }
    }

    pub fn encode(&self) -> Vec<u8> {
        let edition = self.edition();
        let mut out = Vec::new();
        self.header.encode(&mut out);
        self.types.iter().for_each(|record| record.encode(&mut out));
        for record in &self.qualified {
            record.encode(edition, &mut out);
        }
        for procedure in &self.procedures {
            procedure.head.encode(&mut out);
            if let Some(bound) = &procedure.bound {
                bound.encode(edition, &mut out);
            }
            for variable in &procedure.variables {
                variable.encode(&mut out);
            }
            for instruction in &procedure.instructions {
                instruction.encode(&mut out);
            }
        }
        out
    }

    /// All records in their order.
    pub fn records(&self) -> Vec<At> {
        let mut all = vec![At::Header];
        all.extend((0..self.types.len()).map(At::Type));
        all.extend((0..self.qualified.len()).map(At::Qualified));
        for (number, procedure) in self.procedures.iter().enumerate() {
            all.push(At::Procedure(number));
            all.extend(procedure.bound.map(|_| At::Bound(number)));
            all.extend((0..procedure.variables.len()).map(|i| At::Variable(number, i)));
            all.extend((0..procedure.instructions.len()).map(|i| At::Instruction(number, i)));
        }
        all
    }

    /// All records with the bytes at which they start.
    pub fn places(&self) -> Vec<(At, usize)> {
        let mut place = 0;
        let mut all = Vec::new();
        for at in self.records() {
            all.push((at, place));
            place += self.size(at);
        }
        all
    }

    /// The byte at which a record of this sheet starts.
    pub fn place(&self, wanted: At) -> usize {
        self.records()
            .into_iter()
            .take_while(|&at| at != wanted)
            .map(|at| self.size(at))
            .sum()
    }

    pub fn byte_count(&self) -> usize {
        self.records().into_iter().map(|at| self.size(at)).sum()
    }
}

/// Writes a sheet record by record; the counts are filled in at the end.
pub struct SheetBuilder {
    sheet: Sheet,
}

impl Default for SheetBuilder {
    fn default() -> Self {
        SheetBuilder {
            sheet: Sheet {
                header: Header {
                    edition: 1,
                    types: 0,
                    qualified: 0,
                    procedures: 0,
                },
                types: Vec::new(),
                qualified: Vec::new(),
                procedures: Vec::new(),
            },
        }
    }
}

impl SheetBuilder {
    pub fn new() -> Self {
        SheetBuilder::default()
    }

    pub fn in_edition(edition: Edition) -> Self {
        let mut builder = SheetBuilder::default();
        builder.sheet.header.edition = edition.number();
        builder
    }

    /// The next type, 2 being the first.
    pub fn record_type(mut self, named_rights: u8, slots: &[u8]) -> Self {
        self.sheet.types.push(TypeRecord::new(named_rights, slots));
        self
    }

    pub fn qualified(mut self, record: QualifiedRecord) -> Self {
        self.sheet.qualified.push(record);
        self
    }

    pub fn integer(self) -> Self {
        self.qualified(QualifiedRecord::INTEGER)
    }

    pub fn array(self, element: u8, rights: u32) -> Self {
        self.qualified(QualifiedRecord::array(element, rights))
    }

    pub fn record(self, base: u8, rights: u32) -> Self {
        self.qualified(QualifiedRecord::record(base, rights))
    }

    /// ?R.
    pub fn generic(self) -> Self {
        self.qualified(QualifiedRecord::GENERIC)
    }

    pub fn procedure(mut self, procedure: Procedure) -> Self {
        self.sheet.procedures.push(procedure);
        self
    }

    /// The bytes of the records written so far.
    pub fn byte_count(&self) -> usize {
        self.sheet.byte_count()
    }

    pub fn build(mut self) -> Sheet {
        self.sheet.seal();
        self.sheet
    }
}

impl Procedure {
    /// A procedure without variables, of owner 0 or a type, with a result or
    /// NONE.
    pub fn new(owner: u8, result: u8) -> Self {
        Procedure {
            head: ProcedureRecord {
                owner,
                formals: 0,
                variables: 0,
                result,
                instructions: 0,
            },
            bound: None,
            variables: Vec::new(),
            instructions: Vec::new(),
        }
    }

    pub fn main() -> Self {
        Procedure::new(0, NONE)
    }

    pub fn formals(&self) -> &[VariableRecord] {
        &self.variables[..usize::from(self.head.formals)]
    }

    /// The type of the result, if there is one.
    pub fn result(&self) -> Option<u8> {
        Some(self.head.result).filter(|&result| result != NONE)
    }

    /// Declares a rights name.
    pub fn bound(mut self, base: u8, least: u32) -> Self {
        self.bound = Some(BoundRecord { base, least });
        self
    }

    /// Adds a formal; all formals are to be added before other variables.
    pub fn formal(mut self, inner: u8, need: u8) -> Self {
        self.head.formals += 1;
        self.variables.push(VariableRecord { inner, need });
        self
    }

    pub fn variable(mut self, inner: u8) -> Self {
        self.variables.push(VariableRecord { inner, need: NONE });
        self
    }

    pub fn variables(self, inners: &[u8]) -> Self {
        inners.iter().fold(self, |all, &inner| all.variable(inner))
    }

    pub fn body(mut self, instructions: &[InstructionRecord]) -> Self {
        self.instructions.extend(instructions);
        self
    }
}
