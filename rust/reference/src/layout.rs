//! The layout pass: records in their order, refusals 2 to 5.
//!
//! For the record that is due: 2 if it does not stand whole, 3 if its mark is
//! another, 4 for the edition, then 5 for a field out of range. Every field
//! of a record refuses with the same number and place, so their order within
//! the record cannot be seen.

use crate::decode::{decode, Fields, Scope};
use crate::edition::Edition;
use crate::generic::Bound;
use crate::program::{
    Instruction, Kind, Operation, Procedure, Program, QualifiedType, RecordType, Rights, Variable,
};
use crate::refusal::{Reason, Refusal};

pub const MAX_TYPES: usize = 32;
pub const MAX_QUALIFIED: usize = 64;
pub const MAX_PROCEDURES: usize = 64;
pub const MAX_SLOTS: usize = 8;
pub const MAX_FORMALS: usize = 8;
pub const MAX_VARIABLES: usize = 32;
pub const MAX_INSTRUCTIONS: usize = 1000;

/// The byte that says that a field names nothing.
pub const NONE: u8 = 255;

/// Reads all records and sees that no byte is left over; the pass for calls is
/// still to come.
pub fn read(sheet: &[u8]) -> Result<Program, Refusal> {
    let mut reader = Reader { sheet, place: 0 };
    let counts = read_header(&mut reader)?;
    let mut program = Program {
        types: Vec::new(),
        qualified: Vec::new(),
        procedures: Vec::new(),
    };
    for _ in 0..counts.types {
        let declared = read_type(&mut reader, &counts)?;
        program.types.push(declared);
    }
    for _ in 0..counts.qualified {
        let qualified = read_qualified(&mut reader, counts.edition, &program)?;
        program.qualified.push(qualified);
    }
    for _ in 0..counts.procedures {
        let procedure = read_procedure(&mut reader, counts.edition, &program)?;
        program.procedures.push(procedure);
    }
    if reader.place < sheet.len() {
        return Err(Refusal::new(Reason::Truncated, reader.place));
    }
    Ok(program)
}

/// Where the next record is due.
struct Reader<'a> {
    sheet: &'a [u8],
    place: usize,
}

impl<'a> Reader<'a> {
    /// The next record of so many bytes, mark included, and the place it
    /// starts at.
    fn record_of(&mut self, mark: &[u8; 2], size: usize) -> Result<(usize, &'a [u8]), Refusal> {
        let place = self.place;
        let bytes = self.sheet.get(place..place + size);
        let bytes = bytes.ok_or(Refusal::new(Reason::Truncated, place))?;
        if !bytes.starts_with(mark) {
            return Err(Refusal::new(Reason::WrongMark, place));
        }
        self.place += size;
        Ok((place, bytes))
    }

    /// The next record, of N bytes whatever the edition.
    fn record<const N: usize>(&mut self, mark: &[u8; 2]) -> Result<(usize, [u8; N]), Refusal> {
        let (place, bytes) = self.record_of(mark, N)?;
        let bytes = bytes.try_into().expect("a record of N bytes");
        Ok((place, bytes))
    }

    /// Whether the mark stands where the next record is due.
    fn at_mark(&self, mark: &[u8; 2]) -> bool {
        self.sheet[self.place..].starts_with(mark)
    }
}

/// Refuses the record at the place with 5 unless its field is in range.
fn in_range(holds: bool, place: usize) -> Result<(), Refusal> {
    if holds {
        Ok(())
    } else {
        Err(Refusal::new(Reason::OutOfRange, place))
    }
}

/// What the header says.
struct Counts {
    edition: Edition,
    types: usize,
    qualified: usize,
    procedures: usize,
}

fn read_header(reader: &mut Reader) -> Result<Counts, Refusal> {
    let (place, [_, _, edition, types, qualified, procedures]) = reader.record(b"HD")?;
    let edition = Edition::numbered(edition).ok_or(Refusal::new(Reason::WrongEdition, place))?;
    let counts = Counts {
        edition,
        types: usize::from(types),
        qualified: usize::from(qualified),
        procedures: usize::from(procedures),
    };
    in_range(counts.types <= MAX_TYPES, place)?;
    in_range(counts.qualified <= MAX_QUALIFIED, place)?;
    in_range((1..=MAX_PROCEDURES).contains(&counts.procedures), place)?;
    Ok(counts)
}

fn read_type(reader: &mut Reader, counts: &Counts) -> Result<RecordType, Refusal> {
    let (place, bytes) = reader.record::<12>(b"TY")?;
    let [_, _, named_rights, slot_count, slot_bytes @ ..] = bytes;
    let named_rights = usize::from(named_rights);
    let slot_count = usize::from(slot_count);
    in_range(named_rights <= counts.edition.most_named_rights(), place)?;
    in_range(slot_count <= MAX_SLOTS, place)?;
    let (used, unused) = slot_bytes.split_at(slot_count);
    let slots: Vec<usize> = used.iter().copied().map(usize::from).collect();
    in_range(slots.iter().all(|&slot| slot < counts.qualified), place)?;
    in_range(unused.iter().all(|&byte| byte == NONE), place)?;
    Ok(RecordType {
        place,
        named_rights,
        slots,
    })
}

/// A set of rights in two or four bytes, the lowest rights first.
fn read_rights(bytes: &[u8]) -> Rights {
    let bits = bytes.iter().rev();
    Rights::from_bits(bits.fold(0, |above, &byte| above << 8 | u32::from(byte)))
}

fn read_qualified(
    reader: &mut Reader,
    edition: Edition,
    program: &Program,
) -> Result<QualifiedType, Refusal> {
    let (place, bytes) = reader.record_of(b"QT", 4 + edition.rights_bytes())?;
    let (rights, element) = bytes[3..].split_at(edition.rights_bytes());
    let rights = read_rights(rights);
    let element = usize::from(element[0]);
    let kind = match usize::from(bytes[2]) {
        0 => Kind::Integer,
        1 => Kind::Array { element },
        255 => Kind::Generic,
        base => Kind::Record { of: base - 2 },
    };
    let rights_fit = match kind {
        Kind::Integer | Kind::Generic => rights.members().next().is_none(),
        Kind::Array { .. } => rights
            .members()
            .all(|right| (Rights::FETCH..=Rights::SIZE).contains(&right)),
        Kind::Record { of } => {
            let declared = program.types.get(of);
            let declared = declared.ok_or(Refusal::new(Reason::OutOfRange, place))?;
            rights.members().all(|right| right <= declared.named_rights)
        }
    };
    in_range(rights_fit, place)?;
    // An element must be an earlier qualified type: those read so far.
    match kind {
        Kind::Array { element } => in_range(element < program.qualified.len(), place)?,
        _ => in_range(element == usize::from(NONE), place)?,
    }
    Ok(QualifiedType {
        place,
        kind,
        rights,
    })
}

/// The fields of a PR record, once they are known to be in range.
struct ProcedureHead {
    place: usize,
    owner: Option<usize>,
    formals: usize,
    variables: usize,
    result: Option<usize>,
    instructions: usize,
}

fn read_procedure(
    reader: &mut Reader,
    edition: Edition,
    program: &Program,
) -> Result<Procedure, Refusal> {
    let head = read_procedure_head(reader, program)?;
    let bound = read_bound(reader, edition, program)?;
    let mut variables = Vec::new();
    for number in 0..head.variables {
        let is_formal = number < head.formals;
        variables.push(read_variable(reader, program, is_formal)?);
    }
    let scope = Scope {
        variables: head.variables,
        instructions: head.instructions,
        owner_slots: head.owner.map(|owner| program.types[owner].slots.len()),
    };
    let mut instructions = Vec::new();
    for number in 0..head.instructions {
        let is_last = number + 1 == head.instructions;
        instructions.push(read_instruction(reader, &scope, is_last)?);
    }
    Ok(Procedure {
        place: head.place,
        owner: head.owner,
        formals: head.formals,
        result: head.result,
        bound,
        variables,
        instructions,
    })
}

/// "A procedure but main may declare one rights name by a GN record after its
/// PR": a GN is due if its mark stands there, and never a second one.
fn read_bound(
    reader: &mut Reader,
    edition: Edition,
    program: &Program,
) -> Result<Option<Bound>, Refusal> {
    let is_main = program.procedures.is_empty();
    if is_main || !reader.at_mark(b"GN") {
        return Ok(None);
    }
    let (place, bytes) = reader.record_of(b"GN", 3 + edition.rights_bytes())?;
    let least = read_rights(&bytes[3..]);
    let of = usize::from(bytes[2]).checked_sub(2);
    let of = of.filter(|&of| of < program.types.len());
    let of = of.ok_or(Refusal::new(Reason::OutOfRange, place))?;
    // Open is not a named right.
    let named = 1..=program.types[of].named_rights;
    in_range(least.members().all(|right| named.contains(&right)), place)?;
    Ok(Some(Bound { place, of, least }))
}

fn read_procedure_head(reader: &mut Reader, program: &Program) -> Result<ProcedureHead, Refusal> {
    let (place, bytes) = reader.record(b"PR")?;
    let [_, _, owner, formals, variables, result, low, high] = bytes;
    let owner = match usize::from(owner) {
        0 => None,
        1 => return Err(Refusal::new(Reason::OutOfRange, place)),
        number => Some(number - 2),
    };
    let head = ProcedureHead {
        place,
        owner,
        formals: usize::from(formals),
        variables: usize::from(variables),
        result: (result != NONE).then_some(usize::from(result)),
        instructions: usize::from(u16::from_le_bytes([low, high])),
    };
    in_range(
        head.owner.is_none_or(|owner| owner < program.types.len()),
        place,
    )?;
    in_range(head.formals <= MAX_FORMALS, place)?;
    in_range(
        (head.formals..=MAX_VARIABLES).contains(&head.variables),
        place,
    )?;
    in_range(
        head.result
            .is_none_or(|result| result < program.qualified.len()),
        place,
    )?;
    in_range((1..=MAX_INSTRUCTIONS).contains(&head.instructions), place)?;
    let is_main = program.procedures.is_empty();
    let plain = head.owner.is_none() && head.formals == 0 && head.result.is_none();
    in_range(plain || !is_main, place)?;
    Ok(head)
}

fn read_variable(
    reader: &mut Reader,
    program: &Program,
    is_formal: bool,
) -> Result<Variable, Refusal> {
    let (place, [_, _, inner, need]) = reader.record(b"VR")?;
    let inner = usize::from(inner);
    let need = (need != NONE).then_some(usize::from(need));
    in_range(inner < program.qualified.len(), place)?;
    in_range(
        need.is_none_or(|need| need < program.qualified.len()),
        place,
    )?;
    in_range(need.is_some() == is_formal, place)?;
    Ok(Variable { place, inner, need })
}

fn read_instruction(
    reader: &mut Reader,
    scope: &Scope,
    is_last: bool,
) -> Result<Instruction, Refusal> {
    let (place, [_, _, code, a, b, c, low, high]) = reader.record(b"IN")?;
    let fields = Fields {
        code,
        a,
        b,
        c,
        k: u16::from_le_bytes([low, high]),
    };
    let operation = decode(&fields, scope).ok_or(Refusal::new(Reason::OutOfRange, place))?;
    let is_return = matches!(operation, Operation::Return { .. });
    in_range(is_return || !is_last, place)?;
    Ok(Instruction { place, operation })
}
