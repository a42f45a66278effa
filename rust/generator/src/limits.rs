//! The fields of each record with values just inside and just outside every
//! limit that document 01 gives them, and document 02 in edition 2.

use crate::records::{named_rights, ARRAY_ALL, NONE, OPEN};
use crate::sheet::{At, Procedure, Sheet};

/// A field of a record: where it stands, its bytes, and values to try.
pub struct Field {
    pub offset: usize,
    pub width: usize,
    pub values: Vec<u32>,
}

/// A field of one byte with the values around some limits.
fn byte(offset: usize, limits: &[usize]) -> Field {
    let near = limits
        .iter()
        .flat_map(|&limit| [limit.saturating_sub(1), limit, limit + 1])
        .map(|value| value.min(255) as u32);
    Field {
        offset,
        width: 1,
        values: near.collect(),
    }
}

/// A field of two bytes with the values around some limits.
fn word(offset: usize, limits: &[usize]) -> Field {
    let near = limits
        .iter()
        .flat_map(|&limit| [limit.saturating_sub(1), limit, limit + 1])
        .map(|value| value.min(65_535) as u32);
    Field {
        offset,
        width: 2,
        values: near.collect(),
    }
}

/// The fields of a record, marks left aside.
pub fn fields(sheet: &Sheet, at: At) -> Vec<Field> {
    let types = sheet.types.len();
    let qualified = sheet.qualified.len();
    match at {
        At::Header => vec![
            byte(2, &[1, 2, 255]),
            byte(3, &[0, types, 32, 255]),
            byte(4, &[0, qualified, 64, 255]),
            byte(5, &[1, sheet.procedures.len(), 64, 255]),
        ],
        At::Type(number) => {
            let slots = usize::from(sheet.types[number].slot_count);
            let mut fields = vec![byte(2, &[0, 15, 31, 255]), byte(3, &[0, slots, 8, 255])];
            fields.extend((4..12).map(|offset| byte(offset, &[0, qualified, 255])));
            fields
        }
        At::Qualified(number) => vec![
            byte(2, &[0, 1, types + 2, 255]),
            rights(sheet, usize::from(sheet.qualified[number].base)),
            byte(
                3 + sheet.edition().rights_bytes(),
                &[0, number, qualified, 255],
            ),
        ],
        At::Procedure(number) => procedure_fields(sheet, &sheet.procedures[number]),
        At::Bound(number) => {
            let bound = sheet.procedures[number].bound;
            let base = bound.map_or(0, |bound| usize::from(bound.base));
            vec![byte(2, &[0, 2, types + 1, 255]), rights(sheet, base)]
        }
        At::Variable(..) => vec![byte(2, &[0, qualified, 255]), byte(3, &[0, qualified, 255])],
        At::Instruction(number, _) => instruction_fields(sheet, &sheet.procedures[number]),
    }
}

/// No right, every single right, and all rights up to and beyond the last, of
/// a base.
fn rights(sheet: &Sheet, base: usize) -> Field {
    let declared = base.checked_sub(2).and_then(|of| sheet.types.get(of));
    let last = declared.map_or(3, |declared| declared.named_rights);
    let mut values = vec![0, ARRAY_ALL, ARRAY_ALL | 1, u32::MAX];
    let width = sheet.edition().rights_bytes();
    values.extend((0..8 * width).map(|right| 1 << right));
    values.push(OPEN | named_rights(last));
    values.push(named_rights(last));
    values.push(OPEN | named_rights(last + 1));
    Field {
        offset: 3,
        width,
        values,
    }
}

fn procedure_fields(sheet: &Sheet, procedure: &Procedure) -> Vec<Field> {
    let formals = usize::from(procedure.head.formals);
    let variables = procedure.variables.len();
    vec![
        byte(2, &[0, 1, 2, sheet.types.len() + 1, 255]),
        byte(3, &[0, formals, variables, 8, 255]),
        byte(4, &[formals, variables, 32, 255]),
        byte(5, &[0, sheet.qualified.len(), usize::from(NONE)]),
        word(6, &[0, procedure.instructions.len(), 1000, 65_535]),
    ]
}

fn instruction_fields(sheet: &Sheet, procedure: &Procedure) -> Vec<Field> {
    let variables = procedure.variables.len();
    let operand = [0, variables, usize::from(NONE)];
    let owner = usize::from(procedure.head.owner);
    let declared = owner.checked_sub(2).and_then(|of| sheet.types.get(of));
    let slots = declared.map_or(0, |declared| usize::from(declared.slot_count));
    vec![
        byte(2, &[1, 13, 16, 17, 255]),
        byte(3, &operand),
        byte(4, &[0, variables, variables.saturating_sub(2), 254]),
        byte(5, &operand),
        word(
            6,
            &[
                0,
                procedure.instructions.len(),
                sheet.procedures.len(),
                slots,
                256,
                65_535,
            ],
        ),
    ]
}
