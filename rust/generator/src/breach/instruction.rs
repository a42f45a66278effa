//! Flaws of operands: a kind that a code does not take (8), and a right of
//! the array or record that is lacking (9).

use crate::breach::kit::Kit;
use crate::breach::{Breach, Operand};
use crate::random::Random;
use crate::records::{InstructionRecord, FETCH, NONE, OPEN, SIZE, STORE};
use crate::sheet::{At, Procedure};

/// Variables 2, 3 and 4 are the operands a, b and c; 0 and 1 are for the rest
/// of the body.
const A: usize = 2;

/// The types of the three operands that make an instruction sound, None
/// where the code has no such variable, and its field k.
struct Sound {
    operands: [Option<u8>; 3],
    k: u16,
}

fn sound(kit: &Kit, random: &mut Random, code: u8, owner: u8) -> Sound {
    let integer = Some(kit.integer);
    let array = |random: &mut Random, rights| {
        kit.pick(random, |kit, n| kit.typing.is_array_with(n, rights))
    };
    let element = |array: u8| Some(kit.typing.get(array).element);
    let mut k = 0;
    let operands = match code {
        2..=4 => [integer, integer, integer],
        9 => [Some(array(random, 0)), integer, None],
        10 => {
            let array = array(random, FETCH);
            [element(array), Some(array), integer]
        }
        11 => {
            let array = array(random, STORE);
            [Some(array), integer, element(array)]
        }
        12 => [integer, Some(array(random, SIZE)), None],
        13 => [Some(record(kit, random, owner, 0)), None, None],
        14 | 15 => {
            let slot = random.below(kit.slots().len());
            k = slot as u16;
            let slot_type = Some(kit.slots()[slot]);
            let open = Some(record(kit, random, owner, OPEN));
            match code {
                14 => [slot_type, open, None],
                _ => [open, slot_type, None],
            }
        }
        _ => [integer, None, None],
    };
    Sound { operands, k }
}

/// A type of the base with the rights.
fn record(kit: &Kit, random: &mut Random, base: u8, rights: u32) -> u8 {
    kit.pick(random, |kit, number| {
        let record = kit.typing.get(number);
        record.base == base && record.rights & rights == rights
    })
}

/// The sheet with the instruction; in the broken one an operand has another
/// type.
fn breach(
    mut kit: Kit,
    random: &mut Random,
    number: u8,
    procedure_owner: u8,
    (code, sound): (u8, Sound),
    (operand, other): (Operand, u8),
) -> Breach {
    let mut procedure = Procedure::new(procedure_owner, NONE).variables(&[kit.integer; A]);
    let mut fields = [NONE; 3];
    for (field, inner) in fields.iter_mut().zip(sound.operands) {
        if inner.is_some() {
            *field = procedure.variables.len() as u8;
        }
        procedure = procedure.variables(inner.as_slice());
    }
    let [a, b, c] = fields;
    let k = if code == 1 {
        random.word() as u16
    } else {
        sound.k
    };
    let instruction = InstructionRecord { code, a, b, c, k };
    let (body, position) = kit.body_around(random, instruction, NONE);
    let procedure_number = kit.insert(random, procedure.body(&body));
    let variable = A + operand as usize;
    kit.breach(
        number,
        At::Instruction(procedure_number, position),
        |sheet| {
            sheet.procedures[procedure_number].variables[variable].inner = other;
        },
    )
}

pub fn operand(kit: Kit, random: &mut Random, code: u8, operand: Operand) -> Breach {
    let owner = match code {
        13..=15 => kit.subject,
        _ => kit.any_owner(random),
    };
    let sound = sound(&kit, random, code, kit.subject);
    let base = sound.operands[operand as usize]
        .map(|inner| kit.typing.get(inner).base)
        .expect("the code has the operand");
    let other = kit.pick(random, |kit, number| {
        kit.typing.get(number).base != base && kit.allowed(owner, number)
    });
    breach(kit, random, 8, owner, (code, sound), (operand, other))
}

pub fn right(kit: Kit, random: &mut Random, code: u8) -> Breach {
    let (operand, right, owner) = match code {
        10 => (Operand::B, FETCH, kit.any_owner(random)),
        11 => (Operand::A, STORE, kit.any_owner(random)),
        12 => (Operand::B, SIZE, kit.any_owner(random)),
        14 => (Operand::B, OPEN, kit.subject),
        _ => (Operand::A, OPEN, kit.subject),
    };
    // Only arrays of one element come with and without every right.
    let (sound, lacking) = loop {
        let sound = sound(&kit, random, code, kit.subject);
        let inner = sound.operands[operand as usize];
        let kind = inner.map(|inner| kit.typing.get(inner));
        let lacking = kit.own_where(|kit, number| {
            let record = kit.typing.get(number);
            kind.is_some_and(|kind| (kind.base, kind.element) == (record.base, record.element))
                && record.rights & right == 0
        });
        if let Some(lacking) = random.pick(&lacking) {
            break (sound, lacking);
        }
    };
    breach(kit, random, 9, owner, (code, sound), (operand, lacking))
}
