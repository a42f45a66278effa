//! The limits of the fields of an instruction.

use super::limits::{Limits, UNUSED};
use crate::field::Field;
use crate::mnemonic::{Mnemonic, Piece};

/// What an instruction may name in its procedure.
#[derive(Clone)]
pub struct Scope {
    pub variables: u32,
    pub instructions: u32,
    /// The slots of the owner's type, if there is an owner.
    pub owner_slots: Option<u32>,
    pub is_last: bool,
}

const LAST_CODE: usize = 17;

/// Asks all but what waits for the procedure called.
pub fn instruction_limits(limits: &mut Limits, scope: &Scope) {
    let code = limits.value(Field::Code);
    limits.count(Field::Code, "code", 1, LAST_CODE);
    let mnemonic = u8::try_from(code).ok().and_then(Mnemonic::by_code);
    let Some(mnemonic) = mnemonic else {
        return;
    };
    let word = mnemonic.word;
    let owned = scope.owner_slots.is_some() || !matches!(code, 13..=15);
    let words = format!("{word} needs a procedure that is of a type");
    limits.require(Field::Code, owned, words);
    for (field, name, piece) in [
        (Field::A, "a", Piece::A),
        (Field::B, "b", Piece::B),
        (Field::C, "c", Piece::C),
    ] {
        let used = mnemonic.pieces.contains(&piece);
        match used || may_name(mnemonic, field, limits.value(field)) {
            true => limits.below(field, &format!("{name}, a variable"), scope.variables),
            false if waits(mnemonic, field) => {}
            false => limits.unused(field, name),
        }
    }
    constant_limit(limits, mnemonic, scope);
    let ends = !scope.is_last || mnemonic.pieces == [Piece::MaybeA];
    let words = format!("the last instruction is a return, found {word}");
    limits.require(Field::Code, ends, words);
}

/// Whether the field a of a call or a return names a variable.
fn may_name(mnemonic: &Mnemonic, field: Field, value: u32) -> bool {
    let maybe = matches!(mnemonic.pieces, [Piece::Call] | [Piece::MaybeA]);
    maybe && field == Field::A && value != UNUSED
}

/// The first actual waits for the procedure called.
fn waits(mnemonic: &Mnemonic, field: Field) -> bool {
    mnemonic.pieces == [Piece::Call] && field == Field::B
}

fn constant_limit(limits: &mut Limits, mnemonic: &Mnemonic, scope: &Scope) {
    let uses = |piece: Piece| mnemonic.pieces.contains(&piece);
    if uses(Piece::Label) {
        limits.below(Field::K, "k, an instruction", scope.instructions);
    } else if uses(Piece::Slot) {
        limits.below(Field::K, "k, a slot", scope.owner_slots.unwrap_or(0));
    } else if !uses(Piece::Number) && !uses(Piece::Call) {
        let k = limits.value(Field::K);
        let words = format!("k: {k}, it is not used here and must be 0");
        limits.require(Field::K, k == 0, words);
    }
}

/// Asks of a call what waits for the procedure called, by the formals of all
/// procedures.
pub fn call_limits(limits: &mut Limits, scope: &Scope, formals: &[u32]) {
    if limits.value(Field::Code) != 16 {
        return;
    }
    limits.below(Field::K, "k, a procedure", formals.len() as u32);
    let (first, callee) = (limits.value(Field::B), limits.value(Field::K));
    let Some(&formals) = formals.get(callee as usize) else {
        return;
    };
    let variables = scope.variables;
    let holds = match formals {
        0 => first == UNUSED,
        formals => first != UNUSED && first + formals <= variables,
    };
    let words = match (formals, first) {
        (0, _) => format!("b: {first}, it must be 255, since procedure {callee} has no formals"),
        (_, UNUSED) => format!("b: 255, and procedure {callee} has formals: {formals}"),
        _ => {
            let last = first + formals - 1;
            format!("b: {first}, so that the actuals are variables {first} to {last}, and they must be below {variables}")
        }
    };
    limits.require(Field::B, holds, words);
}
