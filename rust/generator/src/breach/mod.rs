//! Accepted sheets with exactly one rule broken.
//!
//! Each flaw makes two sheets that differ in one record: a sound one, which
//! is accepted, and a broken one, with the number and the record that it must
//! be refused at. Both stand on a random accepted sheet, to which the types
//! that the flaw needs are added.

mod generic;
mod generic_call;
mod instruction;
mod kit;
mod movement;
mod record;

use crate::random::Random;
use crate::sheet::{At, Sheet};
pub use generic::{GenericFlaw, GenericRoute};
pub use generic_call::CallFlaw;
use kit::Kit;
use movement::Fault;

/// One way to break one access rule at one kind of place.
#[derive(Clone, Copy, Debug, PartialEq, Eq)]
pub enum Flaw {
    /// 6 at the TY.
    OpenSlot,
    /// 6 at the QT whose element it is.
    OpenElement,
    /// 6 at the PR.
    OpenResult(Owner),
    /// 6 at the VR of a formal, in its need.
    OpenNeed(Owner),
    /// 6 at the VR of a formal or another variable, in its inner type; the
    /// owner is none or another type.
    OpenInner { owner: Owner, formal: bool },
    /// 7: an amplified formal whose need has another base.
    AmplifiedNeed,
    /// 7: a formal of another type whose need is not equal to inner.
    PlainNeed(Difference),
    /// 8: the operand of a code has another kind than it must.
    Operand(u8, Operand),
    /// 9: the array right, or open, is lacking.
    Right(u8),
    /// 8 or 9: a movement does not fit.
    Moved(Route, u8),
    /// 8: elements with more rights than those asked for, under store.
    Stored(Route),
    /// 8: a call keeps the result of a procedure that has none.
    KeptNothing,
    /// 8: a return without a variable though there is a result.
    ReturnedNothing,
    /// 8: a return with a variable though there is no result.
    ReturnedTooMuch,
    /// 5, 7, 8 or 9: a rights name where it may not stand, or that is not
    /// reached.
    Generic(GenericFlaw),
    /// 8, 9, 20 or 21: a call that does not settle a rights name as it must.
    Settled(CallFlaw),
}

/// The owner of the procedure, seen from the declared type in question.
#[derive(Clone, Copy, Debug, PartialEq, Eq)]
pub enum Owner {
    None,
    Same,
    Other,
}

/// In what need and inner differ.
#[derive(Clone, Copy, Debug, PartialEq, Eq)]
pub enum Difference {
    Rights,
    Base,
    Element,
}

#[derive(Clone, Copy, Debug, PartialEq, Eq)]
pub enum Operand {
    A,
    B,
    C,
}

/// Where a value moves.
#[derive(Clone, Copy, Debug, PartialEq, Eq)]
pub enum Route {
    Bind,
    Fetch,
    Store,
    GetSlot,
    SetSlot,
    Actual,
    Kept,
    Returned,
}

/// Two sheets that differ in one record.
pub struct Breach {
    pub sound: Sheet,
    pub broken: Sheet,
    pub number: u8,
    /// The record at which the broken sheet must be refused.
    pub at: At,
}

impl Flaw {
    /// Every flaw that there is.
    pub fn all() -> Vec<Flaw> {
        let mut flaws = vec![
            Flaw::OpenSlot,
            Flaw::OpenElement,
            Flaw::AmplifiedNeed,
            Flaw::KeptNothing,
            Flaw::ReturnedNothing,
            Flaw::ReturnedTooMuch,
        ];
        flaws.extend(GenericFlaw::all().into_iter().map(Flaw::Generic));
        flaws.extend(CallFlaw::ALL.map(Flaw::Settled));
        for owner in [Owner::None, Owner::Same, Owner::Other] {
            flaws.push(Flaw::OpenResult(owner));
            flaws.push(Flaw::OpenNeed(owner));
        }
        for owner in [Owner::None, Owner::Other] {
            flaws.extend([true, false].map(|formal| Flaw::OpenInner { owner, formal }));
        }
        for difference in [Difference::Rights, Difference::Base, Difference::Element] {
            flaws.push(Flaw::PlainNeed(difference));
        }
        flaws.extend(OPERANDS.map(|(code, operand)| Flaw::Operand(code, operand)));
        flaws.extend([10, 11, 12, 14, 15].map(Flaw::Right));
        for number in [8, 9] {
            flaws.extend(ROUTES.map(|route| Flaw::Moved(route, number)));
        }
        flaws.extend(ROUTES.map(Flaw::Stored));
        flaws
    }

    /// A pair of sheets with and without this flaw.
    pub fn build(self, random: &mut Random) -> Breach {
        let kit = Kit::new(random);
        match self {
            Flaw::OpenSlot => record::open_slot(kit, random),
            Flaw::OpenElement => record::open_element(kit, random),
            Flaw::OpenResult(owner) => record::open_result(kit, random, owner),
            Flaw::OpenNeed(owner) => record::open_need(kit, random, owner),
            Flaw::OpenInner { owner, formal } => record::open_inner(kit, random, owner, formal),
            Flaw::AmplifiedNeed => record::amplified_need(kit, random),
            Flaw::PlainNeed(difference) => record::plain_need(kit, random, difference),
            Flaw::Operand(code, operand) => instruction::operand(kit, random, code, operand),
            Flaw::Right(code) => instruction::right(kit, random, code),
            Flaw::Moved(route, 8) => movement::moved(kit, random, route, Fault::Kind),
            Flaw::Moved(route, _) => movement::moved(kit, random, route, Fault::Right),
            Flaw::Stored(route) => movement::moved(kit, random, route, Fault::Store),
            Flaw::KeptNothing => movement::kept_nothing(kit, random),
            Flaw::ReturnedNothing => movement::returned_nothing(kit, random),
            Flaw::ReturnedTooMuch => movement::returned_too_much(kit, random),
            Flaw::Generic(flaw) => flaw.build(kit, random),
            Flaw::Settled(flaw) => flaw.build(kit, random),
        }
    }
}

/// The operands whose kind a code fixes, movements left aside except for the
/// size of 12 and the new record of 13, which have one possible kind.
const OPERANDS: [(u8, Operand); 24] = [
    (1, Operand::A),
    (2, Operand::A),
    (2, Operand::B),
    (2, Operand::C),
    (3, Operand::A),
    (3, Operand::B),
    (3, Operand::C),
    (4, Operand::A),
    (4, Operand::B),
    (4, Operand::C),
    (5, Operand::A),
    (7, Operand::A),
    (8, Operand::A),
    (9, Operand::A),
    (9, Operand::B),
    (10, Operand::B),
    (10, Operand::C),
    (11, Operand::A),
    (11, Operand::B),
    (12, Operand::A),
    (12, Operand::B),
    (13, Operand::A),
    (14, Operand::B),
    (15, Operand::A),
];

const ROUTES: [Route; 8] = [
    Route::Bind,
    Route::Fetch,
    Route::Store,
    Route::GetSlot,
    Route::SetSlot,
    Route::Actual,
    Route::Kept,
    Route::Returned,
];
