//! Flaws of rights names outside of calls: 5 where ?R may not be used and for
//! the fields of GN and of its QT, 7 for need and inner, and 8 and 9 for what
//! moves into ?R and out of it.

use crate::breach::kit::Kit;
use crate::breach::Breach;
use crate::operations::{bind, fetch, get_slot, give_back, leave, new_record, set_slot, store};
use crate::random::Random;
use crate::records::{InstructionRecord, NONE, OPEN};
use crate::sheet::{At, Procedure};

#[derive(Clone, Copy, Debug, PartialEq, Eq)]
pub enum GenericFlaw {
    /// 5 at the TY, ?R standing so deep.
    Slot(usize),
    /// 5 at the PR.
    Result(usize),
    /// 5 at the VR of a formal or another variable, in its inner type.
    Inner {
        formal: bool,
        depth: usize,
    },
    /// 5 at the VR of a formal, in its need.
    Need(usize),
    /// 5 at the VR of main.
    InMain,
    /// 5 at the GN: no declared type.
    BoundBase,
    /// 5 at the GN: open, or a right that the type does not have.
    BoundOpen,
    BoundRight,
    /// 5 at the QT.
    Rights,
    Element,
    /// 7: ?R is not both need and inner.
    OtherNeed(usize),
    OtherInner(usize),
    /// 7: beside an inner type of the owner.
    OwnedInner,
    /// 8 or 9: a value moves into ?R, or out of it.
    Moved(GenericRoute, u8),
    /// 8: arrays whose elements are ?R and what it may stand for.
    Elements {
        into: bool,
    },
    /// 9 in the module of the base, 8 elsewhere.
    Record(u8, u8),
}

#[derive(Clone, Copy, Debug, PartialEq, Eq)]
pub enum GenericRoute {
    Into,
    Stored,
    Returned,
    OutOf,
    Fetched,
}

impl GenericFlaw {
    pub fn all() -> Vec<GenericFlaw> {
        let mut all = vec![
            GenericFlaw::InMain,
            GenericFlaw::BoundBase,
            GenericFlaw::BoundOpen,
            GenericFlaw::BoundRight,
            GenericFlaw::Rights,
            GenericFlaw::Element,
            GenericFlaw::OwnedInner,
        ];
        for depth in 0..3 {
            all.extend([
                GenericFlaw::Slot(depth),
                GenericFlaw::Result(depth),
                GenericFlaw::Need(depth),
                GenericFlaw::OtherNeed(depth),
                GenericFlaw::OtherInner(depth),
            ]);
            all.extend([true, false].map(|formal| GenericFlaw::Inner { formal, depth }));
        }
        for number in [8, 9] {
            all.extend(ROUTES.map(|route| GenericFlaw::Moved(route, number)));
            all.extend([13, 14, 15].map(|code| GenericFlaw::Record(code, number)));
        }
        all.extend([true, false].map(|into| GenericFlaw::Elements { into }));
        all
    }

    pub(super) fn build(self, kit: Kit, random: &mut Random) -> Breach {
        match self {
            GenericFlaw::Slot(depth) => slot(kit, random, depth),
            GenericFlaw::Result(_)
            | GenericFlaw::Inner { .. }
            | GenericFlaw::Need(_)
            | GenericFlaw::InMain => without_bound(kit, random, self),
            GenericFlaw::BoundBase | GenericFlaw::BoundOpen | GenericFlaw::BoundRight => {
                bound_field(kit, random, self)
            }
            GenericFlaw::Rights | GenericFlaw::Element => qualified_field(kit, random, self),
            GenericFlaw::OtherNeed(_) | GenericFlaw::OtherInner(_) | GenericFlaw::OwnedInner => {
                unequal(kit, random, self)
            }
            GenericFlaw::Moved(route, number) => moved(kit, random, route, number),
            GenericFlaw::Elements { into } => elements(kit, random, into),
            GenericFlaw::Record(code, number) => record(kit, random, code, number),
        }
    }
}

const ROUTES: [GenericRoute; 5] = [
    GenericRoute::Into,
    GenericRoute::Stored,
    GenericRoute::Returned,
    GenericRoute::OutOf,
    GenericRoute::Fetched,
];

fn slot(kit: Kit, random: &mut Random, depth: usize) -> Breach {
    let subject = usize::from(kit.subject) - 2;
    let slot = random.below(kit.slots().len());
    let generic = kit.generic[depth];
    kit.breach(5, At::Type(subject), |sheet| {
        sheet.types[subject].slots[slot] = generic;
    })
}

/// A procedure without a GN in which a type is exchanged for one with ?R.
fn without_bound(mut kit: Kit, random: &mut Random, flaw: GenericFlaw) -> Breach {
    let plain = kit.own[3];
    let owner = kit.any_owner(random);
    let procedure = Procedure::new(owner, plain)
        .formal(kit.own[6], kit.own[6])
        .variables(&[kit.integer, plain])
        .body(&[give_back(2)]);
    let number = match flaw {
        GenericFlaw::InMain => 0,
        _ => kit.insert(random, procedure),
    };
    if number == 0 && kit.sheet.procedures[0].variables.len() < 32 {
        let main = kit.sheet.procedures[0].clone();
        kit.sheet.procedures[0] = main.variable(plain);
        kit.sheet.seal();
    }
    let last = kit.sheet.procedures[number].variables.len() - 1;
    let (at, depth) = match flaw {
        GenericFlaw::Result(depth) => (At::Procedure(number), depth),
        GenericFlaw::Need(depth) => (At::Variable(number, 0), depth),
        GenericFlaw::Inner { formal, depth } => {
            (At::Variable(number, if formal { 0 } else { last }), depth)
        }
        _ => (At::Variable(number, last), random.below(3)),
    };
    let generic = kit.generic[depth];
    kit.breach(5, at, |sheet| {
        let procedure = &mut sheet.procedures[number];
        match (at, flaw) {
            (At::Variable(_, variable), GenericFlaw::Need(_)) => {
                procedure.variables[variable].need = generic;
            }
            (At::Variable(_, variable), _) => procedure.variables[variable].inner = generic,
            _ => procedure.head.result = generic,
        }
    })
}

/// A procedure with a rights name on the subject and ?R as its first formal.
fn bounded(kit: &Kit, owner: u8, result: u8) -> Procedure {
    let [generic, array, _] = kit.generic;
    Procedure::new(owner, result)
        .bound(kit.subject, kit.low)
        .formal(kit.integer, kit.integer)
        .formal(generic, generic)
        .formal(array, array)
}

fn bound_field(mut kit: Kit, random: &mut Random, flaw: GenericFlaw) -> Breach {
    let owner = kit.any_owner(random);
    let number = kit.insert(random, bounded(&kit, owner, NONE).body(&[leave()]));
    let types = kit.sheet.types.len() as u8;
    let strange = [0, 1, types + 2, types + 3, 128, 255][random.below(6)];
    let named_rights = kit.sheet.types[usize::from(kit.subject) - 2].named_rights;
    let most = kit.sheet.edition().most_named_rights();
    let right = match usize::from(named_rights) {
        named if named == most => OPEN,
        named => 1 << random.between(named + 1, most),
    };
    kit.breach(5, At::Bound(number), |sheet| {
        if let Some(bound) = &mut sheet.procedures[number].bound {
            match flaw {
                GenericFlaw::BoundBase => bound.base = strange,
                GenericFlaw::BoundOpen => bound.least |= OPEN,
                _ => bound.least |= right,
            }
        }
    })
}

fn qualified_field(kit: Kit, random: &mut Random, flaw: GenericFlaw) -> Breach {
    let generic = usize::from(kit.generic[0]);
    let rights = 1 << random.between(0, kit.sheet.edition().most_named_rights());
    let element = random.below(255) as u8;
    kit.breach(5, At::Qualified(generic), |sheet| match flaw {
        GenericFlaw::Rights => sheet.qualified[generic].rights = rights,
        _ => sheet.qualified[generic].element = element,
    })
}

/// A formal that has ?R as need or inner alone.
fn unequal(mut kit: Kit, random: &mut Random, flaw: GenericFlaw) -> Breach {
    let plain = [kit.own[2], kit.own[8], kit.own[14]];
    let (owner, depth) = match flaw {
        GenericFlaw::OtherNeed(depth) | GenericFlaw::OtherInner(depth) => {
            (kit.any_owner(random), depth)
        }
        _ => (kit.subject, 0),
    };
    let generic = kit.generic[depth];
    let procedure = Procedure::new(owner, NONE).bound(kit.subject, kit.low);
    let (inner, need) = match flaw {
        GenericFlaw::OwnedInner => (kit.own[5], kit.own[1]),
        _ => (generic, generic),
    };
    let procedure = procedure.formal(inner, need).body(&[leave()]);
    let number = kit.insert(random, procedure);
    kit.breach(7, At::Variable(number, 0), |sheet| {
        let variable = &mut sheet.procedures[number].variables[0];
        match flaw {
            GenericFlaw::OtherNeed(depth) => variable.need = plain[depth],
            GenericFlaw::OtherInner(depth) => variable.inner = plain[depth],
            _ => variable.need = generic,
        }
    })
}

/// After the formals of [`bounded`]: the variable that moves.
const MOVING: u8 = 3;

/// The sheet with a procedure that has a rights name, around one instruction;
/// in the broken one the variable that moves has another type.
fn exchanged(
    mut kit: Kit,
    random: &mut Random,
    procedure: Procedure,
    instruction: InstructionRecord,
    number: u8,
    bad: u8,
) -> Breach {
    let (mut body, position) = kit.body_around(random, instruction, NONE);
    if let (Some(last), false) = (body.last_mut(), procedure.head.result == NONE) {
        *last = give_back(1);
    }
    let procedure = kit.insert(random, procedure.body(&body));
    kit.breach(number, At::Instruction(procedure, position), |sheet| {
        sheet.procedures[procedure].variables[usize::from(MOVING)].inner = bad;
    })
}

fn moved(kit: Kit, random: &mut Random, route: GenericRoute, number: u8) -> Breach {
    let owner = kit.any_owner(random);
    let own = kit.own.clone();
    let [generic, array, _] = kit.generic;
    let into = [
        GenericRoute::Into,
        GenericRoute::Stored,
        GenericRoute::Returned,
    ]
    .contains(&route);
    let good = match into {
        true => vec![generic],
        false => vec![generic, own[1], own[2]],
    };
    let bad = match (number, into) {
        (8, _) => vec![kit.integer, own[6], own[8], array],
        (_, true) => vec![own[1], own[2], own[3]],
        (_, false) => vec![own[3]],
    };
    let [good, bad] = [good, bad].map(|types| types[random.below(types.len())]);
    let result = match route {
        GenericRoute::Returned => generic,
        _ => NONE,
    };
    let instruction = match route {
        GenericRoute::Into => bind(1, MOVING),
        GenericRoute::Stored => store(2, 0, MOVING),
        GenericRoute::Returned => give_back(MOVING),
        GenericRoute::OutOf => bind(MOVING, 1),
        GenericRoute::Fetched => fetch(MOVING, 2, 0),
    };
    let procedure = bounded(&kit, owner, result).variable(good);
    exchanged(kit, random, procedure, instruction, number, bad)
}

/// Elements are equal only if both are ?R.
fn elements(kit: Kit, random: &mut Random, into: bool) -> Breach {
    let owner = kit.any_owner(random);
    let depth = random.between(1, 2);
    let bad = [kit.own[8], kit.own[14]][depth - 1];
    let array = kit.generic[depth];
    let procedure = bounded(&kit, owner, NONE).variables(&[array, array]);
    let instruction = match into {
        true => bind(MOVING + 1, MOVING),
        false => bind(MOVING, MOVING + 1),
    };
    exchanged(kit, random, procedure, instruction, 8, bad)
}

/// A record of the owner's type is exchanged for ?R: on that type, or on
/// another.
fn record(kit: Kit, random: &mut Random, code: u8, number: u8) -> Breach {
    let slot = random.below(kit.slots().len());
    let value = kit.slots()[slot];
    let instruction = match code {
        13 => new_record(MOVING),
        14 => get_slot(MOVING + 1, MOVING, slot as u16),
        _ => set_slot(MOVING, MOVING + 1, slot as u16),
    };
    let mut procedure = bounded(&kit, kit.subject, NONE).variables(&[kit.own[5], value]);
    if number == 8 {
        procedure = procedure.bound(kit.stranger, kit.low);
    }
    let bad = kit.generic[0];
    exchanged(kit, random, procedure, instruction, number, bad)
}
