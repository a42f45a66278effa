//! Flaws of movements, of kept results and of returns: 8 and 9.

use crate::breach::kit::Kit;
use crate::breach::{Breach, Route};
use crate::operations::{bind, call, fetch, get_slot, give_back, leave, set_slot, store};
use crate::random::Random;
use crate::records::{InstructionRecord, FETCH, NONE, OPEN, STORE};
use crate::sheet::{At, Procedure};
use crate::typing::Movement;

/// Variable 0 is an integer, 1 is for the return, 2 the one that moves.
const MOVING: u8 = 2;

/// The variable that moves, in the sound and in the broken sheet.
struct Ends {
    good: u8,
    bad: u8,
}

/// What is wrong with a movement.
#[derive(Clone, Copy, PartialEq)]
pub enum Fault {
    Kind,
    Right,
    /// The kind, for the store of the destination alone.
    Store,
}

impl Fault {
    fn number(self) -> u8 {
        match self {
            Fault::Kind | Fault::Store => 8,
            Fault::Right => 9,
        }
    }

    fn is_of(self, kit: &Kit, (source, destination): (u8, u8)) -> bool {
        let movement = kit.typing.movement(source, destination);
        match self {
            Fault::Kind => movement == Movement::WrongKind,
            Fault::Right => movement == Movement::LacksRight,
            Fault::Store => {
                movement == Movement::WrongKind && kit.typing.widens(source, destination)
            }
        }
    }
}

/// Types for the variable at the free end of a movement whose other end is
/// fixed, if the kit has them. The movement is given as its two types.
fn ends(
    kit: &Kit,
    random: &mut Random,
    owner: u8,
    fault: Fault,
    movement: impl Fn(u8) -> (u8, u8),
) -> Option<Ends> {
    let allowed = kit.own_where(|kit, number| kit.allowed(owner, number));
    let (mut good, mut bad) = (allowed.clone(), allowed);
    good.retain(|&number| {
        let (source, destination) = movement(number);
        kit.typing.fits(source, destination)
    });
    bad.retain(|&number| fault.is_of(kit, movement(number)));
    let (good, bad) = (random.pick(&good)?, random.pick(&bad)?);
    Some(Ends { good, bad })
}

/// What a route needs besides the moving variable.
struct Setting {
    owner: u8,
    result: u8,
    /// Variables after the moving one.
    others: Vec<u8>,
    callee: Option<Procedure>,
    ends: Ends,
}

pub fn moved(kit: Kit, random: &mut Random, route: Route, fault: Fault) -> Breach {
    let (setting, instruction) = loop {
        if let Some(found) = setting(&kit, random, route, fault) {
            break found;
        }
    };
    compose(kit, random, fault, setting, instruction)
}

/// One random try at a route.
fn setting(
    kit: &Kit,
    random: &mut Random,
    route: Route,
    fault: Fault,
) -> Option<(Setting, InstructionRecord)> {
    match route {
        Route::Bind => Some(binding(kit, random, fault)?),
        Route::Fetch | Route::Store => array_route(kit, random, route, fault),
        Route::GetSlot | Route::SetSlot => slot_route(kit, random, route, fault),
        Route::Actual => actual_route(kit, random, fault),
        Route::Kept => kept_route(kit, random, fault),
        Route::Returned => returned_route(kit, random, fault),
    }
}

fn plain(owner: u8, others: Vec<u8>, ends: Ends) -> Setting {
    Setting {
        owner,
        result: NONE,
        others,
        callee: None,
        ends,
    }
}

fn binding(kit: &Kit, random: &mut Random, fault: Fault) -> Option<(Setting, InstructionRecord)> {
    let owner = kit.any_owner(random);
    let fixed = kit.pick(random, |kit, n| kit.allowed(owner, n));
    if random.one_in(2) {
        let ends = ends(kit, random, owner, fault, |n| (n, fixed))?;
        Some((plain(owner, vec![fixed], ends), bind(MOVING + 1, MOVING)))
    } else {
        let ends = ends(kit, random, owner, fault, |n| (fixed, n))?;
        Some((plain(owner, vec![fixed], ends), bind(MOVING, MOVING + 1)))
    }
}

fn array_route(
    kit: &Kit,
    random: &mut Random,
    route: Route,
    fault: Fault,
) -> Option<(Setting, InstructionRecord)> {
    let owner = kit.any_owner(random);
    let right = if route == Route::Fetch { FETCH } else { STORE };
    let array = kit.pick(random, |kit, n| kit.typing.is_array_with(n, right));
    let element = kit.typing.get(array).element;
    let (ends, instruction) = if route == Route::Fetch {
        let ends = ends(kit, random, owner, fault, |n| (element, n))?;
        (ends, fetch(MOVING, MOVING + 1, 0))
    } else {
        let ends = ends(kit, random, owner, fault, |n| (n, element))?;
        (ends, store(MOVING + 1, 0, MOVING))
    };
    Some((plain(owner, vec![array], ends), instruction))
}

fn slot_route(
    kit: &Kit,
    random: &mut Random,
    route: Route,
    fault: Fault,
) -> Option<(Setting, InstructionRecord)> {
    let owner = kit.subject;
    let record = kit.pick(random, |kit, n| {
        kit.typing.get(n).base == owner && kit.typing.get(n).rights & OPEN != 0
    });
    let slot = random.below(kit.slots().len());
    let slot_type = kit.slots()[slot];
    let (ends, instruction) = if route == Route::GetSlot {
        let ends = ends(kit, random, owner, fault, |n| (slot_type, n))?;
        (ends, get_slot(MOVING, MOVING + 1, slot as u16))
    } else {
        let ends = ends(kit, random, owner, fault, |n| (n, slot_type))?;
        (ends, set_slot(MOVING + 1, MOVING, slot as u16))
    };
    Some((plain(owner, vec![record], ends), instruction))
}

/// A call of two actuals of which one moves wrongly; now and then its formal
/// is amplified, so that testing against inner would say something else.
fn actual_route(
    kit: &Kit,
    random: &mut Random,
    fault: Fault,
) -> Option<(Setting, InstructionRecord)> {
    let owner = kit.any_owner(random);
    let need = kit.pick(random, |kit, n| !kit.typing.has_open(n));
    let callee_owner = kit.any_owner(random);
    let inner = if callee_owner >= 2 && kit.typing.get(need).base == callee_owner {
        kit.pick(random, |kit, n| kit.typing.get(n).base == callee_owner)
    } else {
        need
    };
    let ends = ends(kit, random, owner, fault, |n| (n, need))?;
    let callee = Procedure::new(callee_owner, NONE);
    let (callee, first) = if random.one_in(2) {
        let first = callee.formal(inner, need).formal(kit.integer, kit.integer);
        (first, MOVING)
    } else {
        // Variable 1, an integer, is then the actual before it.
        let second = callee.formal(kit.integer, kit.integer).formal(inner, need);
        (second, MOVING - 1)
    };
    let mut setting = plain(owner, vec![kit.integer], ends);
    setting.callee = Some(callee.body(&[leave()]));
    Some((setting, call(NONE, first, 0)))
}

/// A procedure with the result, which gives back a variable of that type.
fn giving(random: &mut Random, kit: &Kit, result: u8) -> Procedure {
    Procedure::new(kit.any_owner(random), result)
        .variable(result)
        .body(&[give_back(0)])
}

fn kept_route(
    kit: &Kit,
    random: &mut Random,
    fault: Fault,
) -> Option<(Setting, InstructionRecord)> {
    let owner = kit.any_owner(random);
    let result = kit.pick(random, |kit, n| !kit.typing.has_open(n));
    let ends = ends(kit, random, owner, fault, |n| (result, n))?;
    let mut setting = plain(owner, Vec::new(), ends);
    setting.callee = Some(giving(random, kit, result));
    Some((setting, call(MOVING, NONE, 0)))
}

fn returned_route(
    kit: &Kit,
    random: &mut Random,
    fault: Fault,
) -> Option<(Setting, InstructionRecord)> {
    let owner = kit.any_owner(random);
    let result = kit.pick(random, |kit, n| !kit.typing.has_open(n));
    let ends = ends(kit, random, owner, fault, |n| (n, result))?;
    let mut setting = plain(owner, Vec::new(), ends);
    setting.result = result;
    Some((setting, give_back(MOVING)))
}

/// Puts procedure and callee into the sheet. The callee is inserted first, so
/// that its number may move by one.
fn compose(
    mut kit: Kit,
    random: &mut Random,
    fault: Fault,
    setting: Setting,
    mut instruction: InstructionRecord,
) -> Breach {
    let callee = setting.callee.map(|callee| kit.insert(random, callee));
    if let Some(callee) = callee {
        instruction.k = callee as u16;
    }
    let second = match setting.result {
        NONE => kit.integer,
        result => result,
    };
    let (body, position) = kit.body_around(random, instruction, setting.result);
    let procedure = Procedure::new(setting.owner, setting.result)
        .variables(&[kit.integer, second, setting.ends.good])
        .variables(&setting.others)
        .body(&body);
    let caller = kit.insert(random, procedure);
    if let Some(callee) = callee.filter(|&callee| caller <= callee) {
        kit.sheet.procedures[caller].instructions[position].k = callee as u16 + 1;
    }
    let bad = setting.ends.bad;
    kit.breach(fault.number(), At::Instruction(caller, position), |sheet| {
        sheet.procedures[caller].variables[usize::from(MOVING)].inner = bad;
    })
}

/// The sheet with one procedure around an instruction that is exchanged for
/// another of the wrong return form.
fn exchanged(
    mut kit: Kit,
    random: &mut Random,
    result: u8,
    good: InstructionRecord,
    bad: InstructionRecord,
) -> Breach {
    let owner = kit.any_owner(random);
    let (body, position) = kit.body_around(random, good, result);
    let second = if result == NONE { kit.integer } else { result };
    let procedure = Procedure::new(owner, result)
        .variables(&[kit.integer, second])
        .body(&body);
    let number = kit.insert(random, procedure);
    kit.breach(8, At::Instruction(number, position), |sheet| {
        let place = &mut sheet.procedures[number].instructions[position];
        place.a = bad.a;
    })
}

/// Main has no result, and no formals.
pub fn kept_nothing(kit: Kit, random: &mut Random) -> Breach {
    exchanged(kit, random, NONE, call(NONE, NONE, 0), call(0, NONE, 0))
}

pub fn returned_nothing(kit: Kit, random: &mut Random) -> Breach {
    let result = kit.pick(random, |kit, n| !kit.typing.has_open(n));
    exchanged(kit, random, result, give_back(1), leave())
}

pub fn returned_too_much(kit: Kit, random: &mut Random) -> Breach {
    exchanged(kit, random, NONE, leave(), give_back(0))
}
