//! What the rights of edition 2 come to in a sheet: those at the edges of its
//! two halves by each code, and those above 15 wherever sets are compared.

use crate::generics::settled_sets;
use generator::second_edition::EDGES;
use reference::machine::watched::{examine, Failure};
use reference::machine::Resources;
use reference::{access, parse, Kind, Operation, Procedure, Program, Verdict};
use std::ops::RangeInclusive;

/// The rights that only edition 2 has.
const HIGH: RangeInclusive<usize> = 16..=31;

/// What has come up.
#[derive(Clone, Copy, Debug, PartialEq, Eq, PartialOrd, Ord)]
pub enum Seen {
    /// A type with more than 15 named rights, in an accepted sheet.
    Wide,
    /// A movement of a code to a type that has the right, in an accepted sheet.
    Kept(u8, usize),
    /// A refusal of a code with 9, for want of this right alone.
    Lacking(u8, usize),
    /// An accepted call that settles ?R with the right.
    Settled(usize),
    /// A formal that gets the right by amplification, in an accepted sheet.
    Amplified(usize),
    /// A refusal with this number that the rights up to 15 do not give.
    Refused(u8),
}

/// The codes by which a record can move.
const CODES: [u8; 7] = [6, 10, 11, 14, 15, 16, 17];

/// All that must come up.
pub fn due() -> Vec<Seen> {
    let mut all = vec![Seen::Wide];
    for right in EDGES {
        all.extend([Seen::Settled(right), Seen::Amplified(right)]);
        for code in CODES {
            all.extend([Seen::Kept(code, right), Seen::Lacking(code, right)]);
        }
    }
    all.extend([7, 8, 9, 20, 21].map(Seen::Refused));
    all
}

/// What of it comes up in a sheet of edition 2, perhaps more than once.
pub fn seen(sheet: &[u8], verdict: Verdict) -> Vec<Seen> {
    match (parse(sheet), verdict) {
        (Ok(program), Verdict::Accepted) => seen_accepted(&program),
        (Ok(program), Verdict::Refused { number, place }) => seen_refused(&program, number, place),
        (Err(_), _) => Vec::new(),
    }
}

fn seen_accepted(program: &Program) -> Vec<Seen> {
    let mut all = Vec::new();
    if is_wide(program) {
        all.push(Seen::Wide);
    }
    let sets = settled_sets(program);
    let has = |qualified: usize, right| program.qualified[qualified].rights.contains(right);
    for right in EDGES {
        let settled = sets.iter().filter(|set| set.contains(right));
        all.extend(settled.map(|_| Seen::Settled(right)));
        for procedure in &program.procedures {
            let formals = procedure.variables.iter();
            let raised = formals.filter(|formal| {
                let lacks = |need| !has(need, right);
                has(formal.inner, right) && formal.need.is_some_and(lacks)
            });
            all.extend(raised.map(|_| Seen::Amplified(right)));
            for instruction in &procedure.instructions {
                let code = instruction.operation.code();
                let moved = destinations(program, procedure, instruction.operation);
                let kept = moved.into_iter().filter(|&to| has(to, right));
                all.extend(kept.map(|_| Seen::Kept(code, right)));
            }
        }
    }
    all
}

/// The types to which an instruction moves what may be a record.
fn destinations(program: &Program, procedure: &Procedure, operation: Operation) -> Vec<usize> {
    let inner = |variable: usize| procedure.variables[variable].inner;
    match operation {
        Operation::Bind { to, .. }
        | Operation::Fetch { to, .. }
        | Operation::GetSlot { to, .. } => {
            vec![inner(to)]
        }
        Operation::Store { array, .. } => match program.qualified[inner(array)].kind {
            Kind::Array { element } => vec![element],
            _ => Vec::new(),
        },
        Operation::SetSlot { slot, .. } => {
            let owner = procedure.owner.map(|owner| &program.types[owner]);
            owner.map(|owner| owner.slots[slot]).into_iter().collect()
        }
        Operation::Call {
            result,
            procedure: callee,
            ..
        } => {
            let formals = program.procedures[callee].variables.iter();
            let needs = formals.filter_map(|formal| formal.need);
            needs.chain(result.map(inner)).collect()
        }
        Operation::Return { .. } => procedure.result.into_iter().collect(),
        _ => Vec::new(),
    }
}

fn seen_refused(program: &Program, number: u8, place: usize) -> Vec<Seen> {
    let verdict = Verdict::Refused { number, place };
    let decide = |rights| Verdict::from(access::check(&without(program, rights))) != verdict;
    let mut all = Vec::new();
    if decide(HIGH) {
        all.push(Seen::Refused(number));
    }
    if let (9, Some(code)) = (number, code_at(program, place)) {
        let lacking = EDGES.into_iter().filter(|&right| decide(right..=right));
        all.extend(lacking.map(|right| Seen::Lacking(code, right)));
    }
    all
}

/// The code of the instruction at a place.
fn code_at(program: &Program, place: usize) -> Option<u8> {
    let mut all = program.procedures.iter().flat_map(|p| &p.instructions);
    let found = all.find(|instruction| instruction.place == place);
    found.map(|instruction| instruction.operation.code())
}

/// Whether some type names more than 15 rights.
fn is_wide(program: &Program) -> bool {
    let mut types = program.types.iter();
    types.any(|declared| declared.named_rights > 15)
}

/// The program with these rights in no set.
fn without(program: &Program, rights: RangeInclusive<usize>) -> Program {
    let mut program = program.clone();
    for right in rights {
        for qualified in &mut program.qualified {
            qualified.rights = qualified.rights.without(right);
        }
        let procedures = program.procedures.iter_mut();
        for bound in procedures.filter_map(|procedure| procedure.bound.as_mut()) {
            bound.least = bound.least.without(right);
        }
    }
    program
}

/// What stops a watched run that the rights up to 15 do not stop so.
pub fn stopped_by_high_rights(program: &Program, resources: Resources) -> Option<Failure> {
    let ended = is_wide(program).then(|| examine(program, resources))?;
    let failure = ended.failures.first().copied()?;
    let narrow = examine(&without(program, HIGH), resources);
    (narrow.outcome != ended.outcome).then_some(failure)
}
