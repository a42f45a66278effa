//! "Same base, same rights, equal elements all the way down": two array types
//! that are equal for some levels and differ in the next one.

use super::{bound, seen, Bound, Family, Seen, Turns, INT};
use crate::operations::{
    bind, call, fetch, get_slot, give_back, leave, new_array, new_record, set, set_slot, store,
};
use crate::records::{QualifiedRecord, ARRAY_ALL, FETCH, NONE, OPEN, STORE};
use crate::sheet::{Procedure, Sheet, SheetBuilder};

pub const LEVELS: Family = Family {
    name: "levels of elements",
    count: |_| 2 * DIFFERENCES.len() * USES.len() * DEEPEST,
    bound: pair_in_use,
    due: |_| due(),
};

/// The deepest level in which two types of one sheet can first differ.
const DEEPEST: usize = 62;
/// The deepest one if the types share no record above it.
const DEEPEST_APART: usize = 30;

pub(super) const FIRST: u8 = 2;
pub(super) const SECOND: u8 = 3;
pub(super) const READ: u32 = 1 << 1;
pub(super) const AMEND: u32 = 1 << 2;

#[derive(Clone, Copy, PartialEq)]
enum Difference {
    None,
    /// An integer in one, an array in the other.
    Shape,
    ArrayRights,
    RecordBase,
    RecordRights,
}

const DIFFERENCES: [Difference; 5] = [
    Difference::None,
    Difference::Shape,
    Difference::ArrayRights,
    Difference::RecordBase,
    Difference::RecordRights,
];

/// Where the two types meet.
#[derive(Clone, Copy, PartialEq)]
pub(super) enum Use {
    Bind,
    Fetch,
    Store,
    GetSlot,
    SetSlot,
    Actual,
    Returned,
    Kept,
    Need,
}

pub(super) const USES: [Use; 9] = [
    Use::Bind,
    Use::Fetch,
    Use::Store,
    Use::GetSlot,
    Use::SetSlot,
    Use::Actual,
    Use::Returned,
    Use::Kept,
    Use::Need,
];

/// Qualified types, the integer first, and two of them.
pub(super) struct Types {
    pub all: Vec<QualifiedRecord>,
    pub source: u8,
    pub destination: u8,
}

fn pair_in_use(turns: &mut Turns) -> Bound {
    let level = turns.of(DEEPEST) + 1;
    let difference = turns.pick(&DIFFERENCES);
    let user = turns.pick(&USES);
    // Some uses take one more qualified type.
    let deepest = match (difference, user) {
        (Difference::Shape, Use::Fetch | Use::Store | Use::GetSlot | Use::SetSlot) => DEEPEST - 1,
        (Difference::Shape, _) => DEEPEST,
        _ => DEEPEST_APART,
    };
    let level = level.min(deepest);
    let mut types = pair(level, difference);
    if turns.of(2) == 1 {
        std::mem::swap(&mut types.source, &mut types.destination);
    }
    let at = at(difference, level);
    let due = match (difference, user) {
        (Difference::None, _) => seen(at, 0, 11),
        (_, Use::Need) => seen(at, 7, 18),
        _ => seen(at, 8, 18),
    };
    bound(turns.lent(sheet(user, types)), due)
}

fn at(difference: Difference, level: usize) -> usize {
    100 * difference as usize + level
}

/// The level of elements in which the types of this family first differ.
pub fn level_of(seen: &Seen) -> u64 {
    seen.at % 100
}

fn due() -> Vec<Seen> {
    let mut all = Vec::new();
    for level in 1..=DEEPEST {
        all.extend([7, 8].map(|check| seen(at(Difference::Shape, level), check, 18)));
    }
    for level in 1..=DEEPEST_APART {
        all.push(seen(at(Difference::None, level), 0, 11));
        for difference in [
            Difference::ArrayRights,
            Difference::RecordBase,
            Difference::RecordRights,
        ] {
            all.extend([7, 8].map(|check| seen(at(difference, level), check, 18)));
        }
    }
    all
}

/// Two types whose elements so many levels down are the first to differ.
fn pair(level: usize, difference: Difference) -> Types {
    let mut all = vec![QualifiedRecord::INTEGER];
    let (left, right) = match difference {
        Difference::Shape => return one_above_the_other(level),
        Difference::ArrayRights => (
            QualifiedRecord::array(INT, FETCH | STORE),
            QualifiedRecord::array(INT, ARRAY_ALL),
        ),
        Difference::RecordBase => (
            QualifiedRecord::record(FIRST, READ),
            QualifiedRecord::record(SECOND, READ),
        ),
        Difference::RecordRights => (
            QualifiedRecord::record(FIRST, READ),
            QualifiedRecord::record(FIRST, READ | AMEND),
        ),
        Difference::None => [QualifiedRecord::record(FIRST, READ); 2].into(),
    };
    all.extend([left, right]);
    for _ in 0..level {
        let next = all.len() as u8;
        all.extend([next - 2, next - 1].map(|element| QualifiedRecord::array(element, ARRAY_ALL)));
    }
    let next = all.len() as u8;
    Types {
        all,
        source: next - 2,
        destination: next - 1,
    }
}

/// One chain of arrays, and its last two: walked side by side, the one comes
/// to the integer where the other comes to an array of it.
fn one_above_the_other(level: usize) -> Types {
    let mut all = vec![QualifiedRecord::INTEGER];
    for element in 0..=level {
        all.push(QualifiedRecord::array(element as u8, ARRAY_ALL));
    }
    Types {
        all,
        source: level as u8,
        destination: level as u8 + 1,
    }
}

/// A new array of the source's type comes where the destination's is declared.
pub(super) fn sheet(user: Use, types: Types) -> Sheet {
    let Types {
        mut all,
        source,
        destination,
    } = types;
    let more = all.len() as u8;
    let mut slots = Vec::new();
    match user {
        Use::Fetch => all.push(QualifiedRecord::array(source, ARRAY_ALL)),
        Use::Store => all.push(QualifiedRecord::array(destination, ARRAY_ALL)),
        Use::GetSlot | Use::SetSlot => {
            all.push(QualifiedRecord::record(FIRST, OPEN));
            slots.push(if user == Use::GetSlot {
                source
            } else {
                destination
            });
        }
        _ => {}
    }
    let start = SheetBuilder::new()
        .record_type(2, &slots)
        .record_type(2, &[]);
    let typed = all.into_iter().fold(start, SheetBuilder::qualified);
    procedures(user, source, destination, more)
        .into_iter()
        .fold(typed, SheetBuilder::procedure)
        .build()
}

/// Main alone, or main and the procedure that it calls.
fn procedures(user: Use, source: u8, destination: u8, more: u8) -> Vec<Procedure> {
    let start = [set(0, 1), new_array(1, 0)];
    let makes = |all: Procedure| all.variables(&[INT, source]).body(&start);
    let main = makes(Procedure::main());
    let through = Procedure::main().body(&[call(NONE, NONE, 1), leave()]);
    let module = makes(Procedure::new(FIRST, NONE)).variable(more);
    let held = [new_array(2, 0), set(0, 0), store(2, 0, 1)];
    let slot = [new_record(2), set_slot(2, 1, 0)];
    let takes = |need: u8| {
        let callee = Procedure::new(0, NONE).formal(destination, need);
        callee.body(&[leave()])
    };
    let passes = || makes(Procedure::main()).body(&[call(NONE, 1, 1), leave()]);
    let gives = |result: u8| makes(Procedure::new(0, result)).body(&[give_back(1)]);
    match user {
        Use::Bind => vec![main.variable(destination).body(&[bind(2, 1), leave()])],
        Use::Fetch => {
            let main = main.variables(&[more, destination]).body(&held);
            vec![main.body(&[fetch(3, 2, 0), leave()])]
        }
        Use::Store => vec![main.variable(more).body(&held).body(&[leave()])],
        Use::GetSlot => {
            let module = module.variable(destination).body(&slot);
            vec![through, module.body(&[get_slot(3, 2, 0), leave()])]
        }
        Use::SetSlot => vec![through, module.body(&slot).body(&[leave()])],
        Use::Actual => vec![passes(), takes(destination)],
        Use::Need => vec![passes(), takes(source)],
        Use::Returned => vec![through, gives(destination)],
        Use::Kept => {
            let main = Procedure::main().variable(destination);
            vec![main.body(&[call(0, NONE, 1), leave()]), gives(source)]
        }
    }
}
