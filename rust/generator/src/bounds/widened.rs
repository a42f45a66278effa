//! Document 02, S-3: "where Q2 lacks store, element of Q1 ≥ element of Q2 is
//! enough in place of equal elements": arrays with and without store in each
//! level, whose elements have more rights than those asked for, or fewer.

use super::levels::{sheet, Types, Use, AMEND, FIRST, READ, SECOND, USES};
use super::structures::{named_sheet, Structure};
use super::{bound, seen, Bound, Family, Seen, Turns};
use crate::records::{QualifiedRecord, ARRAY_ALL, FETCH, SIZE, STORE};
use crate::typing::Movement;

pub const WIDENED: Family = Family {
    name: "widened",
    count: |_| 2 * USES.len() * pairs().len(),
    bound: pair_in_use,
    due: |_| {
        let outside = (1..=PATTERNS).flat_map(due_outside);
        let depths = DEPTHS.into_iter().flat_map(due_of);
        outside.chain(depths).collect()
    },
};

pub const WIDENED_NAMES: Family = Family {
    name: "widened of ?R",
    count: |_| 2 * SETTLED.len() * named_pairs().len(),
    bound: named_pair,
    due: |_| NAMED_DEPTHS.into_iter().flat_map(named_due_of).collect(),
};

/// Every pattern of store, up to 4 levels; the deepest pairs of a sheet.
const DEPTHS: [usize; 6] = [1, 2, 3, 4, 8, 30];
const PATTERNS: usize = 4;
const NAMED_DEPTHS: [usize; 4] = [1, 2, 3, 28];

/// Rights given up at the top alone, and lacking there on the way back.
fn due_outside(depth: usize) -> [Seen; 3] {
    [(0, 11), (9, 19), (7, 11)].map(|(check, watch)| seen(at(depth, OUTSIDE), check, watch))
}

/// What must come up at a depth: equal; more rights in an element without store
/// around it, and fewer; an element that differs below store in each level.
/// Where need and inner are compared, any difference is refused.
fn due_of(depth: usize) -> Vec<Seen> {
    let wide = at(depth, WIDE);
    let numbers = [(0, 11), (8, 18), (7, 11), (7, 18)];
    let mut all = vec![seen(at(depth, EQUAL), 0, 11)];
    all.extend(numbers.map(|(check, watch)| seen(wide, check, watch)));
    let levels = 0..depth;
    all.extend(levels.flat_map(|level| [7, 8].map(|check| seen(at(depth, level), check, 18))));
    all
}

/// ?R beside a subset of its least set, and beside more, of which the frame's
/// set may know more than check; both ways, and below store in each level.
fn named_due_of(depth: usize) -> Vec<Seen> {
    let wide = at(depth, WIDE);
    let mut all = vec![seen(at(depth, EQUAL), 0, 11)];
    all.extend([(0, 11), (8, 11), (8, 18)].map(|(check, watch)| seen(wide, check, watch)));
    let levels = 0..depth;
    all.extend(levels.flat_map(|level| [11, 18].map(|watch| seen(at(depth, level), 8, watch))));
    all
}

/// What a pair is counted by: the depth, and what decides.
pub(super) fn at(depth: usize, decides: usize) -> usize {
    100 * depth + decides
}

/// No level differs; the outermost alone; one below, and no store around it.
/// Else the outermost level with store around a difference decides.
pub(super) const EQUAL: usize = 99;
pub(super) const OUTSIDE: usize = 98;
pub(super) const WIDE: usize = 97;

/// Two structures of one depth.
#[derive(Clone)]
pub(super) struct Pair {
    pub source: Structure,
    pub destination: Structure,
}

impl Pair {
    fn reversed(self) -> Self {
        Pair {
            source: self.destination,
            destination: self.source,
        }
    }

    /// The rights of both in a level; the innermost is the last.
    fn rights(&self, level: usize) -> [u32; 2] {
        [&self.source, &self.destination].map(|all| match all.arrays.get(level) {
            Some(&rights) => rights,
            None => all.innermost.rights,
        })
    }

    fn is_equal_in(&self, level: usize) -> bool {
        let [has, due] = self.rights(level);
        let innermost = level == self.source.depth();
        has == due && (!innermost || self.source.innermost == self.destination.innermost)
    }

    /// Whether the source has in a level all that the destination has there.
    fn covers_in(&self, level: usize) -> bool {
        let [has, due] = self.rights(level);
        match level == self.source.depth() {
            true => covers(self.source.innermost, self.destination.innermost),
            false => due & !has == 0,
        }
    }

    /// The outermost level of the destination with store; if none has it, that
    /// of what is innermost.
    fn first_store(&self) -> usize {
        let mut levels = self.destination.arrays.iter();
        let first = levels.position(|rights| rights & STORE != 0);
        first.unwrap_or(self.source.depth())
    }

    /// Down to the first store each level of the source has what the other
    /// asks for; below it all are equal. The outermost level is that of the
    /// rights that may be lacking.
    pub fn movement(&self) -> Movement {
        let first = self.first_store();
        let fits = |level| match level <= first {
            true => self.covers_in(level),
            false => self.is_equal_in(level),
        };
        if !(1..=self.source.depth()).all(fits) {
            Movement::WrongKind
        } else if !self.covers_in(0) {
            Movement::LacksRight
        } else {
            Movement::Fits
        }
    }

    /// What decides, for the count.
    pub fn decides(&self) -> usize {
        let depth = self.source.depth();
        let last = (0..=depth).rev().find(|&level| !self.is_equal_in(level));
        match last {
            None => EQUAL,
            Some(0) => OUTSIDE,
            Some(last) if last <= self.first_store() => WIDE,
            Some(_) => self.first_store(),
        }
    }
}

/// Of ?R the least set is known, and nothing else reaches it.
fn covers(from: QualifiedRecord, to: QualifiedRecord) -> bool {
    let name = QualifiedRecord::GENERIC;
    match from == name {
        true => to == name || to.base == FIRST && to.rights & !LEAST == 0,
        false => to.base == from.base && to.rights & !from.rights == 0,
    }
}

pub(super) fn check_number(movement: Movement) -> u8 {
    match movement {
        Movement::Fits => 0,
        Movement::WrongKind => 8,
        Movement::LacksRight => 9,
    }
}

pub(super) fn watch_number(movement: Movement) -> u8 {
    match movement {
        Movement::Fits => 11,
        Movement::WrongKind => 18,
        Movement::LacksRight => 19,
    }
}

pub(super) fn record(rights: u32) -> QualifiedRecord {
    QualifiedRecord::record(FIRST, rights)
}

/// The rights of arrays, with store in the levels whose bits are set.
pub(super) fn arrays(depth: usize, stores: u32) -> Vec<u32> {
    let rights = |level: usize| match stores >> level & 1 {
        0 => FETCH | SIZE,
        _ => ARRAY_ALL,
    };
    (0..depth).map(rights).collect()
}

/// The patterns of store at a depth: all, or where there would be too many
/// none and one level alone.
pub(super) fn patterns(depth: usize) -> Vec<u32> {
    match depth <= PATTERNS {
        true => (0..1 << depth).collect(),
        false => [0]
            .into_iter()
            .chain((0..depth).map(|level| 1 << level))
            .collect(),
    }
}

fn pairs() -> Vec<Pair> {
    let mut all = Vec::new();
    for depth in DEPTHS {
        let patterns = patterns(depth).into_iter();
        all.extend(patterns.flat_map(|stores| pairs_to(depth, stores)));
    }
    all
}

/// An array of readable records, and sources for it: equal, with more rights in
/// one level or in all of them, of another base. Where there are few levels,
/// each array alone has more rights too.
fn pairs_to(depth: usize, stores: u32) -> Vec<Pair> {
    let destination = Structure {
        arrays: arrays(depth, stores),
        innermost: record(READ),
    };
    let inside = |innermost: QualifiedRecord| Structure {
        innermost,
        ..destination.clone()
    };
    let whole = Structure {
        arrays: vec![ARRAY_ALL; depth],
        innermost: record(READ | AMEND),
    };
    let more = inside(record(READ | AMEND));
    let other = inside(QualifiedRecord::record(SECOND, READ | AMEND));
    let sources = [destination.clone(), more, other, whole].into_iter();
    let pairs = sources.map(|source| Pair {
        source,
        destination: destination.clone(),
    });
    match depth <= PATTERNS {
        true => pairs.chain(one_right(&destination)).collect(),
        false => pairs.collect(),
    }
}

/// Pairs that differ in store or in size of one array alone.
fn one_right(destination: &Structure) -> Vec<Pair> {
    let levels = 0..destination.depth();
    let pairs = levels.flat_map(|level| {
        let mut stored = destination.clone();
        stored.arrays[level] |= STORE;
        let mut less = destination.clone();
        less.arrays[level] &= !SIZE;
        let ends = [(&stored, destination), (destination, &less)];
        ends.map(|(source, destination)| Pair {
            source: source.clone(),
            destination: destination.clone(),
        })
    });
    pairs.collect()
}

fn pair_in_use(turns: &mut Turns) -> Bound {
    let user = turns.pick(&USES);
    let back = turns.of(2) == 1;
    let all = pairs();
    let pair = all[turns.of(all.len())].clone();
    let pair = if back { pair.reversed() } else { pair };
    let mut records = vec![QualifiedRecord::INTEGER];
    let types = Types {
        source: pair.source.written(&mut records),
        destination: pair.destination.written(&mut records),
        all: records,
    };
    let movement = pair.movement();
    let check = match (user, pair.decides()) {
        (_, EQUAL) => 0,
        (Use::Need, _) => 7,
        _ => check_number(movement),
    };
    let at = at(pair.source.depth(), pair.decides());
    let due = seen(at, check, watch_number(movement));
    bound(turns.lent(sheet(user, types)), due)
}

/// The least set of ?R, and the sets that the calls settle.
const LEAST: u32 = READ;
const SETTLED: [u32; 2] = [READ, READ | AMEND];

/// ?R innermost in one or in both.
fn named_pairs() -> Vec<Pair> {
    let name = QualifiedRecord::GENERIC;
    let mut all = Vec::new();
    for depth in NAMED_DEPTHS {
        let others = [name, record(0), record(READ), record(READ | AMEND)];
        let others = others
            .into_iter()
            .chain([QualifiedRecord::record(SECOND, READ)]);
        all.extend(others.flat_map(|other| {
            let around = |stores, innermost| Structure {
                arrays: arrays(depth, stores),
                innermost,
            };
            let patterns = patterns(depth).into_iter();
            patterns.map(move |stores| Pair {
                source: around(stores, name),
                destination: around(stores, other),
            })
        }));
    }
    all
}

/// Check reads ?R as itself, watch as the set of the frame.
fn named_pair(turns: &mut Turns) -> Bound {
    let back = turns.of(2) == 1;
    let settled = turns.pick(&SETTLED);
    let all = named_pairs();
    let pair = all[turns.of(all.len())].clone();
    let pair = if back { pair.reversed() } else { pair };
    let read = |all: &Structure| match all.innermost {
        QualifiedRecord::GENERIC => Structure {
            innermost: record(settled),
            ..all.clone()
        },
        _ => all.clone(),
    };
    let watched = Pair {
        source: read(&pair.source),
        destination: read(&pair.destination),
    };
    let check = check_number(pair.movement());
    let watch = watch_number(watched.movement());
    let at = at(pair.source.depth(), pair.decides());
    let sheet = named_sheet(&pair.source, &pair.destination, settled);
    bound(turns.lent(sheet), seen(at, check, watch))
}
