//! Document 02, S-2: "the innermost level before the levels around it. Same
//! verdict for every pair, also of unequal depth": pairs of arrays that differ
//! in one level alone, at any depth, or that have other depths.

use super::levels::{sheet, Types, Use, AMEND, FIRST, READ, SECOND, USES};
use super::{bound, seen, Bound, Family, Seen, Turns, INT};
use crate::operations::{bind, call, leave, new_array, set};
use crate::records::{QualifiedRecord, ARRAY_ALL, FETCH, NONE};
use crate::sheet::{Procedure, Sheet, SheetBuilder};

pub const STRUCTURES: Family = Family {
    name: "structures",
    count: |_| 2 * USES.len() * pairs().len(),
    bound: pair_in_use,
    due: |_| {
        let mut all = due_of(&DEPTHS, &[7]);
        all.extend(due_apart(&[7, 8]));
        all
    },
};

pub const NAMED_STRUCTURES: Family = Family {
    name: "structures of ?R",
    count: |_| 2 * named_pairs().len(),
    bound: named_pair_bound,
    due: |_| {
        let mut all = due_of(&NAMED_DEPTHS, &[]);
        all.extend(due_apart(&[8]));
        // ?R beside the set that the frame has, which check does not know.
        all.extend(NAMED_DEPTHS.map(|depth| seen(at(depth, depth, depth), 8, 11)));
        all
    },
};

/// What must come up of two structures of one depth: equal, other rights at
/// the top, and a difference in each level below alone. Where need and inner
/// are compared too, any difference is refused.
fn due_of(depths: &[usize], need: &[u8]) -> Vec<Seen> {
    let mut all = Vec::new();
    for &depth in depths {
        let outside = at(depth, depth, 0);
        all.push(seen(at(depth, depth, EQUAL), 0, 11));
        all.extend([seen(outside, 0, 11), seen(outside, 9, 19)]);
        for &check in need {
            all.extend([11, 19].map(|watch| seen(outside, check, watch)));
        }
        for level in 1..=depth {
            let numbers = need.iter().copied().chain([8]);
            all.extend(numbers.map(|check| seen(at(depth, depth, level), check, 18)));
        }
    }
    all
}

/// Depth 1 against all others, both ways.
fn due_apart(checks: &[u8]) -> Vec<Seen> {
    let mut all = Vec::new();
    for &depth in UNEQUAL.iter().filter(|&&depth| depth > 1) {
        for place in [at(1, depth, EQUAL), at(depth, 1, EQUAL)] {
            all.extend(checks.iter().map(|&check| seen(place, check, 18)));
        }
    }
    all
}

/// What a pair is counted by: the depths of source and destination, and the
/// level in which they differ.
fn at(source: usize, destination: usize, level: usize) -> usize {
    (100 * source + destination) * 100 + level
}

/// No level differs.
const EQUAL: usize = 99;

/// The rights of so many arrays, the outermost first, and what they hold.
#[derive(Clone, PartialEq)]
pub(super) struct Structure {
    pub arrays: Vec<u32>,
    pub innermost: QualifiedRecord,
}

impl Structure {
    fn of(depth: usize, innermost: QualifiedRecord) -> Self {
        let arrays = vec![ARRAY_ALL; depth];
        Structure { arrays, innermost }
    }

    /// With fetch alone in one level.
    fn less_in(mut self, level: usize) -> Self {
        self.arrays[level] = FETCH;
        self
    }

    pub fn depth(&self) -> usize {
        self.arrays.len()
    }

    /// Adds its records, none of them shared, and gives its number.
    pub fn written(&self, all: &mut Vec<QualifiedRecord>) -> u8 {
        all.push(self.innermost);
        for &rights in self.arrays.iter().rev() {
            let element = all.len() as u8 - 1;
            all.push(QualifiedRecord::array(element, rights));
        }
        all.len() as u8 - 1
    }
}

#[derive(Clone)]
struct Pair {
    left: Structure,
    right: Structure,
}

/// Where two structures differ.
enum Differs {
    Nowhere,
    /// In the rights at the top, of which the right one has fewer.
    Outside,
    Below,
}

impl Pair {
    /// The one level in which they differ, 0 the outermost, as far down as both
    /// reach.
    fn level(&self) -> Option<usize> {
        let rights = self.left.arrays.iter().zip(&self.right.arrays);
        let array = { rights }.position(|(left, right)| left != right);
        let innermost = self.left.innermost != self.right.innermost;
        array.or(innermost.then_some(self.left.depth()))
    }

    fn differs(&self) -> Differs {
        let is_as_deep = self.left.depth() == self.right.depth();
        match self.level() {
            None if is_as_deep => Differs::Nowhere,
            Some(0) if is_as_deep => Differs::Outside,
            _ => Differs::Below,
        }
    }
}

/// Three levels, and depths around them up to the deepest pair of a sheet.
const DEPTHS: [usize; 5] = [1, 2, 3, 8, 30];
/// "also of unequal depth": all pairs of these.
const UNEQUAL: [usize; 5] = [1, 2, 3, 4, 29];

/// Equal; different in each array alone, whatever the innermost; different in
/// the innermost alone, by base, by rights and by shape; of unequal depth.
fn pairs() -> Vec<Pair> {
    let record = QualifiedRecord::record(FIRST, READ);
    let other_base = QualifiedRecord::record(SECOND, READ);
    let other_rights = QualifiedRecord::record(FIRST, READ | AMEND);
    let mut all = Vec::new();
    for depth in DEPTHS {
        for innermost in [QualifiedRecord::INTEGER, record] {
            all.extend(differing_around(depth, innermost));
        }
        for other in [other_base, other_rights, QualifiedRecord::INTEGER] {
            let left = Structure::of(depth, record);
            let right = Structure::of(depth, other);
            all.push(Pair { left, right });
        }
    }
    all.extend(UNEQUAL.iter().flat_map(|&depth| deeper(depth, record)));
    all
}

/// An equal pair, and one that differs in each of the arrays alone.
fn differing_around(depth: usize, innermost: QualifiedRecord) -> Vec<Pair> {
    let left = Structure::of(depth, innermost);
    let equal = [left.clone()].into_iter();
    let levels = (0..depth).map(|level| left.clone().less_in(level));
    let rights = equal.chain(levels).map(|right| Pair {
        left: left.clone(),
        right,
    });
    rights.collect()
}

/// Of this depth against each that is deeper.
fn deeper(depth: usize, innermost: QualifiedRecord) -> Vec<Pair> {
    let others = UNEQUAL.iter().filter(|&&other| other > depth);
    let pairs = others.map(|&other| Pair {
        left: Structure::of(depth, innermost),
        right: Structure::of(other, innermost),
    });
    pairs.collect()
}

fn pair_in_use(turns: &mut Turns) -> Bound {
    let user = turns.pick(&USES);
    let back = turns.of(2) == 1;
    let all = pairs();
    let pair = &all[turns.of(all.len())];
    let mut records = vec![QualifiedRecord::INTEGER];
    let left = pair.left.written(&mut records);
    let right = pair.right.written(&mut records);
    let (source, destination) = if back { (right, left) } else { (left, right) };
    let types = Types {
        all: records,
        source,
        destination,
    };
    bound(turns.lent(sheet(user, types)), due(pair, user, back))
}

/// Rights at the top may be given up, and are lacking on the way back; all
/// other levels are equal or nothing moves. Need and inner are equal in all.
fn due(pair: &Pair, user: Use, back: bool) -> Seen {
    let (check, watch) = match (pair.differs(), back) {
        (Differs::Nowhere, _) => (0, 11),
        (Differs::Outside, false) => (0, 11),
        (Differs::Outside, true) => (9, 19),
        (Differs::Below, _) => (8, 18),
    };
    let check = match (pair.differs(), user) {
        (Differs::Outside | Differs::Below, Use::Need) => 7,
        _ => check,
    };
    let depths = (pair.left.depth(), pair.right.depth());
    let (source, destination) = if back { (depths.1, depths.0) } else { depths };
    let level = pair.level().unwrap_or(EQUAL);
    seen(at(source, destination, level), check, watch)
}

/// A pair inside a procedure for ?R, which a call settles to a set.
#[derive(Clone)]
struct NamedPair {
    pair: Pair,
    settled: u32,
}

const NAMED_DEPTHS: [usize; 4] = [1, 2, 3, 28];

/// ?R at the bottom of both, in arrays that differ or not, of one depth or
/// not; at the bottom of one, beside a set that it is settled to or not.
fn named_pairs() -> Vec<NamedPair> {
    let name = QualifiedRecord::GENERIC;
    let read = QualifiedRecord::record(FIRST, READ);
    let mut pairs = deeper(1, name);
    for depth in NAMED_DEPTHS {
        pairs.extend(differing_around(depth, name));
        let (left, right) = (Structure::of(depth, name), Structure::of(depth, read));
        pairs.push(Pair { left, right });
    }
    let settled = [READ, READ | AMEND].into_iter();
    let all = settled.flat_map(|settled| {
        let pairs = pairs.clone().into_iter();
        pairs.map(move |pair| NamedPair { pair, settled })
    });
    all.collect()
}

fn named_pair_bound(turns: &mut Turns) -> Bound {
    let back = turns.of(2) == 1;
    let all = named_pairs();
    let named = &all[turns.of(all.len())];
    let Pair { left, right } = &named.pair;
    let (source, destination) = if back { (right, left) } else { (left, right) };
    let sheet = named_sheet(source, destination, named.settled);
    bound(turns.lent(sheet), named_due(named, back))
}

/// As without ?R; but what check refuses for ?R beside a set, watch takes
/// where the frame's set is that one.
fn named_due(named: &NamedPair, back: bool) -> Seen {
    let due = due(&named.pair, Use::Bind, back);
    let one_named = named.pair.left.innermost != named.pair.right.innermost;
    let watch = match one_named && named.settled == READ {
        true => 11,
        false => due.watch,
    };
    Seen { watch, ..due }
}

/// Main calls procedure 1 with an array of records under the set settled; it
/// binds a new array of one structure to a variable of the other.
pub(super) fn named_sheet(source: &Structure, destination: &Structure, settled: u32) -> Sheet {
    let name = 1;
    let settling = 2;
    let given = 4;
    let mut all = vec![
        QualifiedRecord::INTEGER,
        QualifiedRecord::GENERIC,
        QualifiedRecord::array(name, ARRAY_ALL),
        QualifiedRecord::record(FIRST, settled),
        QualifiedRecord::array(given - 1, ARRAY_ALL),
    ];
    let source = source.written(&mut all);
    let destination = destination.written(&mut all);
    let main = Procedure::main().variables(&[INT, given]);
    let binds = Procedure::new(0, NONE)
        .bound(FIRST, READ)
        .formal(settling, settling)
        .variables(&[INT, source, destination]);
    let start = SheetBuilder::new();
    let start = start.record_type(2, &[]).record_type(2, &[]);
    all.into_iter()
        .fold(start, SheetBuilder::qualified)
        .procedure(main.body(&[set(0, 1), new_array(1, 0), call(NONE, 1, 1), leave()]))
        .procedure(binds.body(&[set(1, 1), new_array(2, 1), bind(3, 2), leave()]))
        .build()
}
