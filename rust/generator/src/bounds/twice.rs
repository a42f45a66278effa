//! Document 02, S-3: "taken from the object's element", and "bound to the
//! element of the tray variable's QT, then to a": an array with all rights is
//! widened, and what its second name declares comes to a third type.

use super::levels::{AMEND, READ, SECOND};
use super::structures::Structure;
use super::widened::{
    arrays, at, check_number, patterns, record, watch_number, Pair, EQUAL, OUTSIDE, WIDE,
};
use super::{bound, seen, Bound, Family, Seen, Turns, INT};
use crate::operations::{bind, fetch, leave, new_array, set, store};
use crate::records::{QualifiedRecord, ARRAY_ALL};
use crate::sheet::{Procedure, Sheet, SheetBuilder};

pub const WIDENED_TWICE: Family = Family {
    name: "widened twice",
    count: |_| 2 * thirds().len(),
    bound: third,
    due: |_| DEPTHS.into_iter().flat_map(due_of).collect(),
};

const DEPTHS: [usize; 3] = [2, 3, 4];

/// The declared elements fit, or they do not and the object's do; where the
/// third type has store, the declared elements are equal, or the object's, or
/// neither.
fn due_of(depth: usize) -> Vec<Seen> {
    let numbers = [
        (EQUAL, 0, 11),
        (WIDE, 0, 11),
        (WIDE, 8, 11),
        (WIDE, 8, 18),
        (OUTSIDE, 9, 18),
        (0, 8, 19),
        (0, 8, 18),
    ];
    let all = numbers.map(|(decides, check, watch)| seen(at(depth, decides), check, watch));
    all.to_vec()
}

/// All rights in all levels.
fn first(depth: usize) -> Structure {
    Structure {
        arrays: vec![ARRAY_ALL; depth],
        innermost: record(READ | AMEND),
    }
}

/// No store in any level, and less asked of the records.
fn second(depth: usize) -> Structure {
    Structure {
        arrays: arrays(depth, 0),
        innermost: record(READ),
    }
}

fn thirds() -> Vec<Structure> {
    let innermost = [record(0), record(READ), record(READ | AMEND)];
    let innermost = innermost.into_iter();
    let innermost = innermost.chain([QualifiedRecord::record(SECOND, READ)]);
    let depths = DEPTHS.into_iter();
    let around = depths.flat_map(|depth| {
        let patterns = patterns(depth).into_iter();
        patterns.map(move |stores| arrays(depth, stores))
    });
    let all = around.flat_map(|arrays| {
        innermost.clone().map(move |innermost| Structure {
            arrays: arrays.clone(),
            innermost,
        })
    });
    all.collect()
}

/// What the second name holds is bound to the third type, or its element is
/// fetched to that type's. The value carries what the second name declares;
/// its elements are the first's.
fn third(turns: &mut Turns) -> Bound {
    let fetched = turns.of(2) == 1;
    let all = thirds();
    let third = all[turns.of(all.len())].clone();
    let depth = third.depth();
    let outside = usize::from(fetched);
    let inside = |all: Structure| Structure {
        arrays: all.arrays[outside..].to_vec(),
        ..all
    };
    let declared = Pair {
        source: inside(second(depth)),
        destination: inside(third.clone()),
    };
    let mut held = Pair {
        source: inside(first(depth)),
        ..declared.clone()
    };
    held.source.arrays[0] = declared.source.arrays[0];
    let check = check_number(declared.movement());
    let watch = watch_number(held.movement());
    let due = seen(at(depth - outside, declared.decides()), check, watch);
    bound(turns.lent(sheet(&third, fetched)), due)
}

fn sheet(third: &Structure, fetched: bool) -> Sheet {
    let depth = third.depth();
    let mut all = vec![QualifiedRecord::INTEGER];
    let ends = [first(depth), second(depth), third.clone()];
    let [first, second, third] = ends.map(|structure| structure.written(&mut all));
    let element = |array: u8| array - 1;
    let main = Procedure::main();
    let main = match fetched {
        false => main.variables(&[INT, first, second, third]).body(&[
            set(0, 1),
            new_array(1, 0),
            bind(2, 1),
            bind(3, 2),
        ]),
        true => main
            .variables(&[INT, first, second, element(third), element(first)])
            .body(&[set(0, 1), new_array(1, 0), new_array(4, 0), set(0, 0)])
            .body(&[store(1, 0, 4), bind(2, 1), fetch(3, 2, 0)]),
    };
    let start = SheetBuilder::new();
    let start = start.record_type(2, &[]).record_type(2, &[]);
    let typed = all.into_iter().fold(start, SheetBuilder::qualified);
    typed.procedure(main.body(&[leave()])).build()
}
