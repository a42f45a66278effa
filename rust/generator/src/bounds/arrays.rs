//! Sizes, indexes and units: "17 exactly when live frames plus objects would
//! exceed the bench's words", "index ≥ size".

use super::{bound, boundaries, integers, made, seen, Bound, Family, Seen, Turns, INT};
use crate::operations::{
    call, fetch, jump_if_zero, leave, new_array, put, set, size, store, subtract, take,
};
use crate::records::{InstructionRecord, ARRAY_ALL, NONE};
use crate::runs::Run;
use crate::sheet::Procedure;

const INTS: u8 = 1;
/// The most words of memory that may be lent.
const MOST: usize = 65_536;

/// Main with integers and, after them, an array; procedure 1 has so many
/// variables.
fn run(turns: &Turns, integer_count: usize, body: &[InstructionRecord], callee: usize) -> Run {
    let main = Procedure::main().variables(&vec![INT; integer_count]);
    let callee = Procedure::new(0, NONE).variables(&vec![INT; callee]);
    let sheet = integers()
        .array(INT, ARRAY_ALL)
        .procedure(main.variable(INTS).body(body))
        .procedure(callee.body(&[leave()]));
    turns.lent(sheet.build())
}

pub const SIZES: Family = Family {
    name: "sizes",
    count: |_| 3 * 2 * sizes().len(),
    bound: array_of_a_size,
    due: |_| {
        let fits = |size: &u32| SIZE_FRAME + (*size as usize) < MOST;
        let fitting = sizes().into_iter().filter(fits);
        let done = fitting.map(|size| seen(size as usize, 0, 11));
        let full = sizes().into_iter().map(|size| seen(size as usize, 0, 17));
        done.chain(full).collect()
    },
};

/// The units of main's frame.
const SIZE_FRAME: usize = 5;

fn sizes() -> Vec<u32> {
    let largest = (MOST - SIZE_FRAME - 1) as u32;
    let mut all = boundaries();
    all.extend([largest, largest + 1]);
    all
}

/// An array with just enough memory, one word less, or all that there can be.
fn array_of_a_size(turns: &mut Turns) -> Bound {
    let count = turns.pick(&sizes());
    let taken = turns.of(2) == 0;
    let mut body = match taken {
        true => vec![take(0)],
        false => made(count, 0, 1),
    };
    body.extend([new_array(2, 0), size(1, 2), put(1), leave()]);
    let mut run = run(turns, 2, &body, 0);
    if taken {
        run.input.push(count);
    }
    let need = SIZE_FRAME + count as usize + 1;
    run.memory_words = turns.pick(&[need, need - 1, MOST]).min(MOST);
    let stop = if run.memory_words >= need { 11 } else { 17 };
    bound(run, seen(count as usize, 0, stop))
}

pub const INDEXES: Family = Family {
    name: "indexes",
    count: |_| 2 * 4 * COUNTS.len() * BASES.len(),
    bound: cell_at_an_index,
    due: |_| {
        let bases = BASES.iter().map(|&base| base as usize);
        let mut all: Vec<Seen> = bases.map(|base| seen(base, 0, 14)).collect();
        all.extend([1 << 8, 1 << 9, 1 << 15].map(|base| seen(base, 0, 13)));
        all.push(seen(0, 0, 11));
        all
    },
};

const COUNTS: [u32; 7] = [1, 3, 255, 256, 257, 600, 65_000];

/// What an index has besides a small number.
const BASES: [u32; 12] = [
    0,
    1 << 8,
    1 << 9,
    1 << 15,
    1 << 16,
    1 << 17,
    1 << 24,
    1 << 25,
    1 << 30,
    1 << 31,
    0xffff_0000,
    0xffff_ff00,
];

/// One cell is stored and another fetched, by the index and by the small
/// number in it.
fn cell_at_an_index(turns: &mut Turns) -> Bound {
    let count = turns.pick(&COUNTS);
    let base = turns.pick(&BASES);
    let small = turns.pick(&[0, 1, count - 1, count]);
    let index = base.saturating_add(small);
    let inside = small.min(count - 1);
    let (stored, fetched) = match turns.of(2) {
        0 => (index, inside),
        _ => (inside, index),
    };
    let mut body: Vec<InstructionRecord> = (0..4).map(take).collect();
    body.extend([
        new_array(4, 0),
        store(4, 1, 3),
        fetch(3, 4, 2),
        put(3),
        leave(),
    ]);
    let mut run = run(turns, 4, &body, 0);
    run.input = vec![count, stored, fetched, 0xa5a5_5a5a];
    run.memory_words = 8 + count as usize;
    let stop = match index {
        index if index >= count => 14,
        index if index == inside => 11,
        _ => 13,
    };
    bound(run, seen(base as usize, 0, stop))
}

pub const ROOM: Family = Family {
    name: "room",
    count: |_| 2 * WORDS.len() * LAST.len(),
    bound: the_last_units,
    due: |_| {
        let all = WORDS.iter();
        all.flat_map(|&words| [11, 17].map(|stop| seen(words, 0, stop)))
            .collect()
    },
};

const WORDS: [usize; 13] = [
    127, 128, 255, 256, 257, 511, 512, 4_096, 32_767, 32_768, 32_769, 65_535, 65_536,
];

/// What comes last.
#[derive(Clone, Copy)]
enum Last {
    Array(u16),
    /// A frame of so many variables.
    Frame(u16),
}

const LAST: [Last; 5] = [
    Last::Array(0),
    Last::Array(40),
    Last::Frame(0),
    Last::Frame(31),
    Last::Frame(32),
];

/// An array leaves just the units of what comes last, or one less.
fn the_last_units(turns: &mut Turns) -> Bound {
    let words = turns.pick(&WORDS);
    let last = turns.pick(&LAST);
    let lacking = turns.of(2);
    let (units, operation, variables) = match last {
        Last::Array(count) => (count + 1, new_array(1, 0), 0),
        Last::Frame(variables) => (variables + 2, call(NONE, NONE, 1), variables),
    };
    let count = match last {
        Last::Array(count) => count,
        Last::Frame(_) => 0,
    };
    let body = [take(0), new_array(1, 0), set(0, count), operation, leave()];
    let mut run = run(turns, 1, &body, variables.into());
    let first = words - 4 - 1 - usize::from(units) + lacking;
    run.input.push(first as u32);
    run.memory_words = words;
    bound(run, seen(words, 0, if lacking == 0 { 11 } else { 17 }))
}

pub const OBJECTS: Family = Family {
    name: "objects",
    count: |_| EARLIER.len(),
    bound: the_last_object,
    due: |_| EARLIER.iter().map(|&count| seen(count, 0, 11)).collect(),
};

/// How many objects are there before the last one.
const EARLIER: [usize; 11] = [0, 1, 127, 128, 255, 256, 257, 511, 4_096, 32_767, 32_768];

/// Arrays without a cell, and after them one of a cell, whose size is put.
fn the_last_object(turns: &mut Turns) -> Bound {
    let count = turns.pick(&EARLIER);
    let body = [
        take(0),
        set(1, 1),
        set(2, 0),
        jump_if_zero(0, 7),
        new_array(3, 2),
        subtract(0, 0, 1),
        jump_if_zero(2, 3),
        new_array(3, 1),
        size(2, 3),
        put(2),
        leave(),
    ];
    let mut run = run(turns, 3, &body, 0);
    run.input.push(count as u32);
    run.fuel = 1_000_000;
    run.memory_words = 6 + count + 2;
    bound(run, seen(count, 0, 11))
}
