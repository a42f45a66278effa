//! Qualified types 0 to 63 and variables 0 to 31 by their numbers.

use super::{bound, integers, seen, Bound, Family, Seen, Turns, INT};
use crate::operations::{
    add, bind, call, fetch, give_back, jump_if_zero, leave, less, new_array, new_record, put, set,
    size, store, subtract, take,
};
use crate::records::{InstructionRecord, ARRAY_ALL, NONE};
use crate::sheet::{Procedure, Sheet, SheetBuilder};

pub const QUALIFIED: Family = Family {
    name: "qualified types",
    count: |_| LAST * 7 * 4,
    bound: type_beside_another,
    due: |_| {
        let results = [(0, 11), (9, 19)];
        let all = (1..=LAST).flat_map(|of| results.map(|(check, watch)| seen(of, check, watch)));
        all.collect::<Vec<Seen>>()
    },
};

/// Qualified type i, but for the integer, has the rights that are the bits of
/// i, so that no two are equal.
const LAST: usize = 63;

/// A value of one type comes to another whose number differs in a bit at most.
fn type_beside_another(turns: &mut Turns) -> Bound {
    let to = turns.of(LAST) + 1;
    let from = match turns.of(7) {
        0 => to,
        bit => to ^ 1 << (bit - 1),
    };
    // The integer is none of them.
    let from = if from == 0 { LAST ^ to } else { from };
    let sheet = moved(from as u8, to as u8, turns.of(4));
    let enough = from & to == to;
    let (check, watch) = if enough { (0, 11) } else { (9, 19) };
    bound(turns.lent(sheet), seen(to, check, watch))
}

/// By a bind, an actual, a returned or a kept value.
fn moved(from: u8, to: u8, way: usize) -> Sheet {
    let all = LAST as u8;
    let start = [call(0, NONE, 1), bind(1, 0)];
    let main = Procedure::main().variables(&[all, from, to]).body(&start);
    let (main, callee) = match way {
        0 => (
            main.body(&[bind(2, 1)]),
            Procedure::new(0, NONE).body(&[leave()]),
        ),
        1 => {
            let callee = Procedure::new(0, NONE).formal(to, to);
            (main.body(&[call(NONE, 1, 2)]), callee.body(&[leave()]))
        }
        2 => {
            let callee = Procedure::new(0, to).formal(from, from);
            (main.body(&[call(NONE, 1, 2)]), callee.body(&[give_back(0)]))
        }
        _ => {
            let callee = Procedure::new(0, from).formal(from, from);
            (main.body(&[call(2, 1, 2)]), callee.body(&[give_back(0)]))
        }
    };
    let typed = (1..=LAST as u32).fold(
        SheetBuilder::new().record_type(6, &[]).integer(),
        |sheet, rights| sheet.record(2, rights << 1),
    );
    typed
        .procedure(main.body(&[leave()]))
        .procedure(
            Procedure::new(2, all)
                .variable(all)
                .body(&[new_record(0), give_back(0)]),
        )
        .procedure(callee)
        .build()
}

pub const VARIABLES: Family = Family {
    name: "variables",
    count: |_| COUNT * 6 * OPERATIONS,
    bound: operands_by_number,
    due: |_| {
        (0..COUNT)
            .map(|number| seen(number, 0, 11))
            .collect::<Vec<Seen>>()
    },
};

const COUNT: usize = 32;
const OPERATIONS: usize = 9;
const INTS: u8 = 1;

/// An operation on variables of which each holds another number; then all are
/// put.
fn operands_by_number(turns: &mut Turns) -> Bound {
    let a = turns.of(COUNT) as u8;
    let b = match turns.of(6) {
        0 => a,
        bit => a ^ 1 << (bit - 1),
    };
    let operation = turns.of(OPERATIONS);
    let mut inners = [INT; COUNT];
    let mut body: Vec<InstructionRecord> =
        (0..COUNT as u8).map(|i| set(i, 1 + u16::from(i))).collect();
    if operation == OPERATIONS - 1 {
        inners[usize::from(a)] = INTS;
        body.remove(usize::from(a));
        body.extend(on_array(a, b));
    } else {
        body.extend(on_integers(operation, a, b, body.len() as u16));
    }
    let shown = (0..COUNT as u8).filter(|&number| inners[usize::from(number)] == INT);
    body.extend(shown.map(put));
    body.push(leave());
    let callee = Procedure::new(0, INT)
        .formal(INT, INT)
        .body(&[give_back(0)]);
    let main = Procedure::main().variables(&inners).body(&body);
    let sheet = integers()
        .array(INT, ARRAY_ALL)
        .procedure(main)
        .procedure(callee);
    let mut run = turns.lent(sheet.build());
    run.input.push(77);
    bound(run, seen(usize::from(a), 0, 11))
}

fn on_integers(operation: usize, a: u8, b: u8, next: u16) -> Vec<InstructionRecord> {
    let c = a ^ 16;
    match operation {
        0 => vec![set(a, 99)],
        1 => vec![add(a, b, c)],
        2 => vec![subtract(a, b, c)],
        3 => vec![less(a, b, c)],
        4 => vec![bind(a, b)],
        5 => vec![take(a)],
        6 => vec![set(a, 0), jump_if_zero(a, next + 3), set(b, 98)],
        _ => vec![call(a, b, 1)],
    }
}

/// A new array in one variable, its size, and a cell stored and fetched.
fn on_array(array: u8, number: u8) -> Vec<InstructionRecord> {
    let number = if number == array { array ^ 1 } else { number };
    let other = (0..32).find(|&other| other != array && other != number);
    let other = other.unwrap_or(INT);
    vec![
        new_array(array, number),
        size(other, array),
        put(other),
        set(other, 0),
        store(array, other, number),
        fetch(other, array, other),
    ]
}
