//! One accepted sheet with every kind of record and all seventeen codes, for
//! the tests that change each of its bytes in turn, in both editions.

use crate::operations::{
    add, bind, call, fetch, get_slot, give_back, jump_if_zero, leave, less, new_array, new_record,
    put, set, set_slot, size, store, subtract, take,
};
use crate::random::Random;
use crate::records::{ARRAY_ALL, FETCH, NONE, OPEN};
use crate::second_edition::into_second_edition;
use crate::sheet::{Procedure, Sheet, SheetBuilder};

const READ: u32 = 1 << 1;
const AMEND: u32 = 1 << 2;

/// The sheet of edition 1, and one of edition 2.
pub fn showcases() -> [Sheet; 2] {
    let mut second = showcase();
    into_second_edition(&mut Random::new(1), &mut second);
    [showcase(), second]
}

/// The types of a registry of calls: 2 is call, 3 is horse.
pub fn showcase() -> Sheet {
    SheetBuilder::new()
        .record_type(2, &[0, 4, 1])
        .record_type(15, &[])
        .integer() // 0
        .record(2, READ) // 1
        .record(2, READ | AMEND) // 2
        .record(2, OPEN | READ | AMEND) // 3
        .array(1, ARRAY_ALL) // 4
        .array(1, FETCH) // 5
        .array(4, ARRAY_ALL) // 6
        .record(3, 1 << 15) // 7
        .record(2, READ) // 8, twin of 1
        .generic() // 9
        .array(9, ARRAY_ALL) // 10
        .procedure(main_procedure())
        .procedure(new_call())
        .procedure(read_call())
        .procedure(through_array())
        .build()
}

/// Arithmetic, arrays, and calls whose results are kept and dropped.
fn main_procedure() -> Procedure {
    Procedure::main()
        .variables(&[0, 0, 0, 2, 4, 5, 6, 8, 1, 4])
        .body(&[
            take(0),
            set(1, 1),
            add(2, 0, 1),
            subtract(2, 2, 1),
            less(0, 1, 2),
            jump_if_zero(0, 20),
            call(3, NONE, 1),
            new_array(4, 2),
            store(4, 1, 3),
            bind(5, 4),
            fetch(7, 5, 1),
            size(0, 4),
            new_array(6, 0),
            store(6, 1, 4),
            call(0, 7, 2),
            call(NONE, 3, 2),
            put(0),
            bind(8, 7),
            bind(9, 4),
            call(7, 8, 3),
            leave(),
        ])
}

/// Gives back a new call without open.
fn new_call() -> Procedure {
    Procedure::new(2, 2).variables(&[3, 0]).body(&[
        new_record(0),
        set(1, 7),
        set_slot(0, 1, 0),
        set_slot(0, 0, 2),
        give_back(0),
    ])
}

/// Takes a call that may be read and opens it.
fn read_call() -> Procedure {
    Procedure::new(2, 0)
        .formal(3, 8)
        .variables(&[0, 4, 7])
        .body(&[get_slot(2, 0, 1), get_slot(1, 0, 0), give_back(1)])
}

/// Puts something into an array under any rights, and gives it back.
fn through_array() -> Procedure {
    Procedure::new(0, 9)
        .bound(2, READ)
        .formal(9, 9)
        .formal(10, 10)
        .variables(&[0, 9])
        .body(&[set(2, 0), store(1, 2, 0), fetch(3, 1, 2), give_back(3)])
}
