//! Accepted sheets that loop until their fuel is spent, for the benchmark:
//! each dwells on one part of the machine.

use crate::operations::{
    add, call, fetch, get_slot, give_back, jump_if_zero, leave, less, new_array, new_record, set,
    set_slot, store, subtract,
};
use crate::records::{ARRAY_ALL, NONE, OPEN};
use crate::sheet::{Procedure, Sheet, SheetBuilder};

const INT: u8 = 0;

type Make = fn() -> Sheet;

/// All of them, with their names.
pub const LOOPS: [(&str, Make); 4] = [
    ("arithmetic", arithmetic),
    ("fetch and store", fetch_and_store),
    ("call and return", call_and_return),
    ("record slots", record_slots),
];

/// Add, subtract, add, less, jump.
pub fn arithmetic() -> Sheet {
    let main = Procedure::main().variables(&[INT; 5]).body(&[
        set(0, 0),
        set(1, 1),
        set(2, 7),
        set(3, 0),
        add(0, 0, 1),
        subtract(2, 2, 1),
        add(2, 2, 0),
        less(4, 0, 2),
        jump_if_zero(3, 4),
        leave(),
    ]);
    SheetBuilder::new().integer().procedure(main).build()
}

/// Fetch, fetch, add, store, jump, on two cells of an array of 16.
pub fn fetch_and_store() -> Sheet {
    const ARRAY: u8 = 6;
    let main = Procedure::main()
        .variables(&[INT, INT, INT, INT, INT, INT, 1])
        .body(&[
            set(0, 0),
            set(1, 3),
            set(2, 11),
            set(3, 16),
            new_array(ARRAY, 3),
            store(ARRAY, 1, 0),
            store(ARRAY, 2, 1),
            fetch(4, ARRAY, 1),
            fetch(5, ARRAY, 2),
            add(4, 4, 5),
            store(ARRAY, 1, 4),
            jump_if_zero(0, 7),
            leave(),
        ]);
    let types = SheetBuilder::new().integer().array(INT, ARRAY_ALL);
    types.procedure(main).build()
}

/// Call, add, return, jump, with two actuals and a kept result.
pub fn call_and_return() -> Sheet {
    let main = Procedure::main().variables(&[INT; 3]).body(&[
        set(0, 0),
        set(1, 0),
        set(2, 1),
        call(1, 1, 1),
        jump_if_zero(0, 3),
        leave(),
    ]);
    let sum = Procedure::new(0, INT)
        .formal(INT, INT)
        .formal(INT, INT)
        .body(&[add(0, 0, 1), give_back(0)]);
    let types = SheetBuilder::new().integer();
    types.procedure(main).procedure(sum).build()
}

/// Get slot, get slot, add, set slot, jump, on a record of two slots.
pub fn record_slots() -> Sheet {
    const TYPE: u8 = 2;
    const OPENED: u8 = 1;
    let main = Procedure::main().body(&[call(NONE, NONE, 1), leave()]);
    let owned = Procedure::new(TYPE, NONE)
        .variables(&[OPENED, INT, INT, INT])
        .body(&[
            set(1, 0),
            set(2, 1),
            new_record(0),
            set_slot(0, 1, 0),
            set_slot(0, 2, 1),
            get_slot(2, 0, 0),
            get_slot(3, 0, 1),
            add(2, 2, 3),
            set_slot(0, 2, 0),
            jump_if_zero(1, 5),
            leave(),
        ]);
    let types = SheetBuilder::new().record_type(0, &[INT, INT]).integer();
    types
        .record(TYPE, OPEN)
        .procedure(main)
        .procedure(owned)
        .build()
}
