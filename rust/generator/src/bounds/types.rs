//! Declared types by number, 2 to 33: two that differ in one bit of it at
//! most, and each with its own slots and rights.

use super::{bound, seen, Bound, Family, Seen, Turns, INT};
use crate::operations::{
    bind, call, get_slot, give_back, leave, new_array, new_record, put, set, set_slot,
};
use crate::records::{InstructionRecord, ARRAY_ALL, NONE, OPEN};
use crate::sheet::{Procedure, Sheet, SheetBuilder};
use reference::Edition;

/// The types that a sheet can declare.
const COUNT: usize = 32;

pub const TYPES: Family = Family {
    name: "types",
    count: |_| COUNT * 6 * USES.len(),
    bound: type_beside_another,
    due: |_| {
        let results = [(0, 11), (8, 18), (7, 18), (7, 19), (6, 19)];
        let all =
            (2..COUNT + 2).flat_map(|of| results.map(|(check, watch)| seen(of, check, watch)));
        all.collect::<Vec<Seen>>()
    },
};

/// Where a value of the first type comes to the second, or to a procedure
/// whose owner is the second.
#[derive(Clone, Copy)]
enum Use {
    Bind,
    /// As the element of an array.
    Element,
    /// A new record of the owner's type.
    New,
    /// A record opened by the owner.
    Opened,
    /// A formal that the owner may amplify, without open and with it.
    Raised,
    RaisedOpen,
    /// Need of the first, inner of the second, without and with the owner.
    Need,
    OwnedNeed,
    Returned,
}

const USES: [Use; 9] = [
    Use::Bind,
    Use::Element,
    Use::New,
    Use::Opened,
    Use::Raised,
    Use::RaisedOpen,
    Use::Need,
    Use::OwnedNeed,
    Use::Returned,
];

// The qualified types: of the first type, with right 1 and so on, and of the
// second.
const FIRST: u8 = 1;
const FIRST_NONE: u8 = 2;
const SECOND: u8 = 3;
const FIRSTS: u8 = 4;
const SECONDS: u8 = 5;
const FIRST_OPEN: u8 = 6;

fn type_beside_another(turns: &mut Turns) -> Bound {
    let index = turns.of(COUNT);
    let other = match turns.of(6) {
        0 => index,
        bit => index ^ 1 << (bit - 1),
    };
    let user = turns.pick(&USES);
    let (first, second) = (index as u8 + 2, other as u8 + 2);
    let (check, watch) = match user {
        _ if first == second => (0, 11),
        Use::Raised => (7, 19),
        Use::RaisedOpen => (6, 19),
        Use::Need | Use::OwnedNeed => (7, 18),
        _ => (8, 18),
    };
    let sheet = with_types(user, first, second);
    bound(turns.lent(sheet), seen(index + 2, check, watch))
}

fn with_types(user: Use, first: u8, second: u8) -> Sheet {
    let read = 1 << 1;
    let start = (0..COUNT).fold(SheetBuilder::new(), |all, _| all.record_type(1, &[INT]));
    let typed = start
        .integer()
        .record(first, read)
        .record(first, 0)
        .record(second, read)
        .array(FIRST, ARRAY_ALL)
        .array(SECOND, ARRAY_ALL)
        .record(first, OPEN | read);
    let maker = Procedure::new(first, FIRST).variable(FIRST);
    typed
        .procedure(main(user))
        .procedure(maker.body(&[new_record(0), give_back(0)]))
        .procedure(subject(user, first, second))
        .build()
}

/// Gets a record of the first type from procedure 1 and hands it to 2, unless
/// it can do all by itself.
fn main(user: Use) -> Procedure {
    let main = Procedure::main().variables(&[FIRST, INT, SECOND, FIRSTS, SECONDS]);
    let body: &[InstructionRecord] = match user {
        Use::Bind => &[call(0, NONE, 1), bind(2, 0), leave()],
        Use::Element => &[set(1, 0), new_array(3, 1), bind(4, 3), leave()],
        Use::New => &[call(NONE, NONE, 2), leave()],
        _ => &[call(0, NONE, 1), call(NONE, 0, 2), leave()],
    };
    main.body(body)
}

fn subject(user: Use, first: u8, second: u8) -> Procedure {
    let owned = Procedure::new(second, NONE);
    let opens = [
        set(1, 7),
        set_slot(0, 1, 0),
        get_slot(1, 0, 0),
        put(1),
        leave(),
    ];
    match user {
        Use::Bind | Use::Element => owned.body(&[leave()]),
        Use::New => owned.variable(FIRST).body(&[new_record(0), leave()]),
        Use::Opened => {
            // Open may stand in the inner type of the owner alone.
            let inner = if first == second { FIRST_OPEN } else { FIRST };
            owned.formal(inner, FIRST).variable(INT).body(&opens)
        }
        Use::Raised => owned.formal(FIRST, FIRST_NONE).body(&[leave()]),
        Use::RaisedOpen => owned.formal(FIRST_OPEN, FIRST).variable(INT).body(&opens),
        Use::Need => Procedure::new(0, NONE)
            .formal(SECOND, FIRST)
            .body(&[leave()]),
        Use::OwnedNeed => owned.formal(SECOND, FIRST).body(&[leave()]),
        Use::Returned => Procedure::new(0, SECOND)
            .formal(FIRST, FIRST)
            .body(&[give_back(0)]),
    }
}

pub const SLOTS: Family = Family {
    name: "slots",
    count: |_| COUNT * 5,
    bound: type_with_its_slots,
    due: |_| {
        let results = [(0, 11), (0, 17), (5, 5)];
        let all =
            (2..COUNT + 2).flat_map(|of| results.map(|(check, watch)| seen(of, check, watch)));
        all.collect::<Vec<Seen>>()
    },
};

/// Types that are one or sixteen numbers apart have other counts of slots and
/// of rights.
fn slots_of(index: usize) -> usize {
    (5 * index + 3 * (index / 16)) % 9
}

fn named_of(edition: Edition, index: usize) -> usize {
    (7 * index + index / 16) % (edition.most_named_rights() + 1)
}

/// The units of a record, its last slot and the one after it, its last right
/// and the one after it.
fn type_with_its_slots(turns: &mut Turns) -> Bound {
    let index = turns.of(COUNT);
    let (slots, named) = (slots_of(index), named_of(turns.edition, index));
    let last = slots.checked_sub(1);
    // Frames of 2 and of 4, a record, and what is lacking.
    let (right, slot, lacking, fits) = match turns.of(5) {
        0 => (named, last, 0, true),
        1 => (named, last, 1, true),
        2 => (named, Some(slots), 0, false),
        3 => (named + 1, last, 0, false),
        _ => (named, Some(256), 0, false),
    };
    let sheet = with_slots(turns.edition, index, right, slot);
    let mut run = turns.lent(sheet);
    run.memory_words = 2 + 4 + slots + 1 - lacking;
    let due = match (fits, lacking) {
        (false, _) => seen(index + 2, 5, 5),
        (true, 0) => seen(index + 2, 0, 11),
        (true, _) => seen(index + 2, 0, 17),
    };
    bound(run, due)
}

/// Procedure 1 is of the type's module: a new record, and a slot of it put
/// and got. There is no right after the last one of an edition, so that the
/// integer gets one instead.
fn with_slots(edition: Edition, index: usize, right: usize, slot: Option<usize>) -> Sheet {
    let start = (0..COUNT).fold(SheetBuilder::in_edition(edition), |all, number| {
        let named = named_of(edition, number) as u8;
        all.record_type(named, &vec![INT; slots_of(number)])
    });
    let of = index as u8 + 2;
    let (rights, loose) = match right > edition.most_named_rights() {
        true => (OPEN, 1),
        false => (OPEN | 1 << right, 0),
    };
    let mut body = vec![new_record(0), set(1, 7)];
    if let Some(slot) = slot {
        let slot = slot as u16;
        body.extend([set_slot(0, 1, slot), get_slot(1, 0, slot)]);
    }
    body.extend([put(1), leave()]);
    let mut sheet = start
        .integer()
        .record(of, rights)
        .procedure(Procedure::main().body(&[call(NONE, NONE, 1), leave()]))
        .procedure(Procedure::new(of, NONE).variables(&[1, INT]).body(&body))
        .build();
    sheet.qualified[0].rights = loose;
    sheet
}
