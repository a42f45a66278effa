//! Rights by number: "named rights n 0..15", "bit i = right i"; "Edition 2 has
//! n 0..31".

use super::{bound, seen, Bound, Family, Seen, Turns, INT};
use crate::operations::{bind, call, give_back, leave, new_array, new_record, set};
use crate::records::{named_rights, InstructionRecord, ARRAY_ALL, NONE};
use crate::sheet::{Procedure, Sheet, SheetBuilder};
use reference::Edition;

pub const RIGHTS: Family = Family {
    name: "rights",
    count: |edition| edition.most_named_rights() * USES.len(),
    bound: one_right_of_all,
    due: |edition| {
        let results = [(0, 11), (9, 19), (8, 18), (7, 11)];
        let rights = 1..=edition.most_named_rights();
        let all = rights.flat_map(|right| results.map(|(check, watch)| seen(right, check, watch)));
        all.collect::<Vec<Seen>>()
    },
};

#[derive(Clone, Copy)]
enum Use {
    /// All but the right come where it is declared.
    Lacking,
    /// The right alone comes where it is declared.
    Having,
    /// A new record comes where the right is declared.
    New,
    /// Elements that differ in the right, both ways.
    Element,
    ElementBack,
    /// Need has the right and inner has not.
    Need,
}

const USES: [Use; 6] = [
    Use::Lacking,
    Use::Having,
    Use::New,
    Use::Element,
    Use::ElementBack,
    Use::Need,
];

const ALL: u8 = 1;
const WITHOUT: u8 = 2;
const ALONE: u8 = 3;
const ARRAY: u8 = 4;
const ARRAY_WITHOUT: u8 = 5;

fn one_right_of_all(turns: &mut Turns) -> Bound {
    let right = turns.of(turns.edition.most_named_rights()) + 1;
    let user = turns.pick(&USES);
    let (check, watch) = match user {
        Use::Lacking => (9, 19),
        Use::Having | Use::New => (0, 11),
        Use::Element | Use::ElementBack => (8, 18),
        // What is bound to need is then bound to less.
        Use::Need => (7, 11),
    };
    let sheet = sheet(turns.edition, right, user);
    bound(turns.lent(sheet), seen(right, check, watch))
}

fn sheet(edition: Edition, right: usize, user: Use) -> Sheet {
    let most = edition.most_named_rights() as u8;
    let all = named_rights(most);
    let need = match user {
        Use::Need => ALL,
        _ => WITHOUT,
    };
    let maker = Procedure::new(2, ALL).variable(ALL);
    let needs = Procedure::new(0, NONE).formal(WITHOUT, need);
    SheetBuilder::in_edition(edition)
        .record_type(most, &[])
        .integer()
        .record(2, all)
        .record(2, all & !(1 << right))
        .record(2, 1 << right)
        .array(ALL, ARRAY_ALL)
        .array(WITHOUT, ARRAY_ALL)
        .procedure(main(user))
        .procedure(maker.body(&[new_record(0), give_back(0)]))
        .procedure(needs.body(&[leave()]))
        .build()
}

/// Gets a record from procedure 1, or makes an array.
fn main(user: Use) -> Procedure {
    let gets = [call(0, NONE, 1), bind(1, 0), bind(2, 1)];
    let makes = [set(0, 0), new_array(1, 0), bind(2, 1)];
    let hands = [call(0, NONE, 1), call(NONE, 0, 2)];
    let (inners, body): (&[u8], &[InstructionRecord]) = match user {
        Use::Lacking => (&[ALL, WITHOUT, ALONE], &gets),
        Use::Having => (&[ALL, ALONE, ALONE], &gets),
        Use::New => (&[ALONE], &gets[..1]),
        Use::Element => (&[INT, ARRAY, ARRAY_WITHOUT], &makes),
        Use::ElementBack => (&[INT, ARRAY_WITHOUT, ARRAY], &makes),
        Use::Need => (&[ALL], &hands),
    };
    Procedure::main()
        .variables(inners)
        .body(body)
        .body(&[leave()])
}

pub const NAMED: Family = Family {
    name: "named rights",
    count: |edition| (edition.most_named_rights() + 1).pow(2),
    bound: a_right_of_so_many,
    due: |edition| {
        let most = edition.most_named_rights();
        let named = (0..=most).map(|named| seen(named, 0, 11));
        let beyond = (0..most).map(|named| seen(named, 5, 5));
        named.chain(beyond).collect::<Vec<Seen>>()
    },
};

/// A type with so many named rights and one right in a variable of a procedure
/// of its module: accepted if the type has it.
fn a_right_of_so_many(turns: &mut Turns) -> Bound {
    let rights = turns.edition.most_named_rights() + 1;
    let named = turns.of(rights);
    let right = turns.of(rights);
    let owned = Procedure::new(2, NONE).variable(1);
    let sheet = SheetBuilder::in_edition(turns.edition)
        .record_type(named as u8, &[])
        .integer()
        .record(2, 1 << right)
        .procedure(Procedure::main().body(&[call(NONE, NONE, 1), leave()]))
        .procedure(owned.body(&[new_record(0), leave()]))
        .build();
    let (check, watch) = if right <= named { (0, 11) } else { (5, 5) };
    bound(turns.lent(sheet), seen(named, check, watch))
}
