//! Procedures by number, 1 to 63: called, owning, with formals, a result and
//! units of their own among others that have none of it.

use super::{bound, seen, Bound, Family, Seen, Turns, INT};
use crate::operations::{call, get_slot, give_back, leave, new_record, put, set, set_slot};
use crate::records::{InstructionRecord, ARRAY_ALL, NONE, OPEN};
use crate::sheet::{Procedure, Sheet, SheetBuilder};

pub const PROCEDURES: Family = Family {
    name: "procedures",
    count: |_| LAST * USES.len(),
    bound: procedure_of_a_number,
    due: |_| {
        let results = [(0, 11), (8, 18), (7, 19), (0, 13), (0, 17), (5, 5)];
        let all = (1..=LAST).flat_map(|of| results.map(|(check, watch)| seen(of, check, watch)));
        all.collect::<Vec<Seen>>()
    },
};

const LAST: usize = 63;

#[derive(Clone, Copy)]
enum Use {
    Called,
    Kept,
    /// A result is kept, of which only the others have one.
    KeptOfNone,
    Passed,
    /// An actual of another kind than the formal, for this one alone.
    PassedWrong,
    /// A formal amplified, and one that only the others might amplify.
    Amplified,
    Raised,
    /// The frame just fits, and lacks a unit.
    Room,
    NoRoom,
    /// A blank is used late in the procedure.
    Blank,
    /// The procedure called is the one after the last.
    Beyond,
    /// 256 more than the number of a procedure.
    FarBeyond,
}

const USES: [Use; 12] = [
    Use::Called,
    Use::Kept,
    Use::KeptOfNone,
    Use::Passed,
    Use::PassedWrong,
    Use::Amplified,
    Use::Raised,
    Use::Room,
    Use::NoRoom,
    Use::Blank,
    Use::Beyond,
    Use::FarBeyond,
];

const INTS: u8 = 1;
const REC_NONE: u8 = 2;
const REC: u8 = 3;
const REC_OPEN: u8 = 4;

fn procedure_of_a_number(turns: &mut Turns) -> Bound {
    let number = turns.of(LAST) + 1;
    let user = turns.pick(&USES);
    let mut run = turns.lent(sheet(number, user));
    // Main's frame has 6 units, that of the procedure 11.
    match user {
        Use::Room => run.memory_words = 17,
        Use::NoRoom => run.memory_words = 16,
        _ => {}
    }
    let (check, watch) = match user {
        Use::KeptOfNone | Use::PassedWrong => (8, 18),
        Use::Raised => (7, 19),
        Use::NoRoom => (0, 17),
        Use::Blank => (0, 13),
        Use::Beyond | Use::FarBeyond => (5, 5),
        _ => (0, 11),
    };
    bound(run, seen(number, check, watch))
}

/// The last procedure that there is makes records, or the one before it.
fn maker_for(number: usize) -> usize {
    if number == LAST {
        LAST - 1
    } else {
        LAST
    }
}

fn sheet(number: usize, user: Use) -> Sheet {
    let types = SheetBuilder::new()
        .record_type(1, &[INT])
        .integer()
        .array(INT, ARRAY_ALL)
        .record(2, 0)
        .record(2, 2)
        .record(2, OPEN | 2);
    let maker = maker_for(number);
    let mut all = types.procedure(main(number, user, maker));
    let end = match user {
        Use::Beyond => number,
        _ => LAST + 1,
    };
    for other in 1..end {
        all = all.procedure(match other {
            other if other == number => subject(number, user),
            other if other == maker => Procedure::new(2, REC)
                .variable(REC)
                .body(&[new_record(0), give_back(0)]),
            other => bystander(other, user),
        });
    }
    all.build()
}

fn main(number: usize, user: Use, maker: usize) -> Procedure {
    let k = number as u16;
    let main = Procedure::main().variables(&[INT, INT, INT, REC]);
    let filled = [set(0, 21), set(1, 22), set(2, 23)];
    let body: &[InstructionRecord] = match user {
        Use::Kept => &[call(0, NONE, k), put(0), leave()],
        Use::KeptOfNone => &[call(0, NONE, k), leave()],
        Use::Passed => &[filled[0], filled[1], filled[2], call(NONE, 0, k), leave()],
        Use::PassedWrong => &[filled[0], call(NONE, 0, k), leave()],
        Use::Amplified | Use::Raised => &[call(3, NONE, maker as u16), call(NONE, 3, k), leave()],
        Use::FarBeyond => &[call(NONE, NONE, 256 + k), leave()],
        _ => &[call(NONE, NONE, k), leave()],
    };
    main.body(body)
}

fn subject(number: usize, user: Use) -> Procedure {
    let plain = Procedure::new(0, NONE);
    let name = set(0, 1_000 + number as u16);
    match user {
        Use::Kept => Procedure::new(0, INT)
            .variable(INT)
            .body(&[name, give_back(0)]),
        Use::KeptOfNone => plain.body(&[leave()]),
        Use::Passed => (0..3).fold(plain, |all, _| all.formal(INT, INT)).body(&[
            put(0),
            put(1),
            put(2),
            leave(),
        ]),
        Use::PassedWrong => plain.formal(INTS, INTS).body(&[leave()]),
        Use::Amplified => Procedure::new(2, NONE)
            .formal(REC_OPEN, REC)
            .variable(INT)
            .body(&[
                set(1, 5),
                set_slot(0, 1, 0),
                get_slot(1, 0, 0),
                put(1),
                leave(),
            ]),
        Use::Raised => plain.formal(REC, REC_NONE).body(&[leave()]),
        Use::Room | Use::NoRoom => plain.variables(&[INT; 9]).body(&[leave()]),
        Use::Blank => {
            let late = vec![set(0, 1); 280];
            plain
                .variables(&[INT; 2])
                .body(&late)
                .body(&[put(1), leave()])
        }
        _ => plain.variable(INT).body(&[name, put(0), leave()]),
    }
}

/// What a call with a number cut short would come to.
fn bystander(other: usize, user: Use) -> Procedure {
    let name = set(0, other as u16);
    match user {
        Use::KeptOfNone => Procedure::new(0, INT)
            .variable(INT)
            .body(&[name, give_back(0)]),
        Use::PassedWrong => Procedure::new(0, NONE).formal(INT, INT).body(&[leave()]),
        Use::Amplified => Procedure::new(0, NONE).formal(REC, REC).body(&[leave()]),
        Use::Raised => Procedure::new(2, NONE)
            .formal(REC, REC_NONE)
            .body(&[leave()]),
        _ => Procedure::new(0, NONE)
            .variable(INT)
            .body(&[name, put(0), leave()]),
    }
}
