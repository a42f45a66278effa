//! Calls with one to eight actuals of which one, each in turn, is not like
//! the others.

use super::{bound, seen, Bound, Family, Seen, Turns, INT};
use crate::operations::{call, give_back, leave, new_array, new_record, put, set, set_slot};
use crate::records::{InstructionRecord, ARRAY_ALL, NONE, OPEN};
use crate::sheet::{Procedure, Sheet, SheetBuilder};

pub const ACTUALS: Family = Family {
    name: "actuals",
    count: |_| 2 * USES.len() * POSITIONS,
    bound: one_actual_of_all,
    due: |_| {
        let results = [
            (0, 11),
            (0, 13),
            (8, 18),
            (9, 19),
            (7, 19),
            (7, 18),
            (6, 19),
        ];
        let counts = (1..=8).flat_map(|count| (0..count).map(move |odd| at(count, odd)));
        let all = counts.flat_map(|at| results.map(|(check, watch)| seen(at, check, watch)));
        all.collect::<Vec<Seen>>()
    },
};

/// Of one to eight actuals, each.
const POSITIONS: usize = 36;

fn at(count: usize, odd: usize) -> usize {
    10 * count + odd
}

/// What is odd about the one.
#[derive(Clone, Copy, PartialEq)]
enum Use {
    Nothing,
    Blank,
    Kind,
    /// The actual lacks a right of need.
    Right,
    /// Need has a right that inner and the actual lack.
    NeedRight,
    /// Inner has a right that need lacks.
    InnerRight,
    InnerKind,
    Amplified,
    /// The same in a procedure of another owner.
    Stranger,
}

const USES: [Use; 9] = [
    Use::Nothing,
    Use::Blank,
    Use::Kind,
    Use::Right,
    Use::NeedRight,
    Use::InnerRight,
    Use::InnerKind,
    Use::Amplified,
    Use::Stranger,
];

const INTS: u8 = 1;
const REC_NONE: u8 = 2;
const REC_READ: u8 = 3;
const REC_BOTH: u8 = 4;
const REC_OPEN: u8 = 5;

/// A call: so many actuals from a variable on, one of them odd.
#[derive(Clone, Copy)]
struct Call {
    user: Use,
    count: usize,
    odd: usize,
    first: usize,
}

fn one_actual_of_all(turns: &mut Turns) -> Bound {
    let mut odd = turns.of(POSITIONS);
    let mut count = 1;
    while odd >= count {
        odd -= count;
        count += 1;
    }
    let user = turns.pick(&USES);
    let (check, watch) = match user {
        Use::Nothing | Use::Amplified => (0, 11),
        Use::Blank => (0, 13),
        Use::Kind => (8, 18),
        Use::Right | Use::NeedRight => (9, 19),
        Use::InnerRight => (7, 19),
        Use::InnerKind => (7, 18),
        Use::Stranger => (6, 19),
    };
    // From the first variable on, and up to the last.
    let first = turns.pick(&[0, 32 - count]);
    let call = Call {
        user,
        count,
        odd,
        first,
    };
    bound(turns.lent(sheet(call)), seen(at(count, odd), check, watch))
}

fn sheet(this: Call) -> Sheet {
    let maker = Procedure::new(2, REC_BOTH).variable(REC_BOTH);
    SheetBuilder::new()
        .record_type(2, &[INT])
        .record_type(0, &[INT])
        .integer()
        .array(INT, ARRAY_ALL)
        .record(2, 0)
        .record(2, 2)
        .record(2, 6)
        .record(2, OPEN | 2)
        .procedure(main(this))
        .procedure(callee(this))
        .procedure(maker.body(&[new_record(0), give_back(0)]))
        .build()
}

impl Call {
    fn of_integers(&self) -> bool {
        matches!(self.user, Use::Nothing | Use::Blank | Use::Kind)
    }

    /// The inner type and the need of a formal.
    fn formal(&self, number: usize) -> (u8, u8) {
        let usual = if self.of_integers() { INT } else { REC_READ };
        match self.user {
            _ if number != self.odd => (usual, usual),
            Use::NeedRight => (REC_READ, REC_BOTH),
            Use::InnerRight => (REC_BOTH, REC_READ),
            Use::InnerKind => (INT, REC_READ),
            Use::Amplified | Use::Stranger => (REC_OPEN, REC_NONE),
            _ => (usual, usual),
        }
    }

    /// The type of the variable passed.
    fn actual(&self, number: usize) -> u8 {
        let is_odd = number == self.odd;
        match self.user {
            Use::Kind if is_odd => INTS,
            _ if self.of_integers() => INT,
            Use::Right if is_odd => REC_NONE,
            Use::NeedRight if is_odd => REC_READ,
            _ => REC_BOTH,
        }
    }

    fn fill(&self, number: usize, scratch: u8) -> Vec<InstructionRecord> {
        let variable = (self.first + number) as u8;
        match self.actual(number) {
            INT if self.user == Use::Blank && number == self.odd => Vec::new(),
            INT => vec![set(variable, 100 + number as u16)],
            INTS => vec![set(scratch, 0), new_array(variable, scratch)],
            _ => vec![call(variable, NONE, 2)],
        }
    }
}

fn main(this: Call) -> Procedure {
    let mut inners = [INT; 32];
    let scratch = if this.first == 0 { 31 } else { 0 };
    let mut body = Vec::new();
    for number in 0..this.count {
        inners[this.first + number] = this.actual(number);
        body.extend(this.fill(number, scratch));
    }
    body.extend([call(NONE, this.first as u8, 1), leave()]);
    Procedure::main().variables(&inners).body(&body)
}

/// Integers are put, in their order; an amplified record is opened.
fn callee(this: Call) -> Procedure {
    let owner = match this.user {
        Use::Amplified => 2,
        Use::Stranger => 3,
        _ => 0,
    };
    let procedure = (0..this.count).fold(Procedure::new(owner, NONE), |all, number| {
        let (inner, need) = this.formal(number);
        all.formal(inner, need)
    });
    let more = this.count as u8;
    let body = match this.user {
        Use::Amplified => vec![set(more, 5), set_slot(this.odd as u8, more, 0)],
        _ if this.of_integers() => (0..more).map(put).collect(),
        _ => Vec::new(),
    };
    procedure.variable(INT).body(&body).body(&[leave()])
}
