//! "Reads, integers and report words have 32 bits": every such number by
//! every way that a number can go.

use super::{bound, boundaries, made, seen, Bound, Family, Seen, Turns, INT};
use crate::operations::{
    add, bind, call, fetch, get_slot, give_back, jump_if_zero, leave, less, new_array, new_record,
    put, set, set_slot, store, subtract, take,
};
use crate::records::{InstructionRecord, ARRAY_ALL, NONE, OPEN};
use crate::sheet::{Procedure, Sheet, SheetBuilder};

pub const VALUES: Family = Family {
    name: "numbers",
    count: |_| boundaries().len() * 2 * (WAYS.len() + SECONDS.len()),
    bound: number_on_its_way,
    due: |_| due(),
};

#[derive(Clone, Copy)]
enum Way {
    Put,
    Bound,
    Cell,
    Slot,
    Actual,
    Result,
    /// A jump, to be made for 0 alone.
    Tested,
    /// Sum, differences and comparisons with a second number.
    Computed(u32),
}

const WAYS: [Way; 7] = [
    Way::Put,
    Way::Bound,
    Way::Cell,
    Way::Slot,
    Way::Actual,
    Way::Result,
    Way::Tested,
];

const SECONDS: [u32; 8] = [1, 255, 256, 65_535, 65_536, 1 << 24, 1 << 31, u32::MAX];

fn due() -> Vec<Seen> {
    let all = boundaries().into_iter();
    all.map(|value| seen(value as usize, 0, 11)).collect()
}

fn number_on_its_way(turns: &mut Turns) -> Bound {
    let value = turns.pick(&boundaries());
    let way = match turns.of(WAYS.len() + SECONDS.len()) {
        way if way < WAYS.len() => WAYS[way],
        second => Way::Computed(SECONDS[second - WAYS.len()]),
    };
    let taken = turns.of(2) == 0;
    let mut run = turns.lent(sheet(value, way, taken));
    if taken {
        run.input.push(value);
    }
    if let Way::Computed(second) = way {
        run.input.push(second);
    }
    bound(run, seen(value as usize, 0, 11))
}

const INTS: u8 = 1;
const OPENED: u8 = 2;

/// Main has the number in variable 0, taken or made by sums.
fn sheet(value: u32, way: Way, taken: bool) -> Sheet {
    let mut body = match taken {
        true => vec![take(0)],
        false => made(value, 0, 1),
    };
    let next = body.len() as u16;
    body.extend(rest(way, next));
    body.push(leave());
    let main = Procedure::main().variables(&[INT, INT, INT, INT, INTS]);
    let start = SheetBuilder::new()
        .record_type(0, &[INT])
        .integer()
        .array(INT, ARRAY_ALL)
        .record(2, OPEN);
    let shown = Procedure::new(0, NONE).formal(INT, INT);
    let given = Procedure::new(0, INT).formal(INT, INT);
    let kept = Procedure::new(2, INT).formal(INT, INT);
    start
        .procedure(main.body(&body))
        .procedure(shown.body(&[put(0), leave()]))
        .procedure(given.body(&[give_back(0)]))
        .procedure(kept.variables(&[OPENED, INT]).body(&[
            new_record(1),
            set_slot(1, 0, 0),
            get_slot(2, 1, 0),
            give_back(2),
        ]))
        .build()
}

/// What main does with variable 0; its next instruction has the number given.
fn rest(way: Way, next: u16) -> Vec<InstructionRecord> {
    match way {
        Way::Put => vec![put(0)],
        Way::Bound => vec![bind(2, 0), put(2)],
        Way::Cell => vec![
            set(3, 1),
            new_array(4, 3),
            set(3, 0),
            store(4, 3, 0),
            fetch(2, 4, 3),
            put(2),
        ],
        Way::Slot => vec![call(2, 0, 3), put(2)],
        Way::Actual => vec![call(NONE, 0, 1)],
        Way::Result => vec![call(2, 0, 2), put(2)],
        Way::Tested => vec![jump_if_zero(0, next + 2), put(0), set(2, 5), put(2)],
        Way::Computed(_) => computed(),
    }
}

fn computed() -> Vec<InstructionRecord> {
    let operations = [
        add(2, 0, 1),
        subtract(2, 0, 1),
        subtract(2, 1, 0),
        less(2, 0, 1),
        less(2, 1, 0),
    ];
    let shown = operations.into_iter().flat_map(|one| [one, put(2)]);
    [take(1)].into_iter().chain(shown).collect()
}
