//! Instructions by number: "go to instruction k (k<n)", and where a call goes
//! on.

use super::{bound, integers, seen, Bound, Family, Turns, INT};
use crate::operations::{call, jump_if_zero, leave, put, set};
use crate::records::{InstructionRecord, NONE};
use crate::sheet::Procedure;

pub const TARGETS: Family = Family {
    name: "targets",
    count: |_| 4 * TARGET.len(),
    bound: instruction_of_a_number,
    due: |_| {
        let all = TARGET.iter();
        all.flat_map(|&k| [seen(k.into(), 0, 11), seen(k.into(), 5, 5)])
            .collect()
    },
};

const TARGET: [u16; 28] = [
    2, 3, 31, 32, 63, 64, 127, 128, 129, 254, 255, 256, 257, 258, 300, 383, 384, 385, 511, 512,
    513, 640, 767, 768, 769, 995, 998, 999,
];

/// A jump in the shortest and in the longest procedure, one past the end, and
/// a call that goes on behind it.
fn instruction_of_a_number(turns: &mut Turns) -> Bound {
    let k = turns.pick(&TARGET);
    let at = usize::from(k);
    let (body, due) = match turns.of(4) {
        0 => (jump(at + 1, k), seen(at, 0, 11)),
        1 => (jump(1_000, k), seen(at, 0, 11)),
        2 => (jump(at, k), seen(at, 5, 5)),
        _ => (calling(at.min(997)), seen(at, 0, 11)),
    };
    let main = Procedure::main().variable(INT).body(&body);
    let callee = Procedure::new(0, NONE).body(&[leave()]);
    bound(
        turns.lent(integers().procedure(main).procedure(callee).build()),
        due,
    )
}

/// Nothing but returns, so that the place tells where the jump went.
fn jump(length: usize, k: u16) -> Vec<InstructionRecord> {
    let mut body = vec![leave(); length];
    body[0] = set(0, 0);
    body[1] = jump_if_zero(0, k);
    body
}

fn calling(before: usize) -> Vec<InstructionRecord> {
    let mut body = vec![set(0, 1); before];
    body.extend([call(NONE, NONE, 1), put(0), leave()]);
    body
}
