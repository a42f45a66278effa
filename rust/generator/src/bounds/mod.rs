//! Sheets and runs at the limits of document 01, in both editions: just below,
//! at and above.
//!
//! Random sheets do not come to a number of 17 bits, a ninth level of
//! elements or procedure 40 by themselves, and an engine that cuts a number
//! short agrees with all of them. The families here go through their
//! positions in turn, and each knows the numbers that check and watch must
//! give, so that it can be counted what has come up.

mod actuals;
mod arrays;
mod fields;
mod lengths;
mod levels;
mod procedures;
mod rights;
mod structures;
mod targets;
mod twice;
mod types;
mod values;
mod widened;

use crate::operations::{add, set};
use crate::random::Random;
use crate::records::InstructionRecord;
use crate::runs::Run;
use crate::second_edition::into_second_edition;
use crate::sheet::{Procedure, Sheet, SheetBuilder};
pub use levels::{level_of, LEVELS};
use reference::Edition;

/// A run at a limit.
pub struct Bound {
    pub run: Run,
    pub seen: Seen,
}

/// What a run is counted by, and must give.
#[derive(Clone, Copy, Debug, PartialEq, Eq, PartialOrd, Ord)]
pub struct Seen {
    /// What is at its limit: a level, a number, a length, .., as the family
    /// has it.
    pub at: u64,
    /// The number of check, 0 for an accepted sheet.
    pub check: u8,
    /// The number of watch; that of run too, where check accepts.
    pub watch: u8,
}

fn seen(at: usize, check: u8, watch: u8) -> Seen {
    let at = at as u64;
    Seen { at, check, watch }
}

/// Runs by seed.
pub struct Family {
    pub name: &'static str,
    /// The positions in an edition; a further seed begins anew.
    pub count: fn(Edition) -> usize,
    bound: fn(&mut Turns) -> Bound,
    /// All that must come up in an edition.
    pub due: fn(Edition) -> Vec<Seen>,
}

impl Family {
    pub fn bound(&self, edition: Edition, seed: u64) -> Bound {
        let position = seed % (self.count)(edition) as u64;
        (self.bound)(&mut Turns {
            edition,
            position,
            left: position,
        })
    }
}

/// Those that take many steps come last.
pub const FAMILIES: [Family; 22] = [
    LEVELS,
    structures::STRUCTURES,
    structures::NAMED_STRUCTURES,
    widened::WIDENED,
    widened::WIDENED_NAMES,
    twice::WIDENED_TWICE,
    values::VALUES,
    arrays::SIZES,
    arrays::INDEXES,
    arrays::ROOM,
    lengths::LENGTHS,
    targets::TARGETS,
    types::TYPES,
    types::SLOTS,
    procedures::PROCEDURES,
    actuals::ACTUALS,
    rights::RIGHTS,
    rights::NAMED,
    fields::QUALIFIED,
    fields::VARIABLES,
    arrays::OBJECTS,
    lengths::FUEL,
];

/// A position, taken apart into one choice after the other.
struct Turns {
    edition: Edition,
    position: u64,
    left: u64,
}

impl Turns {
    /// A number below the count; the next ones are what is left.
    fn of(&mut self, count: usize) -> usize {
        let turn = self.left % count as u64;
        self.left /= count as u64;
        turn as usize
    }

    fn pick<T: Copy>(&mut self, items: &[T]) -> T {
        items[self.of(items.len())]
    }

    /// A run, in the edition, that is lent enough for a sheet that does little.
    fn lent(&self, mut sheet: Sheet) -> Run {
        // Those that are about the rights themselves have the edition already.
        if sheet.edition() != self.edition {
            into_second_edition(&mut Random::new(self.position), &mut sheet);
        }
        Run {
            sheet: sheet.encode(),
            input: Vec::new(),
            fuel: 10_000,
            memory_words: 200,
            output: vec![9; 40],
        }
    }
}

/// The integer, of all sheets here.
const INT: u8 = 0;

fn bound(run: Run, seen: Seen) -> Bound {
    Bound { run, seen }
}

/// A sheet whose first qualified type is the integer.
fn integers() -> SheetBuilder {
    SheetBuilder::new().integer()
}

/// The integer alone, and main with so many of it.
fn of_integers(variables: usize, body: &[InstructionRecord]) -> Sheet {
    let main = Procedure::main().variables(&vec![INT; variables]);
    integers().procedure(main.body(body)).build()
}

/// The number made of its halves by sums, since a set has 16 bits only.
fn made(value: u32, to: u8, scratch: u8) -> Vec<InstructionRecord> {
    let mut body = vec![set(to, (value >> 16) as u16)];
    body.extend([add(to, to, to); 16]);
    body.extend([set(scratch, value as u16), add(to, to, scratch)]);
    body
}

/// Every power of two with its neighbours, and numbers that have something in
/// every byte.
fn boundaries() -> Vec<u32> {
    let mut all = vec![0, 0x0102_0304, 0x8000_8001, 0xfedc_ba98, 0xff00_ff00];
    for bit in 0..32 {
        let power = 1u32 << bit;
        all.extend([power - 1, power, power.wrapping_add(1)]);
    }
    all.extend([u32::MAX - 1, u32::MAX]);
    all.sort_unstable();
    all.dedup();
    all
}
