//! The families of sheets to be run.

use super::program::runnable;
use super::settling::settling;
use super::trial::trial;
use super::{around, plenty, Run};
use crate::accepted::accepted;
use crate::random::Random;
use crate::sheet::Sheet;
use crate::wellformed::redraw;
use reference::machine::Need;

/// Sheets by seed.
pub struct Family {
    pub name: &'static str,
    /// Whether check accepts all of its sheets; if not, it refuses most.
    pub accepted: bool,
    sheet: fn(&mut Random, u64) -> Sheet,
}

/// Accepted sheets that do much when they are run.
pub const RUNNABLE: Family = Family {
    name: "runnable",
    accepted: true,
    sheet: |random, _| runnable(random),
};

/// Accepted sheets of any form and size, most of which soon use a blank.
pub const ANY_ACCEPTED: Family = Family {
    name: "any accepted",
    accepted: true,
    sheet: |random, _| accepted(random),
};

/// One instruction on operands of any types; all codes in turn, and a fetch,
/// which is bound twice, two times more.
pub const TRIALS: Family = Family {
    name: "trials",
    accepted: false,
    sheet: |random, seed| {
        let turn = (seed % 19) as u8 + 1;
        trial(random, if turn > 17 { 10 } else { turn })
    },
};

/// One call of a procedure with a rights name.
pub const SETTLING: Family = Family {
    name: "settling",
    accepted: false,
    sheet: |random, _| settling(random),
};

/// Runnable sheets in which one to three fields are drawn anew, within the
/// layout.
pub const MISDECLARED: Family = Family {
    name: "misdeclared",
    accepted: false,
    sheet: |random, _| {
        let mut sheet = runnable(random);
        for _ in 0..random.between(1, 3) {
            redraw(random, &mut sheet);
        }
        sheet
    },
};

impl Family {
    pub fn sheet(&self, seed: u64) -> Sheet {
        (self.sheet)(&mut Random::new(seed), seed)
    }

    /// The runs of a seed: one with plenty, of which the need is asked, and
    /// those at and around the need.
    pub fn runs(&self, seed: u64, need: impl FnOnce(&Run) -> Need) -> Vec<Run> {
        let mut random = Random::new(!seed);
        let first = plenty(&mut random, self.sheet(seed).encode());
        let need = need(&first);
        let mut all = around(&mut random, &first, need);
        all.insert(0, first);
        all
    }
}
