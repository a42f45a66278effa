//! Hand-written sheets, each with the sentence of document 01 or 02 that it tries
//! and the verdict written out.

mod catalogue;
mod depths;
mod editions;
mod forms;
mod generics;
mod kinds;
mod known;
mod layout;
mod movements;
mod numbers;
mod open;
mod precedence;
pub mod runs;
mod structures;
mod widened;

use crate::sheet::Sheet;
pub use known::SMALLEST;
use reference::Verdict;

pub struct Case {
    pub name: &'static str,
    /// The words of document 01, or the part of a longer sentence.
    pub sentence: &'static str,
    pub sheet: Vec<u8>,
    pub expected: Verdict,
}

/// All hand-written sheets.
pub fn cases() -> Vec<Case> {
    let mut all = known::cases();
    all.extend(layout::cases());
    all.extend(open::cases());
    all.extend(kinds::cases());
    all.extend(movements::cases());
    all.extend(forms::cases());
    all.extend(precedence::cases());
    all.extend(depths::cases());
    all.extend(numbers::cases());
    all.extend(generics::cases());
    all.extend(structures::cases());
    all.extend(widened::cases());
    all.extend(editions::cases());
    all
}

const ACCEPTED: Verdict = Verdict::Accepted;

fn refused(number: u8, place: usize) -> Verdict {
    Verdict::Refused { number, place }
}

fn case(name: &'static str, sentence: &'static str, sheet: Vec<u8>, expected: Verdict) -> Case {
    Case {
        name,
        sentence,
        sheet,
        expected,
    }
}

/// The bytes of a sheet with some of them replaced.
fn edited(sheet: &Sheet, edits: &[(usize, u8)]) -> Vec<u8> {
    let mut bytes = sheet.encode();
    for &(place, byte) in edits {
        bytes[place] = byte;
    }
    bytes
}
