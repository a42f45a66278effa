//! What the comparison of the two engines needs: their verdicts and outcomes
//! in one form, and a record of what the compared sheets have covered.

pub mod coverage;
pub mod exhibits;
pub mod frozen;
pub mod generics;
pub mod machines;
mod memory;
pub mod rights;
pub mod walk;
pub mod workers;
pub mod zeros;

use generator::runs::Run;
use reference::{Outcome, Verdict};

/// The verdict of the proved engine in the form of the second one. A number
/// that is no refusal at all is shown as it is, by the panic.
pub fn proved(sheet: &[u8]) -> Verdict {
    match wennathig::check(sheet) {
        wennathig::Verdict::Accepted => Verdict::Accepted,
        wennathig::Verdict::Refused { number, place } => Verdict::Refused {
            number: u8::try_from(number).expect("the number of a refusal"),
            place: usize::try_from(place).expect("a place in a sheet"),
        },
    }
}

/// Gives the verdict of both engines, or says how they differ.
pub fn agreed(sheet: &[u8]) -> Result<Verdict, String> {
    let expected = reference::check(sheet);
    let found = proved(sheet);
    if found == expected {
        Ok(found)
    } else {
        let shown = hexadecimal(sheet);
        Err(format!(
            "proved {found:?}, reference {expected:?} on {shown}"
        ))
    }
}

/// Gives the outcome of both engines' run, which also leave the same output,
/// or says how they differ. What the proved one leaves in its memory is looked
/// at by [`machines`].
pub fn agreed_run(lent: &Run) -> Result<Outcome, String> {
    same(lent, lent.on(reference::run), lent.on(machines::run))
}

/// Like [`agreed_run`], watched.
pub fn agreed_watch(lent: &Run) -> Result<Outcome, String> {
    same(lent, lent.on(reference::watch), lent.on(machines::watch))
}

/// An outcome and the whole output after it.
type Answer = (Outcome, Vec<u32>);

/// Gives the outcome that is expected and found, or says how they differ.
pub fn same(lent: &Run, expected: Answer, found: Answer) -> Result<Outcome, String> {
    if found == expected {
        Ok(found.0)
    } else {
        let (fuel, words) = (lent.fuel, lent.memory_words);
        let (input, shown) = (&lent.input, hexadecimal(&lent.sheet));
        Err(format!(
            "proved {found:?}, reference {expected:?}, fuel {fuel}, {words} words, input {input:?} on {shown}"
        ))
    }
}

/// The sheet in hexadecimal, the beginning of it if it is long.
pub fn hexadecimal(sheet: &[u8]) -> String {
    let shown = sheet.iter().take(1200);
    let digits: String = shown.map(|byte| format!("{byte:02x}")).collect();
    format!("{} bytes: {digits}", sheet.len())
}
