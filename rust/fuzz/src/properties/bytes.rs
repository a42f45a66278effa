//! What must hold of the bytes of a sheet, and of its run.

use super::text::sheet_comes_back;
use crate::counts::{Counts, Event};
use crate::editions::second;
use comparison::{agreed, agreed_run, agreed_watch, machines, proved};
use generator::runs::Run;
use reference::{Edition, Outcome, Verdict, MAX_SHEET};
use text::edition_of;

/// The sheet, with what it is run with.
pub type Sheet = Run;

pub fn comes_back(lent: &Sheet, _: &mut Counts) -> Result<(), String> {
    sheet_comes_back(&lent.sheet)
}

pub fn checks_agree(lent: &Sheet, counts: &mut Counts) -> Result<(), String> {
    let number = number(agreed(&lent.sheet)?);
    counts.add(Event::Check(number));
    let edition = edition_of(&lent.sheet).number();
    counts.add(Event::Edition(edition, number == 0));
    Ok(())
}

fn number(verdict: Verdict) -> u64 {
    match verdict {
        Verdict::Accepted => 0,
        Verdict::Refused { number, .. } => u64::from(number),
    }
}

/// A well-formed sheet of the first edition has the same verdict in the
/// second, its named rights the last that there are, and is run to the same
/// stop; places are others.
pub fn editions_are_alike(lent: &Sheet, _: &mut Counts) -> Result<(), String> {
    let sheet = second(&lent.sheet, || usize::MAX);
    let is_due = edition_of(&lent.sheet) == Edition::First && sheet.len() <= MAX_SHEET;
    if !is_due || reference::parse(&lent.sheet).is_err() {
        return Ok(());
    }
    let wide = Sheet {
        sheet,
        ..lent.clone()
    };
    let verdicts = [lent, &wide].map(|lent| number(proved(&lent.sheet)));
    let runs = [lent, &wide].map(|lent| without_place(lent.on(machines::run)));
    let watches = [lent, &wide].map(|lent| without_place(lent.on(machines::watch)));
    let alike = verdicts[0] == verdicts[1] && runs[0] == runs[1] && watches[0] == watches[1];
    match alike {
        true => Ok(()),
        false => Err(format!("{verdicts:?}, runs {runs:?}, watched {watches:?}")),
    }
}

/// A refusal is about the same record, at another place.
fn without_place((outcome, output): (Outcome, Vec<u32>)) -> (Outcome, Vec<u32>) {
    let outcome = match outcome {
        Outcome::Refused { number, .. } => Outcome::Refused { number, place: 0 },
        stopped => stopped,
    };
    (outcome, output)
}

/// The memory is looked at by [`machines`].
pub fn runs_agree(lent: &Sheet, counts: &mut Counts) -> Result<(), String> {
    counts.add(Event::Run(agreed_run(lent)?.number()));
    Ok(())
}

pub fn watches_agree(lent: &Sheet, counts: &mut Counts) -> Result<(), String> {
    counts.add(Event::Watch(agreed_watch(lent)?.number()));
    Ok(())
}

pub fn output_is_kept(lent: &Sheet, _: &mut Counts) -> Result<(), String> {
    for (outcome, after) in [lent.on(machines::run), lent.on(machines::watch)] {
        let put = match outcome {
            Outcome::Refused { .. } => 0,
            Outcome::Stopped { words, .. } => words,
        };
        let before = lent.output.get(put..);
        if before.is_none() || before != after.get(put..) {
            return Err(format!("{outcome:?}, the output was changed to {after:?}"));
        }
    }
    Ok(())
}

pub fn watch_is_run(lent: &Sheet, _: &mut Counts) -> Result<(), String> {
    let (run, watch) = (lent.on(machines::run), lent.on(machines::watch));
    let refused = matches!(run.0, Outcome::Refused { .. });
    match refused || run == watch {
        true => Ok(()),
        false => Err(format!("run says {run:?}, watch {watch:?}")),
    }
}
