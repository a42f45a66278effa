//! What must hold of the program on a file.

use super::printable::hidden;
use super::text::assembled;
use crate::counts::{Counts, Event, Task};
use crate::process::{Attempt, Said};
use reference::{Outcome, Verdict};
use std::process::Output;

/// The exit statuses that mean something.
const STATUSES: std::ops::RangeInclusive<i32> = 0..=4;
/// The most that a task may say of what is wrong.
const MOST: usize = 64 << 10;
/// The status of a file that is not what it must be.
const MISUSE: i32 = 2;

/// A file, what its text means, and what the program has said.
pub struct Tried {
    pub attempt: Attempt,
    /// The sheet of the file; None where it is a text that does not assemble.
    pub sheet: Option<Vec<u8>>,
    pub said: Said,
}

impl Tried {
    fn tasks(&self) -> [(Task, &Output); 5] {
        let said = &self.said;
        [
            (Task::Check, &said.check),
            (Task::Run, &said.run),
            (Task::Asm, &said.asm),
            (Task::Dis, &said.dis),
            (Task::Asm, &said.back),
        ]
    }
}

/// The bytes that a text in a file makes, if it makes any.
pub fn made(bytes: &[u8]) -> Option<Vec<u8>> {
    let text = std::str::from_utf8(bytes).ok()?;
    assembled(text).ok()
}

pub fn ends(tried: &Tried, counts: &mut Counts) -> Result<(), String> {
    for (task, output) in tried.tasks() {
        let status = output.status.code().filter(|code| STATUSES.contains(code));
        let Some(status) = status else {
            return Err(format!("{task:?} ends with {}", output.status));
        };
        counts.add(Event::Program(task, status));
        let said = String::from_utf8_lossy(&output.stderr);
        if said.contains("panicked") {
            return Err(format!("{task:?} says {said}"));
        }
    }
    Ok(())
}

pub fn errors_are_short(tried: &Tried, _: &mut Counts) -> Result<(), String> {
    for (task, Output { stderr, .. }) in tried.tasks() {
        short_and_printable(stderr).map_err(|fault| format!("{task:?}: {fault}"))?;
    }
    Ok(())
}

pub fn explanations_are_short(tried: &Tried, _: &mut Counts) -> Result<(), String> {
    short_and_printable(&tried.said.check.stdout)
}

fn short_and_printable(said: &[u8]) -> Result<(), String> {
    if said.len() >= MOST {
        return Err(format!("{} bytes", said.len()));
    }
    let said = std::str::from_utf8(said).map_err(|cause| cause.to_string())?;
    match said.lines().find_map(hidden) {
        Some(character) => Err(format!("{character:?} in {said:?}")),
        None => Ok(()),
    }
}

/// Whether some line of standard output is the one due, or, where none is,
/// the status says misuse.
fn prints(
    output: &Output,
    due: Option<&str>,
    is_due: fn(&str, &str) -> bool,
) -> Result<(), String> {
    let said = String::from_utf8_lossy(&output.stdout);
    let holds = match due {
        Some(due) => said.lines().any(|line| is_due(line, due)),
        None => output.status.code() == Some(MISUSE),
    };
    let first = said.lines().next();
    match holds {
        true => Ok(()),
        false => Err(format!(
            "expected {due:?}, found {}, {first:?}",
            output.status
        )),
    }
}

pub fn check_prints_the_verdict(tried: &Tried, _: &mut Counts) -> Result<(), String> {
    let verdict = tried.sheet.as_deref().map(reference::check);
    let due = verdict.map(|verdict| match verdict {
        Verdict::Accepted => String::from("accepted 0 0"),
        Verdict::Refused { number, place } => format!("refused {number} {place}"),
    });
    prints(&tried.said.check, due.as_deref(), |line, due| line == due)
}

pub fn run_prints_the_stop(tried: &Tried, _: &mut Counts) -> Result<(), String> {
    if tried.attempt.odd_reads.is_some() {
        return Ok(());
    }
    let outcome = tried.sheet.as_ref().map(|_| {
        let lent = &tried.attempt.lent;
        let (outcome, _) = match tried.attempt.watched {
            true => lent.on(reference::watch),
            false => lent.on(reference::run),
        };
        outcome
    });
    let due = outcome.map(|outcome| match outcome {
        Outcome::Refused { number, place } => format!("refused {number} {place}"),
        Outcome::Stopped { stop, .. } => format!("stopped {} ", stop as u8),
    });
    prints(&tried.said.run, due.as_deref(), |line, due| {
        line.starts_with(due)
    })
}

pub fn asm_writes_the_bytes(tried: &Tried, _: &mut Counts) -> Result<(), String> {
    let due = made(&tried.attempt.bytes);
    match tried.said.assembled == due {
        true => Ok(()),
        false => Err(format!(
            "expected {:?} bytes, found {:?}",
            due.map(|due| due.len()),
            tried.said.assembled.as_ref().map(Vec::len)
        )),
    }
}

/// Where dis says that it has no room, there is nothing to come back from.
pub fn dis_comes_back(tried: &Tried, _: &mut Counts) -> Result<(), String> {
    let said = &tried.said;
    let is_due = said.dis.status.success();
    match !is_due || said.came_back.as_ref() == Some(&tried.attempt.bytes) {
        true => Ok(()),
        false => Err(format!(
            "{} bytes, found {:?}: {}",
            tried.attempt.bytes.len(),
            said.came_back.as_ref().map(Vec::len),
            String::from_utf8_lossy(&said.back.stderr)
        )),
    }
}
