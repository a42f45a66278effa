//! Why a run stopped, told with the words of the text.
//!
//! The stop is the proved machine's. The second engine makes the steps again
//! and, where it comes to the same stop, tells what it stopped at.

mod cause;
mod movement;
mod reads;
mod watched;

use crate::engine::{agreed, disagree, Lent};
use crate::progress;
use crate::source::Source;
use crate::trace::machine::Machine;
use crate::trace::value::Teller;
use crate::trace::{before_main, NO_SHEET};
use crate::Failure;
use cause::{Cause, Reason};
use reference::machine::Resources;
use reference::{parse, Outcome, Place, Program, Stop};
use text::field::Field;
use text::Sheet;

/// The most steps that are made again only to tell why: some seconds.
const MOST_STEPS: u64 = 50_000_000;

/// What can be told of a stop beside its number.
pub struct Stopped {
    /// The byte of the record stopped at, which is main's where that has no
    /// room, and the parts of it that are at fault, none for all of it.
    pub place: usize,
    pub is_instruction: bool,
    pub parts: Vec<Field>,
    /// The lines of the reason.
    pub reason: Vec<String>,
}

/// Tells of a stop.
pub fn stopped(
    source: &Source,
    lent: &Lent,
    watch: bool,
    outcome: Outcome,
) -> Result<Stopped, Failure> {
    let Outcome::Stopped {
        stop, steps, place, ..
    } = outcome
    else {
        return Err(disagree(&outcome, &"that it stops"));
    };
    let program = parse(lent.sheet).map_err(|refusal| disagree(&outcome, &refusal))?;
    let instruction = instruction(&program, lent, stop, place);
    let reason = match stop {
        Stop::Done => Reason::default(),
        Stop::FuelSpent | Stop::InputEnded | Stop::OutputFull => lacking(lent, outcome),
        _ if instruction.is_none() => {
            let units = main_units(&program);
            Reason::line(format!(
                "main's frame needs {units} words before the first step"
            ))
        }
        _ if steps > MOST_STEPS => too_long(),
        _ => progress::shown(|| again(source, lent, watch, outcome, &program))?,
    };
    Ok(Stopped {
        place: instruction.unwrap_or(program.procedures[0].place),
        is_instruction: instruction.is_some(),
        parts: reason.parts,
        reason: reason.lines,
    })
}

/// The byte of the instruction stopped at; None where main's frame has no
/// room, and main itself is what the run stopped at.
pub fn instruction(program: &Program, lent: &Lent, stop: Stop, place: Place) -> Option<usize> {
    if stop == Stop::MemoryFull && main_units(program) > lent.memory_words {
        return None;
    }
    let procedure = &program.procedures[place.procedure];
    Some(procedure.instructions[place.instruction].place)
}

fn main_units(program: &Program) -> usize {
    program.procedures[0].variables.len() + 2
}

/// 12, 15 and 16: what was lent is used up.
fn lacking(lent: &Lent, outcome: Outcome) -> Reason {
    let Outcome::Stopped { stop, words, .. } = outcome else {
        return Reason::default();
    };
    Reason::line(match (stop, lent.reads.len(), words) {
        (Stop::FuelSpent, ..) => {
            let next = u128::from(lent.fuel) + 1;
            format!("the fuel is {}, and this would be step {next}", lent.fuel)
        }
        (Stop::InputEnded, 0, _) => String::from("there are no reads"),
        (Stop::InputEnded, reads, _) => format!("the reads are {reads}, and all are taken"),
        (_, _, 0) => String::from("the report has no words"),
        (_, _, words) => format!("the words of the report are {words}, and all are put"),
    })
}

fn too_long() -> Reason {
    let line = "why is not told: the second engine would take too long to make so many steps again";
    Reason::line(String::from(line))
}

/// Makes the steps again and tells what the last one, which was not made,
/// stopped at.
fn again(
    source: &Source,
    lent: &Lent,
    watch: bool,
    outcome: Outcome,
    program: &Program,
) -> Result<Reason, Failure> {
    let Outcome::Stopped { steps, .. } = outcome else {
        return Ok(Reason::default());
    };
    let resources = Resources {
        input: lent.reads,
        // One more than were made, so that also a machine that disagrees ends.
        fuel: steps.saturating_add(1),
        memory_words: lent.memory_words,
        output_words: usize::MAX,
    };
    let sheet = Sheet::read(lent.sheet).ok_or_else(|| disagree(&outcome, &NO_SHEET))?;
    let mut machine = match Machine::start(program, &sheet, resources, watch) {
        Ok(machine) => machine,
        Err(stop) => return Err(disagree(&outcome, &before_main(stop))),
    };
    let Some(end) = finished(&mut machine) else {
        return Ok(too_long());
    };
    let found = end.map(|stop| machine.outcome(stop));
    agreed(Some(outcome), found)?;
    let names = &source.names;
    let teller = Teller {
        program,
        sheet: &sheet,
        names,
    };
    let cause = Cause::new(teller, &machine, lent.memory_words);
    let reason = end.zip(cause).and_then(|(stop, cause)| cause.reason(stop));
    reason.ok_or_else(|| disagree(&outcome, &"that nothing is wrong"))
}

/// Steps to the end, or None where that takes too long. The end has no stop
/// where the machine is stuck.
fn finished(machine: &mut Machine) -> Option<Option<Stop>> {
    let mut work = 0;
    while work <= MOST_STEPS {
        work += machine.weight();
        if let Err(end) = machine.step() {
            return Some(end);
        }
    }
    None
}
