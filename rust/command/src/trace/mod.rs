//! The steps of a run, one a line, as the second engine makes them.

pub mod columns;
mod effect;
pub mod machine;
pub mod value;

use crate::engine::{agreed, disagree, Lent};
use crate::output::Output;
use crate::source::Source;
use crate::Failure;
use columns::Columns;
use effect::Effects;
use machine::Machine;
use reference::machine::Resources;
use reference::{parse, Outcome, Place, Stop};
use std::io::Write;
use text::Sheet;

/// What is said where only the second engine reads a sheet.
pub const NO_SHEET: &str = "that it is no sheet";

/// Lists the steps and sees that they end as the proved machine did, which
/// left this report, and put the same words.
pub fn trace(
    source: &Source,
    lent: &Lent,
    watch: bool,
    expected: Outcome,
    report: &[u32],
    output: &mut Output,
) -> Result<(), Failure> {
    let program = parse(lent.sheet).map_err(|refusal| disagree(&expected, &refusal))?;
    let resources = Resources {
        input: lent.reads,
        fuel: lent.fuel,
        memory_words: lent.memory_words,
        output_words: report.len(),
    };
    let sheet = Sheet::read(lent.sheet).ok_or_else(|| disagree(&expected, &NO_SHEET))?;
    let mut machine = match Machine::start(&program, &sheet, resources, watch) {
        Ok(machine) => machine,
        // Where main's frame has no room there is no step to list.
        Err(stop) => return agreed(expected, before_main(stop)).map(|_| ()),
    };
    let lines: Vec<&str> = source.text.lines().collect();
    let list = List {
        columns: Columns::of(source, &lines, &program, steps(expected)),
        effects: Effects {
            source,
            lines: &lines,
            program: &program,
            sheet: &sheet,
            reads: lent.reads.len(),
        },
    };
    if let Listed::Ended(found) = list.print(&mut machine, output)? {
        let put = machine.put();
        let left = report.get(..put.len()).unwrap_or(report);
        agreed((Some(expected), left), (found, put))?;
    }
    Ok(())
}

fn steps(outcome: Outcome) -> u64 {
    match outcome {
        Outcome::Stopped { steps, .. } => steps,
        Outcome::Refused { .. } => 0,
    }
}

/// The outcome where main's frame has no room.
pub fn before_main(stop: Stop) -> Outcome {
    Outcome::Stopped {
        stop,
        steps: 0,
        words: 0,
        place: Place::default(),
    }
}

struct List<'a> {
    columns: Columns,
    effects: Effects<'a>,
}

enum Listed {
    /// None where the machine is stuck.
    Ended(Option<Outcome>),
    /// Nobody reads the list any more.
    Closed,
}

impl List<'_> {
    /// Makes all steps and prints each.
    fn print(&self, machine: &mut Machine, output: &mut Output) -> Result<Listed, Failure> {
        for step in 1_u64.. {
            let due = self.effects.due(machine);
            let ended = machine.step().err();
            // Of the steps that stop only main's return is made.
            let made = matches!(ended, None | Some(Some(Stop::Done)));
            if let Some(due) = due.filter(|_| made) {
                let did = self.effects.told(&due, machine);
                writeln!(output, "{}{did}", self.columns.start(step, due.place))?;
            }
            if let Some(stop) = ended {
                let outcome = stop.map(|stop| machine.outcome(stop));
                return Ok(Listed::Ended(outcome));
            }
            if output.is_closed() {
                break;
            }
        }
        Ok(Listed::Closed)
    }
}
