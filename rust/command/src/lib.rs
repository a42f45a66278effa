//! What the command `wennathig` does. [`tasks`] says how it is used.
//!
//! The verdict on a sheet and its run are the proved engine's. The second
//! engine tells what the rule that refused it looked at, and makes the trace;
//! where the two disagree, that is said and nothing else.

mod answer;
mod arguments;
mod engine;
mod expect;
mod explain;
mod failure;
mod files;
mod help;
mod json;
mod located;
mod objects;
mod options;
mod output;
mod paint;
mod progress;
mod quote;
mod reads;
mod run;
mod settling;
mod sheets;
mod show;
mod source;
mod stop;
mod streams;
mod tasks;
mod trace;
mod why;
mod words;
mod writing;

use failure::Failure;
use options::Task;
use output::Output;
use paint::When;
use std::ffi::{OsStr, OsString};
use std::io::Write;

/// Exit statuses.
pub const ACCEPTED: u8 = 0;
pub const REFUSED: u8 = 1;
/// Misuse, an error in a text, or a file that cannot be read.
pub const MISUSE: u8 = 2;
/// The output cannot be written, or the two engines disagree.
pub const FAILED: u8 = 3;
/// A run that was expected to be done stopped otherwise.
pub const NOT_DONE: u8 = 4;

/// Does what the arguments ask and gives the exit status.
pub fn main(arguments: &[OsString]) -> u8 {
    let mut output = Output::standard();
    let outcome = Task::read(arguments).and_then(|task| perform(task, &mut output));
    let outcome = outcome.and_then(|status| {
        output.flush()?;
        Ok(status)
    });
    match outcome {
        Ok(status) => status,
        Err(failure) => {
            // What was printed before comes first.
            let _ = output.flush();
            failure.say(When::Auto.errors());
            failure.status()
        }
    }
}

fn perform(task: Task, output: &mut Output) -> Result<u8, Failure> {
    match task {
        Task::Help(task) => {
            let help = task.map_or_else(help::whole, help::of);
            write!(output, "{help}")?;
        }
        Task::Version => writeln!(output, "wennathig {}", wennathig::VERSION)?,
        Task::Check(sheets) => return sheets::check(&sheets, output),
        Task::Run(run) => return run::run(&run, output),
        Task::Test(files) => return expect::test(&files, output),
        Task::Assemble { from, to } => {
            writing::apart(&to, [OsStr::new(&from)].into_iter())?;
            let sheet = source::assembled(&from)?.sheet;
            writing::write(&to, &sheet, output)?;
        }
        Task::Disassemble { from, to } => {
            writing::apart(&to, [OsStr::new(&from)].into_iter())?;
            let bytes = files::read(&from, source::MAX_DISASSEMBLED)?;
            let text = text::disassemble(&bytes);
            writing::write(&to, text.as_bytes(), output)?;
        }
    }
    Ok(ACCEPTED)
}
