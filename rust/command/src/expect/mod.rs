//! Texts held against their heads, which say what is expected of their sheets.

mod head;
mod lines;
mod trial;

use crate::failure::{Faulty, FileError};
use crate::files::name_of;
use crate::output::Output;
use crate::paint::When;
use crate::{source, Failure, ACCEPTED, REFUSED};
use head::Head;
use std::ffi::{OsStr, OsString};
use std::io::Write;
use trial::Comparison;

/// What the help says of the task.
pub const ABOUT: &[&str] = &[
    "holds each text against its head, which says what is expected of it; prints a line for each text,",
    "one for each thing that differs, and last 'N passed, M failed'",
];

/// What the help of the task says of heads.
pub const HEADS: &[&str] = &[
    "The head of a text is the lines at its start that begin with #. From '# expect:' on, each of these says one",
    "thing, as '# KEY: VALUE'; what stands before is prose. Any other line there, a blank before its #, a comment's line",
    "elsewhere in the text that begins with a key, a value that is not of its form and a key that says nothing about the",
    "sheet are errors.",
    "  expect    accepted 0 0, or refused NUMBER PLACE, or error LINE:COLUMN where the text does not assemble",
    "  at        the line refused, in error or stopped at, without its comment",
    "  stop      runs an accepted sheet: its stop, such as 11 done, or 10 big bench where the memory lent is refused;",
    "            the watched machine must give the same",
    "  watch     runs a sheet refused for 6 to 9, 20 or 21: the stop of the watched machine",
    "  watch-at  the line at which that one stops, where it is not the line refused",
    "  put       the words put by the run; none by default",
    "  reads, fuel, memory, report    what is lent to the run, as by the options of run",
];

/// Tries every text, also after one that fails. The status is the most severe.
pub fn test(files: &[OsString], output: &mut Output) -> Result<u8, Failure> {
    let widths = files.iter().map(|file| name_of(file).chars().count());
    let width = widths.max().unwrap_or_default();
    let (mut passed, mut failed, mut status) = (0, 0, ACCEPTED);
    for file in files {
        let name = name_of(file);
        match tried(file) {
            Ok(tried) => {
                let differ = tried.comparisons.iter().filter(|one| !one.holds()).count();
                passed += tried.comparisons.len() - differ;
                failed += differ;
                status = status.max(if differ > 0 { REFUSED } else { ACCEPTED });
                write!(output, "{}", tried.said(&name, width))?;
            }
            // Of a text in error nothing is compared: it must not look as if nothing had failed.
            Err(failure) => {
                failed += 1;
                status = status.max(failure.status());
                // What was printed before comes first.
                output.flush()?;
                failure.say(When::Auto.errors());
            }
        }
    }
    writeln!(output, "{passed} passed, {failed} failed")?;
    Ok(status)
}

struct Tried {
    head: Head,
    comparisons: Vec<Comparison>,
}

impl Tried {
    /// One line where all holds, or else one for each thing that differs.
    fn said(&self, name: &str, width: usize) -> String {
        let differ = self.comparisons.iter().filter(|one| !one.holds());
        let lines: Vec<String> = differ
            .map(|one| format!("FAILED  {name}: {one}\n"))
            .collect();
        match lines.is_empty() {
            true => format!("ok      {name:<width$}   {}\n", self.head),
            false => lines.concat(),
        }
    }
}

fn tried(file: &OsStr) -> Result<Tried, Failure> {
    let text = source::text_of(file)?;
    let head = match Head::read(&text) {
        Ok(head) => head,
        Err(error) => {
            let (span, message) = (Some(error.span), error.message);
            return Err(Failure::Faulty(Faulty {
                path: file.to_owned(),
                text,
                errors: vec![FileError { span, message }],
            }));
        }
    };
    let comparisons = trial::compare(&text, &head)?;
    Ok(Tried { head, comparisons })
}
