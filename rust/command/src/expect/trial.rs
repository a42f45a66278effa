//! A text tried: each thing that its head says, held against what is found.

use super::head::{numbered, Head, Run, Verdict};
use crate::engine::{self, Lent, Refusal};
use crate::quote::escaped;
use crate::stop::instruction;
use crate::{progress, Failure};
use reference::{parse, Outcome, Place};
use std::fmt;
use text::{assemble, Assembled};

pub struct Comparison {
    what: &'static str,
    expected: String,
    found: String,
}

impl Comparison {
    pub fn holds(&self) -> bool {
        self.expected == self.found
    }
}

impl fmt::Display for Comparison {
    fn fmt(&self, out: &mut fmt::Formatter) -> fmt::Result {
        let what = self.what;
        let [expected, found] = [&self.expected, &self.found].map(|said| escaped(said));
        write!(out, "{what}: expected '{expected}', found '{found}'")
    }
}

/// The comparisons, collected one after the other.
#[derive(Default)]
struct Comparisons(Vec<Comparison>);

impl Comparisons {
    fn add(&mut self, what: &'static str, expected: impl Into<String>, found: impl Into<String>) {
        self.0.push(Comparison {
            what,
            expected: expected.into(),
            found: found.into(),
        });
    }
}

/// Holds the text against its head. Where the verdict is another one, the
/// sheet is not run.
pub fn compare(text: &str, head: &Head) -> Result<Vec<Comparison>, Failure> {
    let mut all = Comparisons::default();
    let judged = Judged::new(text)?;
    let (expected, found) = (head.verdict.to_string(), judged.verdict.to_string());
    all.add("the verdict", expected, found);
    if let Some(at) = &head.at {
        let what = match head.verdict {
            Verdict::Error { .. } => "the line in error",
            Verdict::Accepted | Verdict::Refused { .. } => "the line refused",
        };
        all.add(what, at, line_of(text, judged.line));
    }
    let sheet = judged.assembled.filter(|_| judged.verdict == head.verdict);
    if let (Some(run), Some(assembled)) = (&head.run, &sheet) {
        let trial = Trial {
            text,
            assembled,
            run,
        };
        match head.verdict {
            Verdict::Accepted => trial.both(&mut all)?,
            _ => trial.watched(head.at.as_ref(), &mut all)?,
        }
    }
    Ok(all.0)
}

/// What is found of a text as a whole.
struct Judged {
    verdict: Verdict,
    /// The line refused or in error.
    line: Option<usize>,
    assembled: Option<Assembled>,
}

impl Judged {
    fn new(text: &str) -> Result<Judged, Failure> {
        let assembled = match assemble(text) {
            Ok(assembled) => assembled,
            // There is at least one; the first counts.
            Err(errors) => {
                let first = errors
                    .first()
                    .map(|error| (error.span.line, error.span.start));
                let (line, column) = first.unwrap_or_default();
                return Ok(Judged {
                    verdict: Verdict::Error { line, column },
                    line: Some(line),
                    assembled: None,
                });
            }
        };
        let (verdict, line) = match engine::check(&assembled.sheet)? {
            None => (Verdict::Accepted, None),
            Some(Refusal { number, place }) => {
                let line = line_at(&assembled, place);
                (Verdict::Refused { number, place }, line)
            }
        };
        Ok(Judged {
            verdict,
            line,
            assembled: Some(assembled),
        })
    }
}

/// The line of the record at a byte of the sheet.
fn line_at(assembled: &Assembled, place: usize) -> Option<usize> {
    let span = assembled.listing.at_byte(place)?.span?;
    Some(span.line)
}

/// What a line says, without its comment and the blanks around; empty where
/// there is no line.
fn line_of(text: &str, number: Option<usize>) -> &str {
    let line = number.and_then(|number| text.lines().nth(number - 1));
    let said = line.unwrap_or_default().split('#').next();
    said.unwrap_or_default().trim()
}

struct Trial<'a> {
    text: &'a str,
    assembled: &'a Assembled,
    run: &'a Run,
}

/// What a machine says.
struct Ran {
    outcome: Outcome,
    put: Vec<u32>,
}

type Machine = fn(&Lent, &mut [u32]) -> Result<Outcome, Failure>;

impl Trial<'_> {
    /// An accepted sheet: the head says what the plain machine gives, and the
    /// watched one must give the same in all.
    fn both(&self, all: &mut Comparisons) -> Result<(), Failure> {
        let (plain, watched) = (self.ran(engine::run)?, self.ran(engine::watch)?);
        all.add("the stop", &self.run.stop, stop(&plain));
        all.add("the words put", joined(&self.run.put), joined(&plain.put));
        if let Some(at) = &self.run.at {
            all.add("the line stopped at", at, self.stopped_at(&plain));
        }
        all.add("the watched stop", stop(&plain), stop(&watched));
        let (expected, found) = (joined(&plain.put), joined(&watched.put));
        all.add("the watched words put", expected, found);
        let (expected, found) = (steps_and_place(&plain), steps_and_place(&watched));
        all.add("the watched steps and place", expected, found);
        Ok(())
    }

    /// A refused sheet, which stops where it is refused unless the head says
    /// where.
    fn watched(&self, refused_at: Option<&String>, all: &mut Comparisons) -> Result<(), Failure> {
        let watched = self.ran(engine::watch)?;
        all.add("the watched stop", &self.run.stop, stop(&watched));
        let put = joined(&self.run.put);
        all.add("the watched words put", put, joined(&watched.put));
        if let Some(at) = self.run.at.as_ref().or(refused_at) {
            all.add("the line stopped at", at, self.stopped_at(&watched));
        }
        Ok(())
    }

    fn lent(&self) -> Lent<'_> {
        Lent {
            sheet: &self.assembled.sheet,
            reads: &self.run.reads,
            fuel: self.run.fuel,
            memory_words: usize::try_from(self.run.memory).unwrap_or(usize::MAX),
        }
    }

    fn ran(&self, machine: Machine) -> Result<Ran, Failure> {
        let mut put = engine::zeros("report:", self.run.report as usize)?;
        let outcome = progress::shown(|| machine(&self.lent(), &mut put))?;
        match outcome {
            Outcome::Refused { .. } => put.clear(),
            Outcome::Stopped { words, .. } => put.truncate(words),
        }
        Ok(Ran { outcome, put })
    }

    /// The line of the instruction stopped at.
    fn stopped_at(&self, ran: &Ran) -> &str {
        let byte = self.stopped_at_byte(ran);
        let line = byte.and_then(|byte| line_at(self.assembled, byte));
        line_of(self.text, line)
    }

    /// That of main where its frame finds no room.
    fn stopped_at_byte(&self, ran: &Ran) -> Option<usize> {
        let Outcome::Stopped { stop, place, .. } = ran.outcome else {
            return None;
        };
        let program = parse(&self.assembled.sheet).ok()?;
        let instruction = instruction(&program, &self.lent(), stop, place);
        Some(instruction.unwrap_or(program.procedures[0].place))
    }
}

fn stop(ran: &Ran) -> String {
    numbered(ran.outcome.number())
}

fn joined(words: &[u32]) -> String {
    let words: Vec<String> = words.iter().map(u32::to_string).collect();
    words.join(" ")
}

fn steps_and_place(ran: &Ran) -> String {
    match ran.outcome {
        Outcome::Refused { place, .. } => format!("byte {place}"),
        Outcome::Stopped {
            steps,
            place: Place {
                procedure,
                instruction,
            },
            ..
        } => format!("steps {steps}, procedure {procedure}, instruction {instruction}"),
    }
}
