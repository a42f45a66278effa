//! The head of a text: what is expected of its sheet, and what its run is
//! lent.

use super::lines::{self, decimal, Line};
use crate::options::MAX_REPORT;
use crate::words;
use std::fmt;
use std::ops::RangeInclusive;
use text::Error;

/// What is said of a text as a whole.
#[derive(Clone, Copy, Debug, PartialEq, Eq)]
pub enum Verdict {
    Accepted,
    Refused { number: u64, place: usize },
    Error { line: usize, column: usize },
}

impl fmt::Display for Verdict {
    fn fmt(&self, out: &mut fmt::Formatter) -> fmt::Result {
        match self {
            Verdict::Accepted => write!(out, "accepted 0 0"),
            Verdict::Refused { number, place } => write!(out, "refused {number} {place}"),
            Verdict::Error { line, column } => write!(out, "error {line}:{column}"),
        }
    }
}

#[derive(Debug)]
pub struct Head {
    pub verdict: Verdict,
    /// The line refused or in error.
    pub at: Option<String>,
    pub run: Option<Run>,
}

/// A run, of an accepted sheet on both machines, of a refused one on the
/// watched machine.
#[derive(Debug)]
pub struct Run {
    /// As [`numbered`] has it.
    pub stop: String,
    /// The line stopped at.
    pub at: Option<String>,
    pub put: Vec<u32>,
    pub reads: Vec<u32>,
    pub fuel: u64,
    pub memory: u64,
    pub report: u64,
}

/// The verdict, and the stop if there is a run.
impl fmt::Display for Head {
    fn fmt(&self, out: &mut fmt::Formatter) -> fmt::Result {
        write!(out, "{}", self.verdict)?;
        match (&self.run, self.verdict) {
            (None, _) => Ok(()),
            (Some(run), Verdict::Accepted) => write!(out, ", {}", run.stop),
            (Some(run), _) => write!(out, ", watched {}", run.stop),
        }
    }
}

/// A number with its word, for example `11 done`.
pub fn numbered(number: u64) -> String {
    let word = words::of(number).map_or("", |(word, _)| word);
    format!("{number} {word}")
}

impl Head {
    pub fn read(text: &str) -> Result<Head, Error> {
        let mut given = Given(lines::read(text)?);
        let verdict = match given.take("expect") {
            Some(line) => verdict(&line)?,
            None => return Err(lines::missing()),
        };
        // Big bench, 10, refuses the memory and not the sheet.
        let run = match verdict {
            Verdict::Accepted => given.run("stop", 10..=17, "at")?,
            Verdict::Refused { number: 6.., .. } => given.run("watch", 10..=19, "watch-at")?,
            Verdict::Refused { .. } | Verdict::Error { .. } => None,
        };
        let at = match verdict {
            Verdict::Accepted => None,
            Verdict::Refused { .. } | Verdict::Error { .. } => given.text("at")?,
        };
        given.nothing_left()?;
        Ok(Head { verdict, at, run })
    }
}

fn verdict(line: &Line) -> Result<Verdict, Error> {
    let words: Vec<&str> = line.value.split(' ').collect();
    let verdict = match words[..] {
        ["accepted", "0", "0"] => Some(Verdict::Accepted),
        ["refused", number, place] => decimal(number)
            .filter(|number| matches!(number, 1..=9 | 20 | 21))
            .zip(decimal(place))
            .map(|(number, place)| Verdict::Refused { number, place }),
        ["error", place] => place
            .split_once(':')
            .and_then(|(line, column)| decimal(line).zip(decimal(column)))
            .map(|(line, column)| Verdict::Error { line, column }),
        _ => None,
    };
    let forms = "`accepted 0 0`, `refused NUMBER PLACE` or `error LINE:COLUMN`";
    verdict.ok_or_else(|| line.malformed(forms))
}

/// The lines that are not understood yet, taken away one by one.
struct Given<'a>(Vec<Line<'a>>);

impl<'a> Given<'a> {
    fn take(&mut self, key: &str) -> Option<Line<'a>> {
        let found = self.0.iter().position(|line| line.key == key)?;
        Some(self.0.remove(found))
    }

    /// The run that ends as the key says, if it is there.
    fn run(
        &mut self,
        key: &str,
        stops: RangeInclusive<u64>,
        at: &str,
    ) -> Result<Option<Run>, Error> {
        let Some(line) = self.take(key) else {
            return Ok(None);
        };
        let stop = stops.map(numbered).find(|stop| stop == line.value);
        Ok(Some(Run {
            stop: stop
                .ok_or_else(|| line.malformed("a stop of this machine, such as `11 done`"))?,
            at: self.text(at)?,
            put: self.words("put")?,
            reads: self.words("reads")?,
            fuel: self.number("fuel", 1_000_000, u64::MAX)?,
            memory: self.number("memory", 65_536, u64::MAX)?,
            report: self.number("report", 65_536, MAX_REPORT)?,
        }))
    }

    fn text(&mut self, key: &str) -> Result<Option<String>, Error> {
        match self.take(key) {
            Some(line) if line.value.is_empty() => Err(line.malformed("a line of the text")),
            line => Ok(line.map(|line| String::from(line.value))),
        }
    }

    fn words(&mut self, key: &str) -> Result<Vec<u32>, Error> {
        let Some(line) = self.take(key) else {
            return Ok(Vec::new());
        };
        let words = line.value.split_whitespace().map(decimal);
        let words: Option<Vec<u32>> = words.collect();
        words.ok_or_else(|| line.malformed("numbers from 0 to 4294967295"))
    }

    fn number(&mut self, key: &str, default: u64, most: u64) -> Result<u64, Error> {
        let Some(line) = self.take(key) else {
            return Ok(default);
        };
        let number = decimal(line.value).filter(|&number| number <= most);
        number.ok_or_else(|| line.malformed(&format!("a number from 0 to {most}")))
    }

    /// A line that nothing is held against must not look as if it were met.
    fn nothing_left(&self) -> Result<(), Error> {
        match self.0.first() {
            Some(line) => Err(line.useless()),
            None => Ok(()),
        }
    }
}
