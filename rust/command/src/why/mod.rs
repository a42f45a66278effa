//! Where a right came from: the chain of a location, as the second engine
//! reads it off the steps of a run on the watched machine.

mod find;
mod json;
mod links;
mod locations;
mod question;
mod told;
mod types;

use crate::engine::{agreed, disagree, Lent};
use crate::options::Why;
use crate::source::Source;
use crate::trace::columns::Columns;
use crate::trace::value::Teller;
use crate::trace::{before_main, NO_SHEET};
use crate::Failure;
use find::{Finder, Found};
pub use json::object;
use links::Links;
use locations::Locations;
pub use question::Question;
use reference::machine::watched::{Machine, State};
use reference::machine::Resources;
use reference::provenance::History;
use reference::{parse, Outcome, Stop};
use std::ffi::OsStr;
use text::Sheet;
use told::Link;
pub use told::Told;

/// The most steps that are looked back on: some seconds, and their memory.
const MOST_STEPS: u64 = 10_000_000;

/// A run on the proved watched machine, of which a question is asked.
pub struct Asked<'a> {
    pub path: &'a OsStr,
    pub source: &'a Source,
    pub lent: &'a Lent<'a>,
    pub why: &'a Why,
    pub outcome: Outcome,
    /// As the run left it.
    pub report: &'a [u32],
}

impl Asked<'_> {
    /// Makes the steps again, tells where the right came from, and sees that
    /// the run ends as the proved machine's did. None where nothing was run.
    pub fn told(&self) -> Result<Option<Told>, Failure> {
        let Outcome::Stopped { stop, steps, .. } = self.outcome else {
            return Ok(None);
        };
        let after = self.after(stop, steps)?;
        let lent = self.lent;
        let program = parse(lent.sheet).map_err(|refusal| disagree(&self.outcome, &refusal))?;
        let sheet = Sheet::read(lent.sheet).ok_or_else(|| disagree(&self.outcome, &NO_SHEET))?;
        let teller = Teller {
            program: &program,
            sheet: &sheet,
            names: &self.source.names,
        };
        let resources = Resources {
            input: lent.reads,
            fuel: lent.fuel,
            memory_words: lent.memory_words,
            output_words: self.report.len(),
        };
        let mut machine = match Machine::start(&program, resources) {
            Ok(machine) => machine,
            Err(stop) => {
                agreed(self.outcome, before_main(stop))?;
                return Err(self.unanswered(after, "main's frame has no room"));
            }
        };
        let mut history = History::new();
        while history.steps() < after && history.step(&mut machine).is_ok() {}
        let told = self.chain(teller, machine.state(), &history, after);
        let stop = machine.finish();
        let put = &machine.state().output[..];
        let left = self.report.get(..put.len()).unwrap_or(self.report);
        agreed((self.outcome, left), (machine.outcome(stop), put))?;
        told.map(Some)
    }

    /// After how many steps it is asked: at the stop, but not after the return
    /// that gives 11, since no variable is left then.
    fn after(&self, stop: Stop, steps: u64) -> Result<u64, Failure> {
        let last = match stop {
            Stop::Done => steps - 1,
            _ => steps,
        };
        let after = self.why.after.unwrap_or(last);
        match after {
            _ if after > steps => Err(self.unanswered(after, &format!("the run has {steps}"))),
            _ if after > MOST_STEPS => {
                let most = format!("no more than {MOST_STEPS} steps are looked back on");
                Err(self.unanswered(after, &most))
            }
            _ => Ok(after),
        }
    }

    /// What the place holds after the steps of the history, and its chain.
    fn chain(
        &self,
        teller: Teller,
        state: &State,
        history: &History,
        after: u64,
    ) -> Result<Told, Failure> {
        let finder = Finder { teller, state };
        let found = finder.find(&self.why.question);
        let found = found.map_err(|message| self.unanswered(after, &message))?;
        let chain = history.chain(after, found.location);
        let chain = chain.ok_or_else(|| {
            let said = &self.why.question.said;
            Failure::Failed(format!("the second engine finds no chain of {said}"))
        })?;
        let locations = Locations {
            teller,
            objects: &state.objects,
        };
        let links = Links {
            source: self.source,
            locations,
            history,
            state,
            right: found.right,
        };
        let links = chain.iter().map(|link| links.told(link)).collect();
        Ok(self.in_words(locations, state, after, &found, links))
    }

    fn in_words(
        &self,
        locations: Locations,
        state: &State,
        after: u64,
        found: &Found,
        links: Vec<Link>,
    ) -> Told {
        let teller = locations.teller;
        let question = &self.why.question;
        let lines: Vec<&str> = self.source.text.lines().collect();
        let [_, steps, ..] = self.outcome.reply();
        Told {
            after,
            way: (!question.parts.is_empty()).then(|| String::from(question.place())),
            location: locations.in_frames(&state.frames, found.location),
            object: found.object,
            carries: teller.notation().said(&found.carried),
            right: question.right.clone(),
            links,
            columns: Columns::of(self.source, &lines, teller.program, steps),
        }
    }

    fn unanswered(&self, after: u64, why: &str) -> Failure {
        let said = &self.why.question.said;
        let steps = if after == 1 { "step" } else { "steps" };
        let message = format!("has no answer to --why {said} after {after} {steps}: {why}");
        Failure::of_file(self.path, message)
    }
}
