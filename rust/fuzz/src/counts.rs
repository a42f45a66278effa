//! What has come up, so that one sees that the inputs are not all trivial.

use std::collections::BTreeMap;
use std::fmt;

/// The kinds of round.
#[derive(Clone, Copy, Debug, PartialEq, Eq, PartialOrd, Ord)]
pub enum Kind {
    Text,
    Bytes,
    Program,
}

/// The tasks of the program.
#[derive(Clone, Copy, Debug, PartialEq, Eq, PartialOrd, Ord)]
pub enum Task {
    Check,
    Run,
    Asm,
    Dis,
}

#[derive(Clone, Copy, Debug, PartialEq, Eq, PartialOrd, Ord)]
pub enum Event {
    Round(Kind),
    /// A text, and whether it assembles.
    Text(bool),
    /// The number that both engines give, 0 for an accepted sheet.
    Check(u64),
    /// A sheet by its edition, and whether it is accepted.
    Edition(u8, bool),
    Run(u64),
    Watch(u64),
    /// A task of the program and its exit status.
    Program(Task, i32),
}

impl Event {
    /// All that a drive of some thousand rounds must have met.
    pub fn due() -> Vec<Event> {
        let mut all = Vec::from([Kind::Text, Kind::Bytes, Kind::Program].map(Event::Round));
        all.extend([false, true].map(Event::Text));
        all.extend((0..=9).chain([20, 21]).map(Event::Check));
        for accepted in [false, true] {
            all.extend([1, 2].map(|edition| Event::Edition(edition, accepted)));
        }
        all.extend((1..=17).chain([20, 21]).map(Event::Run));
        all.extend((1..=5).chain(10..=19).map(Event::Watch));
        for task in [Task::Check, Task::Run] {
            all.extend((0..=2).map(|status| Event::Program(task, status)));
        }
        all.extend([0, 2].map(|status| Event::Program(Task::Asm, status)));
        all.push(Event::Program(Task::Dis, 0));
        all
    }

    fn subject(self) -> String {
        match self {
            Event::Round(_) => String::from("rounds"),
            Event::Text(_) => String::from("texts"),
            Event::Check(_) => String::from("check, by number"),
            Event::Edition(..) => String::from("sheets, by edition"),
            Event::Run(_) => String::from("run, by number"),
            Event::Watch(_) => String::from("watch, by number"),
            Event::Program(task, _) => format!("wennathig {task:?}, by status").to_lowercase(),
        }
    }

    fn result(self) -> String {
        match self {
            Event::Round(kind) => format!("{kind:?}").to_lowercase(),
            Event::Text(true) => String::from("assembled"),
            Event::Text(false) => String::from("not assembled"),
            Event::Check(0) => String::from("accepted"),
            Event::Edition(edition, true) => format!("{edition} accepted"),
            Event::Edition(edition, false) => format!("{edition} refused"),
            Event::Check(number) | Event::Run(number) | Event::Watch(number) => number.to_string(),
            Event::Program(_, status) => status.to_string(),
        }
    }
}

#[derive(Default)]
pub struct Counts {
    counts: BTreeMap<Event, u64>,
}

impl Counts {
    pub fn add(&mut self, event: Event) {
        *self.counts.entry(event).or_default() += 1;
    }

    pub fn merge(&mut self, other: Counts) {
        for (event, count) in other.counts {
            *self.counts.entry(event).or_default() += count;
        }
    }

    /// What should have come up and has not.
    pub fn lacking(&self) -> Vec<Event> {
        let due = Event::due().into_iter();
        due.filter(|event| !self.counts.contains_key(event))
            .collect()
    }
}

/// A line for each subject, with its results.
impl fmt::Display for Counts {
    fn fmt(&self, out: &mut fmt::Formatter) -> fmt::Result {
        let mut last = String::new();
        for (event, count) in &self.counts {
            let (subject, result) = (event.subject(), event.result());
            let lead = match subject == last {
                true => String::from(","),
                false if last.is_empty() => format!("{subject:<26}"),
                false => format!("\n{subject:<26}"),
            };
            write!(out, "{lead} {result}: {count}")?;
            last = subject;
        }
        writeln!(out)
    }
}
