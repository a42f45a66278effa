//! Exhibits for the prover: short generated sheets with chains that the second
//! engine reads off their runs (document 02, S-4), which the prover is to
//! compute from its own definition. [`antt`] writes them down.

pub mod antt;

use crate::{agreed, agreed_watch};
use generator::runs::short::short;
use generator::runs::Run;
use generator::Random;
use reference::machine::accepted;
use reference::provenance::audit::Recorded;
use reference::provenance::{Link, Location, Origin};
use reference::{Operation, Program, Verdict};
use std::cmp::Reverse;

/// The most locations of an exhibit whose chains end somewhere.
const MOST_CHAINS: usize = 5;

/// A sheet, what it is run with, and some locations after so many steps.
pub struct Exhibit {
    /// What it is chosen for.
    pub shows: &'static str,
    pub program: Program,
    pub run: Run,
    pub after: u64,
    pub locations: Vec<Location>,
}

/// What a chain of an exhibit is to show.
struct Wanted {
    shows: &'static str,
    test: fn(&Recorded, &[Link]) -> bool,
    when: When,
}

/// When the chains of an exhibit are looked at.
enum When {
    /// As late as they show what is wanted before main returns.
    Running,
    /// The same, but the fuel ends there, and two more steps are asked for.
    FuelSpent,
    /// When main has returned, and one more step is asked for.
    Returned,
}

const fn wanted(shows: &'static str, test: fn(&Recorded, &[Link]) -> bool) -> Wanted {
    Wanted {
        shows,
        test,
        when: When::Running,
    }
}

const WANTED: [Wanted; 12] = [
    wanted("four links", |_, chain| chain.len() >= 4),
    wanted("an amplified formal", |_, chain| amplified(chain)),
    wanted("bound from an amplified formal", |_, chain| {
        amplified(chain) && chain.len() > 1
    }),
    wanted("a cell", |_, chain| {
        matches!(chain[0].at, Location::Cell { .. }) && chain.len() > 2
    }),
    wanted("fetched", |run, chain| {
        by(run, chain, |operation| {
            matches!(operation, Operation::Fetch { .. })
        })
    }),
    wanted(
        "fetched with fewer rights than the cell has",
        |run, chain| chain.iter().any(|link| fewer_than_the_cell(run, link)),
    ),
    wanted("got from a slot", |run, chain| {
        by(run, chain, |operation| {
            matches!(operation, Operation::GetSlot { .. })
        })
    }),
    wanted("an array passed", |run, chain| {
        let array = by(run, chain, |operation| {
            matches!(operation, Operation::NewArray { .. })
        });
        array
            && by(run, chain, |operation| {
                matches!(operation, Operation::Call { .. })
            })
    }),
    wanted("passed as ?R", |run, chain| generic(run, chain, 16)),
    wanted("given back as ?R", |run, chain| generic(run, chain, 17)),
    Wanted {
        shows: "fuel spent",
        test: |_, chain| chain.len() >= 3,
        when: When::FuelSpent,
    },
    Wanted {
        shows: "main has returned",
        test: |_, chain| chain.len() >= 3,
        when: When::Returned,
    },
];

fn operation(run: &Recorded, link: &Link) -> Operation {
    let procedure = &run.program.procedures[link.place.procedure];
    procedure.instructions[link.place.instruction].operation
}

fn by(run: &Recorded, chain: &[Link], test: fn(Operation) -> bool) -> bool {
    chain.iter().any(|link| test(operation(run, link)))
}

fn amplified(chain: &[Link]) -> bool {
    let last = chain.last().map(|link| &link.origin);
    matches!(last, Some(Origin::Amplified { .. }))
}

/// Whether a link by the code goes through a type in which ?R stands.
fn generic(run: &Recorded, chain: &[Link], code: u8) -> bool {
    let by_code = |link: &&Link| operation(run, link).code() == code;
    chain.iter().filter(by_code).any(|link| match &link.origin {
        Origin::BoundFrom { through, .. } => {
            let mut numbers = through.iter().map(|read| read.qualified);
            numbers.any(|number| run.program.uses_generic(number))
        }
        _ => false,
    })
}

fn fewer_than_the_cell(run: &Recorded, link: &Link) -> bool {
    match (&link.origin, operation(run, link)) {
        (Origin::BoundFrom { from, through }, Operation::Fetch { .. }) => {
            let cell = from.content(run.state(link.step - 1));
            let first = run.program.read(through[0]).rights;
            cell.is_some_and(|cell| cell.rights != first)
        }
        _ => false,
    }
}

impl Wanted {
    /// An exhibit of a run, if it shows what is wanted.
    fn exhibit(&self, run: Run) -> Option<Exhibit> {
        let program = accepted(&run.sheet, run.memory_words).ok()?;
        let recorded = Recorded::new(&program, run.resources()).ok()?;
        let steps = recorded.history.steps();
        let shows = |after: &u64| !self.shown(&recorded, *after).is_empty();
        let (fuel, seen, after) = match self.when {
            When::Running => {
                let seen = (1..steps).rev().find(shows)?;
                (run.fuel, seen, seen)
            }
            When::FuelSpent => {
                let seen = (1..steps).rev().find(shows)?;
                (seen, seen, seen + 2)
            }
            When::Returned => (run.fuel, Some(steps).filter(shows)?, steps + 1),
        };
        let locations = self.locations(&recorded, seen);
        let run = Run { fuel, ..run };
        Some(Exhibit {
            shows: self.shows,
            program,
            run,
            after,
            locations,
        })
    }

    /// The locations whose chains show it.
    fn shown(&self, run: &Recorded, after: u64) -> Vec<Location> {
        let mut all = Location::all(run.state(after));
        all.retain(|&location| {
            let chain = run.history.chain(after, location);
            chain.is_some_and(|chain| (self.test)(run, &chain))
        });
        all
    }

    /// One that shows it, those with the longest chains, and a variable of
    /// main that holds no object.
    fn locations(&self, run: &Recorded, after: u64) -> Vec<Location> {
        let length = |location: &Location| run.history.chain(after, *location).map(|c| c.len());
        let shown = self.shown(run, after)[0];
        let mut ending = Location::all(run.state(after));
        ending.retain(|location| *location != shown && length(location).is_some());
        ending.sort_by_key(|location| Reverse(length(location)));
        ending.truncate(MOST_CHAINS - 1);
        let mut main = Location::all(run.state(0)).into_iter();
        let nowhere = main.find(|location| length(location).is_none());
        let first = [shown].into_iter();
        first.chain(ending).chain(nowhere).collect()
    }
}

/// All exhibits, each of the next seed that shows what is wanted; both engines
/// say the same of its sheet and its run.
pub fn all() -> Vec<Exhibit> {
    let mut seeds = 0..;
    let exhibits = WANTED.iter().map(|wanted| {
        let exhibit = seeds.find_map(|seed| wanted.exhibit(short(&mut Random::new(seed))));
        let exhibit = exhibit.expect("some seed shows it");
        assert_eq!(agreed(&exhibit.run.sheet), Ok(Verdict::Accepted));
        agreed_watch(&exhibit.run).unwrap_or_else(|fault| panic!("{fault}"));
        exhibit
    });
    exhibits.collect()
}
