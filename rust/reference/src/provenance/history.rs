//! The steps of a run that were made, and the chains read backwards in them.

use super::change::Change;
use super::{Link, Location, Origin};
use crate::machine::watched::Machine;
use crate::machine::{Place, Stop};
use std::collections::HashMap;
use std::rc::Rc;

/// What a step did, and at which instruction.
#[derive(Clone, Debug, PartialEq, Eq, Hash)]
struct Step {
    place: Place,
    change: Change,
}

/// The steps made. Loops do the same over and over: a step is kept as the
/// number of the first that did what it does, and takes four bytes. One that
/// is like no other, as in a deep recursion, takes fewer than 200.
#[derive(Clone, Debug, Default)]
pub struct History {
    steps: Vec<u32>,
    different: Vec<Rc<Step>>,
    numbers: HashMap<Rc<Step>, u32>,
}

impl History {
    pub fn new() -> Self {
        History::default()
    }

    /// Lets the machine make a step and keeps what it does. "A step that
    /// stops changes nothing", and is not kept; the return that gives 11 is.
    pub fn step(&mut self, machine: &mut Machine) -> Result<(), Stop> {
        let due = machine.due();
        let change = due.and_then(|(_, operation)| Change::of(machine, operation));
        let before = machine.state().steps;
        let result = machine.step();
        if machine.state().steps > before {
            let (place, _) = due.expect("an instruction was due");
            let change = change.expect("a step that is made finds all that it reads");
            self.keep(Step { place, change });
        }
        result
    }

    /// Steps until the stop.
    pub fn finish(&mut self, machine: &mut Machine) -> Stop {
        loop {
            if let Err(stop) = self.step(machine) {
                return stop;
            }
        }
    }

    fn keep(&mut self, step: Step) {
        let number = match self.numbers.get(&step) {
            Some(&number) => number,
            None => {
                let (number, step) = (self.different.len() as u32, Rc::new(step));
                self.different.push(Rc::clone(&step));
                self.numbers.insert(step, number);
                number
            }
        };
        self.steps.push(number);
    }

    /// How many steps were made.
    pub fn steps(&self) -> u64 {
        self.steps.len() as u64
    }

    /// The instruction of a step, counted from 1; None if it was not made.
    pub fn place(&self, step: u64) -> Option<Place> {
        self.made(step).map(|step| step.place)
    }

    /// What a step did to a location: nothing, if it was not made.
    pub fn origin(&self, step: u64, location: Location) -> Origin {
        let step = self.made(step);
        step.map_or(Origin::Stays, |step| step.change.origin(location))
    }

    fn made(&self, step: u64) -> Option<&Step> {
        let index = usize::try_from(step.checked_sub(1)?).ok()?;
        let number = *self.steps.get(index)?;
        Some(&self.different[number as usize])
    }

    /// How a location came to what it holds after so many steps, or at the
    /// stop if that comes sooner: the latest link first, and last the making
    /// of the object or an amplified formal. None if that is nowhere, as for
    /// all that holds no object.
    pub fn chain(&self, after: u64, location: Location) -> Option<Vec<Link>> {
        let mut links = Vec::new();
        let mut at = location;
        for number in (1..=after.min(self.steps())).rev() {
            let step = self.made(number)?;
            let origin = step.change.origin(at);
            let from = match origin {
                Origin::Stays => continue,
                Origin::GivenUp => return None,
                Origin::BoundFrom { from, .. } => Some(from),
                Origin::Made | Origin::Amplified { .. } => None,
            };
            links.push(Link {
                step: number,
                place: step.place,
                at,
                origin,
            });
            match from {
                Some(from) => at = from,
                None => return Some(links),
            }
        }
        None
    }
}
