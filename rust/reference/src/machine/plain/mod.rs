//! The plain machine: no tests of kind and right, no rights.

mod state;
mod step;

use super::outcome::{Outcome, Place, Stop};
use super::{Need, Resources};
use crate::program::Program;
pub use state::{Cell, Frame, Object, State};

/// How a step can fail to be made.
#[derive(Clone, Copy, Debug, PartialEq, Eq)]
pub enum End {
    Stop(Stop),
    /// An integer where an object is due or the reverse, an array where a
    /// record is due or the reverse, no such slot, or no value to keep.
    Stuck,
}

/// The plain machine between two steps.
pub struct Machine<'a> {
    program: &'a Program,
    resources: Resources<'a>,
    state: State,
    /// The instruction of the last step made or tried.
    place: Place,
    most_units: usize,
}

impl<'a> Machine<'a> {
    /// Opens main's frame, or says that the memory is full.
    pub fn start(program: &'a Program, resources: Resources<'a>) -> Result<Self, Stop> {
        let mut machine = Machine {
            program,
            resources,
            state: State::default(),
            place: Place::default(),
            most_units: 0,
        };
        let units = machine.frame_units(0);
        if units > resources.memory_words {
            return Err(Stop::MemoryFull);
        }
        machine.open_frame(0, &[], None);
        Ok(machine)
    }

    pub fn state(&self) -> &State {
        &self.state
    }

    pub fn place(&self) -> Place {
        self.place
    }

    pub fn need(&self) -> Need {
        Need {
            input: self.state.taken,
            steps: self.state.steps,
            memory_words: self.most_units,
            output: self.state.output.len(),
        }
    }

    /// Makes one step. A step that stops changes nothing and is not counted,
    /// but for the return that gives 11.
    pub fn step(&mut self) -> Result<(), End> {
        let Some(frame) = self.state.frames.last() else {
            return Err(End::Stop(Stop::Done));
        };
        self.place = Place {
            procedure: frame.procedure,
            instruction: frame.next,
        };
        if self.state.steps == self.resources.fuel {
            return Err(End::Stop(Stop::FuelSpent));
        }
        let instructions = &self.program.procedures[frame.procedure].instructions;
        self.perform(instructions[frame.next].operation)?;
        self.state.steps += 1;
        if self.state.frames.is_empty() {
            return Err(End::Stop(Stop::Done));
        }
        Ok(())
    }

    /// Makes so many steps, or those before the end if it comes sooner.
    pub fn advance(&mut self, steps: u64) -> Result<(), End> {
        for _ in 0..steps {
            self.step()?;
        }
        Ok(())
    }

    /// Steps until the end.
    pub fn finish(&mut self) -> End {
        loop {
            if let Err(end) = self.step() {
                return end;
            }
        }
    }

    pub fn outcome(&self, stop: Stop) -> Outcome {
        Outcome::Stopped {
            stop,
            steps: self.state.steps,
            words: self.state.output.len(),
            place: self.place,
        }
    }
}

/// Runs a program from before main's frame opens to the stop.
pub fn run(program: &Program, resources: Resources, output: &mut [u32]) -> Outcome {
    let mut machine = match Machine::start(program, resources) {
        Ok(machine) => machine,
        Err(stop) => return Outcome::at_start(stop),
    };
    let stop = match machine.finish() {
        End::Stop(stop) => stop,
        End::Stuck => panic!("stuck at {:?}", machine.place),
    };
    let words = &machine.state.output;
    output[..words.len()].copy_from_slice(words);
    machine.outcome(stop)
}
