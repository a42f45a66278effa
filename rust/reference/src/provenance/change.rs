//! What a step does to every location, told from the state before it.

use super::{Location, Origin};
use crate::generic::{Form, Read, Reading};
use crate::machine::watched::{Machine, Value};
use crate::program::{Operation, Variable};

/// What one step does to all locations.
#[derive(Clone, Debug, PartialEq, Eq, Hash)]
pub enum Change {
    /// All stay as they were.
    Nothing,
    /// One gets this, and all others stay.
    Into(Location, Origin),
    /// A frame is opened on so many others: its formals get these, its other
    /// variables are blank.
    Opened { depth: usize, formals: Vec<Origin> },
    /// The frame on so many others is given back; a variable of its caller
    /// may get the result.
    Closed {
        depth: usize,
        kept: Option<(Location, Origin)>,
    },
}

impl Change {
    /// What the instruction does in this state once all of its tests hold;
    /// None where a value that it reads is not there.
    pub fn of(machine: &Machine, operation: Operation) -> Option<Change> {
        let before = Before {
            machine,
            depth: machine.state().frames.len() - 1,
        };
        before.change(operation)
    }

    /// What is done to one location.
    pub fn origin(&self, location: Location) -> Origin {
        match self {
            Change::Nothing => Origin::Stays,
            Change::Into(to, origin) if *to == location => origin.clone(),
            Change::Into(..) => Origin::Stays,
            Change::Opened { depth, formals } => match location.index_at(*depth) {
                Some(index) => formals.get(index).cloned().unwrap_or(Origin::GivenUp),
                None => Origin::Stays,
            },
            Change::Closed { depth, kept } => match kept {
                Some((to, origin)) if *to == location => origin.clone(),
                _ if location.index_at(*depth).is_some() => Origin::GivenUp,
                _ => Origin::Stays,
            },
        }
    }
}

impl Location {
    /// The number of a variable of the frame that stands on so many others.
    fn index_at(&self, frame: usize) -> Option<usize> {
        match *self {
            Location::Variable { depth, index } if depth == frame => Some(index),
            _ => None,
        }
    }
}

fn bound(from: Location, through: &[Read]) -> Origin {
    let through = through.to_vec();
    Origin::BoundFrom { from, through }
}

/// The machine before a step, with so many frames below the one that works.
struct Before<'a> {
    machine: &'a Machine<'a>,
    depth: usize,
}

impl Before<'_> {
    /// Document 01's codes, 1 to 17.
    #[rustfmt::skip]
    fn change(&self, operation: Operation) -> Option<Change> {
        Some(match operation {
            Operation::Set { to, .. } => self.given_up(to),
            Operation::Add { to, .. } => self.given_up(to),
            Operation::Subtract { to, .. } => self.given_up(to),
            Operation::Less { to, .. } => self.given_up(to),
            Operation::JumpIfZero { .. } => Change::Nothing,
            Operation::Bind { to, from } => self.filled(to, self.here(from), &[self.typed(to)]),
            Operation::Take { to } => self.given_up(to),
            Operation::Put { .. } => Change::Nothing,
            Operation::NewArray { to, .. } => self.made(to),
            Operation::Fetch { to, array, index } => self.filled(to, self.cell(array, index)?, &[self.element(array)?, self.typed(to)]),
            Operation::Store { array, index, from } => self.written(self.cell(array, index)?, from, self.own_element(array)?),
            Operation::Size { to, .. } => self.given_up(to),
            Operation::NewRecord { to } => self.made(to),
            Operation::GetSlot { to, record, slot } => self.filled(to, self.slot(record, slot)?, &[self.typed(to)]),
            Operation::SetSlot { record, slot, from } => self.written(self.slot(record, slot)?, from, self.declared_slot(slot)),
            Operation::Call { procedure, first_actual, .. } => self.opened(procedure, first_actual)?,
            Operation::Return { value } => self.closed(value),
        })
    }

    /// A variable of the frame that works.
    fn here(&self, index: usize) -> Location {
        let depth = self.depth;
        Location::Variable { depth, index }
    }

    fn given_up(&self, to: usize) -> Change {
        Change::Into(self.here(to), Origin::GivenUp)
    }

    fn made(&self, to: usize) -> Change {
        Change::Into(self.here(to), Origin::Made)
    }

    /// A variable gets what a location holds.
    fn filled(&self, to: usize, from: Location, through: &[Read]) -> Change {
        Change::Into(self.here(to), bound(from, through))
    }

    /// A cell gets what a variable holds.
    fn written(&self, cell: Location, from: usize, declared: Read) -> Change {
        Change::Into(cell, bound(self.here(from), &[declared]))
    }

    /// The declared type of a variable, ?R read with the frame's set.
    fn typed(&self, number: usize) -> Read {
        self.machine.inner(number)
    }

    fn object(&self, number: usize) -> Option<usize> {
        match self.machine.variable(number)?.value {
            Value::Object(object) => Some(object),
            Value::Integer(_) => None,
        }
    }

    fn cell(&self, array: usize, index: usize) -> Option<Location> {
        let object = self.object(array)?;
        let index = self.machine.integer(index)? as usize;
        Some(Location::Cell { object, index })
    }

    fn slot(&self, record: usize, index: usize) -> Option<Location> {
        let object = self.object(record)?;
        Some(Location::Cell { object, index })
    }

    /// The element of an array variable's type: "a fetched value is bound to
    /// the element of the tray variable's QT".
    fn element(&self, array: usize) -> Option<Read> {
        match self.machine.program().read(self.typed(array)).form {
            Form::Array { element } => Some(element),
            _ => None,
        }
    }

    /// The element of the array itself: "cells of a tray are declared by its
    /// element".
    fn own_element(&self, array: usize) -> Option<Read> {
        let (element, _) = self.machine.array(array)?;
        Some(element)
    }

    fn declared_slot(&self, slot: usize) -> Read {
        Read::unread(self.machine.owner_slots()[slot])
    }

    /// The formals of the procedure called, whose needs and inner types are
    /// read with what the call settles.
    fn opened(&self, procedure: usize, first_actual: Option<usize>) -> Option<Change> {
        let reading = self.machine.settled(procedure, first_actual).reading;
        let count = self.machine.program().procedures[procedure].formals;
        let formals = (0..count)
            .map(|formal| self.formal(procedure, formal, first_actual? + formal, reading))
            .collect::<Option<_>>()?;
        let depth = self.depth + 1;
        Some(Change::Opened { depth, formals })
    }

    /// "A call binds each actual to need; then, if its type and inner's base
    /// are the callee's owner, it carries inner's rights, else it is bound to
    /// inner."
    fn formal(
        &self,
        procedure: usize,
        formal: usize,
        actual: usize,
        reading: Reading,
    ) -> Option<Origin> {
        let callee = &self.machine.program().procedures[procedure];
        let Variable { inner, need, .. } = callee.variables[formal];
        let value = self.machine.variable(actual)?.value;
        let form = self.machine.state().form(value);
        if self.machine.amplified(form, inner, callee.owner) {
            return Some(Origin::Amplified { procedure, formal });
        }
        let through = [need?, inner].map(|qualified| Read { qualified, reading });
        Some(bound(self.here(actual), &through))
    }

    /// "A return binds to the result QT, then to a"; its frame is given back.
    fn closed(&self, value: Option<usize>) -> Change {
        let depth = self.depth;
        let kept = value
            .zip(self.machine.kept())
            .map(|(value, (caller, index))| {
                let depth = depth - 1;
                let result = self.machine.procedure().result.map(|qualified| Read {
                    qualified,
                    reading: self.machine.reading(),
                });
                let own = self.machine.declared(caller, index);
                let through: Vec<Read> = result.into_iter().chain([own]).collect();
                let to = Location::Variable { depth, index };
                (to, bound(self.here(value), &through))
            });
        Change::Closed { depth, kept }
    }
}
