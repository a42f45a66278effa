//! The links of a chain, told in the words of a text.

use super::locations::Locations;
use super::told::{Amplified, Declared, How, Link};
use super::types;
use crate::located::Located;
use crate::source::Source;
use crate::trace::machine::operation;
use reference::generic::Read;
use reference::machine::watched::State;
use reference::provenance::{self, History, Location, Origin};
use reference::{Operation, Place};

pub struct Links<'a> {
    pub source: &'a Source,
    pub locations: Locations<'a>,
    pub history: &'a History,
    /// The state after the steps of the history.
    pub state: &'a State,
    /// The right whose chain it is.
    pub right: usize,
}

impl Links<'_> {
    pub fn told(&self, link: &provenance::Link) -> Link {
        let &provenance::Link {
            step, place, at, ..
        } = link;
        let teller = self.locations.teller;
        let instruction =
            &teller.program.procedures[place.procedure].instructions[place.instruction];
        let how = match &link.origin {
            Origin::BoundFrom { from, through } => How::Bound {
                from: self.locations.of(place.procedure, *from),
                through: self.through(link, through),
            },
            Origin::Amplified { procedure, formal } => {
                How::Amplified(self.amplified(place, *procedure, *formal))
            }
            // A link has no other origin.
            Origin::Made | Origin::Stays | Origin::GivenUp => How::Made,
        };
        Link {
            step,
            place,
            at: Located::new(self.source, instruction.place, &[]),
            location: self.locations.of(self.running(step), at),
            how,
        }
    }

    /// The procedure of the frame that runs after a step: a variable that the
    /// step fills is one of that frame.
    fn running(&self, step: u64) -> usize {
        let next = self.history.place(step + 1).map(|place| place.procedure);
        let last = self.state.frames.last().map(|frame| frame.procedure);
        next.or(last).unwrap_or(0)
    }

    fn through(&self, link: &provenance::Link, through: &[Read]) -> Vec<Declared> {
        let teller = self.locations.teller;
        let declared = through.iter().zip(self.destinations(link));
        let declared = declared.map(|(&read, (role, whose))| Declared {
            is: teller.notation().said(&types::read(teller.sheet, read)),
            role,
            whose: match teller.program.uses_generic(read.qualified) {
                true => format!("{whose}, by ?R"),
                false => whose,
            },
        });
        declared.collect()
    }

    /// What has the declared types that a step binds a value to.
    fn destinations(&self, link: &provenance::Link) -> Vec<(&'static str, String)> {
        let teller = self.locations.teller;
        let (program, names) = (teller.program, teller.names);
        let own = link.place.procedure;
        let inner = |variable| ("inner", names.variable(own, variable));
        let element = |of: String| ("element", format!("the element of {of}"));
        match (operation(program, link.place), link.at) {
            (Operation::Bind { to, .. } | Operation::GetSlot { to, .. }, _) => vec![inner(to)],
            (Operation::Fetch { to, array, .. }, _) => {
                vec![element(names.variable(own, array)), inner(to)]
            }
            (Operation::Store { .. }, Location::Cell { object, .. }) => {
                vec![element(format!("object {object}"))]
            }
            (Operation::SetSlot { slot, .. }, _) => {
                let owner = program.procedures[own].owner.unwrap_or(0);
                let (slot, of) = (names.slot(owner, slot), names.declared(owner));
                vec![("slot", format!("the slot {slot} of {of}"))]
            }
            (Operation::Call { procedure, .. }, Location::Variable { index, .. }) => {
                let (called, formal) =
                    (names.procedure(procedure), names.variable(procedure, index));
                let need = ("need", format!("what {called} needs as {formal}"));
                vec![need, ("inner", format!("{formal} in {called}"))]
            }
            (Operation::Return { .. }, Location::Variable { index, .. }) => {
                let caller = self.running(link.step);
                let (kept, own) = (names.variable(caller, index), names.procedure(own));
                let caller = names.procedure(caller);
                let result = ("result", format!("the result of {own}"));
                vec![result, ("inner", format!("{kept} in {caller}"))]
            }
            _ => Vec::new(),
        }
    }

    fn amplified(&self, place: Place, procedure: usize, formal: usize) -> Amplified {
        let teller = self.locations.teller;
        let (names, notation) = (teller.names, teller.notation());
        let callee = &teller.sheet.procedures[procedure];
        let variable = &callee.variables[formal];
        let read = |qualified| {
            teller
                .sheet
                .read_type(qualified, &teller.sheet.own_name(procedure))
        };
        let need = read(variable.need.unwrap_or(variable.inner));
        let asked = match need.rights() >> self.right & 1 {
            1 => Some(self.right),
            _ => (0..u32::BITS as usize).find(|right| need.rights() >> right & 1 == 1),
        };
        let first = match operation(teller.program, place) {
            Operation::Call { first_actual, .. } => first_actual.unwrap_or(0),
            _ => 0,
        };
        Amplified {
            procedure: names.procedure(procedure),
            formal: names.variable(procedure, formal),
            module: names.declared(callee.owner.unwrap_or(0)),
            inner: notation.said(&read(variable.inner)),
            need: notation.said(&need),
            actual: self.locations.variable(place.procedure, first + formal),
            asked: asked.map(|right| notation.right(&need, right)),
        }
    }
}
