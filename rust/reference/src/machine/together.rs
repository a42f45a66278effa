//! Both machines on an accepted program, step by step: what document 01 calls
//! condition 3.
//!
//! (a) the plain machine is never stuck; (b) both end alike; (c) the watched
//! machine never stops with 18 or 19; (d) after every step each filled
//! variable, cell and slot holds a value of its declared type with exactly
//! its declared rights. Besides, after every step the two states are equal
//! but for what only the watched machine keeps, and open is carried only by
//! variables of frames whose procedure is owned by that type.

use super::outcome::Stop;
use super::{plain, watched, Ended, Resources};
use crate::generic::{Form, Read};
use crate::program::{Program, Rights};

/// Runs both machines and gives their common end, or says what went wrong.
pub fn run(program: &Program, resources: Resources) -> Result<Ended, String> {
    let plain = plain::Machine::start(program, resources);
    let watched = watched::Machine::start(program, resources);
    let (mut plain, mut watched) = match (plain, watched) {
        (Ok(plain), Ok(watched)) => (plain, watched),
        (Err(plain), Err(watched)) if plain == watched => return Ok(Ended::at_start(plain)),
        (plain, watched) => {
            let (plain, watched) = (plain.err(), watched.err());
            return Err(format!("started with {plain:?} and {watched:?}"));
        }
    };
    loop {
        audit(program, watched.state())?;
        same_state(plain.state(), watched.state())?;
        match (plain.step(), watched.step()) {
            (Ok(()), Ok(())) => {}
            (Err(plain::End::Stop(stop)), Err(other)) if stop == other => {
                return ended(program, &plain, &watched, stop)
            }
            (left, right) => {
                let places = (plain.place(), watched.place());
                return Err(format!("plain {left:?}, watched {right:?} at {places:?}"));
            }
        }
    }
}

fn ended(
    program: &Program,
    plain: &plain::Machine,
    watched: &watched::Machine,
    stop: Stop,
) -> Result<Ended, String> {
    if stop >= Stop::WrongKind {
        return Err(format!("both stop with {stop:?}"));
    }
    audit(program, watched.state())?;
    same_state(plain.state(), watched.state())?;
    let ended = watched.ended(stop);
    let found = (plain.outcome(stop), plain.need());
    if found != (ended.outcome, ended.need) {
        return Err(format!("plain {found:?}, watched {ended:?}"));
    }
    Ok(ended)
}

/// Looks at every variable, cell and slot of the watched machine.
pub fn audit(program: &Program, state: &watched::State) -> Result<(), String> {
    for frame in &state.frames {
        let procedure = &program.procedures[frame.procedure];
        let reading = procedure.instance(frame.set);
        for (cell, variable) in frame.variables.iter().zip(&procedure.variables) {
            let qualified = variable.inner;
            let open_to = audit_cell(program, state, *cell, Read { qualified, reading })?;
            if open_to.is_some() && open_to != procedure.owner {
                return Err(format!("open outside its module in {frame:?}"));
            }
        }
    }
    for object in &state.objects {
        for (index, cell) in object.cells.iter().enumerate() {
            let declared = match object.form() {
                Form::Array { element } => element,
                Form::Record { of } => Read::unread(program.types[of].slots[index]),
                _ => return Err(format!("an integer is no object: {object:?}")),
            };
            if audit_cell(program, state, *cell, declared)?.is_some() {
                return Err(format!("open in {object:?}"));
            }
        }
    }
    Ok(())
}

/// A filled cell holds a value of its declared type with exactly its declared
/// rights; gives the declared type to which it carries open, if it does.
fn audit_cell(
    program: &Program,
    state: &watched::State,
    cell: watched::Cell,
    declared: Read,
) -> Result<Option<usize>, String> {
    let Some(held) = cell else {
        return Ok(None);
    };
    let form = state.form(held.value);
    let declared = program.read(declared);
    if !program.alike(form, declared) || held.rights != declared.rights {
        return Err(format!("{held:?} of {form:?} declared {declared:?}"));
    }
    match form {
        Form::Record { of } if held.rights.contains(Rights::OPEN) => Ok(Some(of)),
        _ => Ok(None),
    }
}

/// The states agree in all that both machines keep.
fn same_state(plain: &plain::State, watched: &watched::State) -> Result<(), String> {
    let mut frames = plain.frames.iter().zip(&watched.frames);
    let mut objects = plain.objects.iter().zip(&watched.objects);
    let same = plain.steps == watched.steps
        && plain.units == watched.units()
        && plain.taken == watched.taken
        && plain.output == watched.output
        && plain.frames.len() == watched.frames.len()
        && plain.objects.len() == watched.objects.len()
        && frames.all(|(plain, watched)| {
            (plain.procedure, plain.next) == (watched.procedure, watched.next)
                && same_cells(&plain.variables, &watched.variables)
        })
        && objects.all(|(plain, watched)| {
            let is_array = matches!(watched.form(), Form::Array { .. });
            matches!(plain, plain::Object::Array(_)) == is_array
                && same_cells(plain.cells(), &watched.cells)
        });
    match same {
        true => Ok(()),
        false => Err(format!("plain {plain:?}, watched {watched:?}")),
    }
}

fn same_cells(plain: &[plain::Cell], watched: &[watched::Cell]) -> bool {
    let same = |(plain, watched): (&plain::Cell, &watched::Cell)| {
        let value = match *plain {
            plain::Cell::Blank => None,
            plain::Cell::Integer(word) => Some(watched::Value::Integer(word)),
            plain::Cell::Object(number) => Some(watched::Value::Object(number)),
        };
        value == watched.map(|held| held.value)
    };
    plain.len() == watched.len() && plain.iter().zip(watched).all(same)
}
