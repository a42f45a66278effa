//! The state of the watched machine: beside each filled cell its carried
//! rights, with each object its type and, for arrays, its element.

use crate::generic::{Form, Read, Reading};
use crate::program::{Kind, Rights};

#[derive(Clone, Copy, Debug, PartialEq, Eq)]
pub enum Value {
    Integer(u32),
    /// An object, by its index in [`State::objects`].
    Object(usize),
}

/// What a filled cell holds.
#[derive(Clone, Copy, Debug, PartialEq, Eq)]
pub struct Held {
    pub value: Value,
    pub rights: Rights,
}

/// A variable, a cell of an array or a slot of a record; None is blank.
pub type Cell = Option<Held>;

#[derive(Clone, Debug, PartialEq)]
pub struct Object {
    pub kind: Kind,
    /// Base and set in place of ?R, where the object was made under one.
    pub reading: Reading,
    pub cells: Vec<Cell>,
}

impl Object {
    /// The type of the object, its element read.
    pub fn form(&self) -> Form {
        match self.kind {
            Kind::Array { element: qualified } => {
                let reading = self.reading;
                let element = Read { qualified, reading };
                Form::Array { element }
            }
            Kind::Record { of } => Form::Record { of },
            // No object is made so.
            Kind::Integer | Kind::Generic => Form::Integer,
        }
    }
}

#[derive(Clone, Debug, PartialEq)]
pub struct Frame {
    pub procedure: usize,
    pub next: usize,
    /// The set that the call settled; empty where there is no rights name.
    pub set: Rights,
    pub variables: Vec<Cell>,
}

#[derive(Clone, Debug, Default, PartialEq)]
pub struct State {
    /// The last frame is the one that works.
    pub frames: Vec<Frame>,
    pub objects: Vec<Object>,
    /// How many words of the input were taken.
    pub taken: usize,
    pub output: Vec<u32>,
    pub steps: u64,
}

impl State {
    /// The units of the live frames and of all objects.
    pub fn units(&self) -> usize {
        let frames = self.frames.iter().map(|frame| frame.variables.len() + 2);
        let objects = self.objects.iter().map(|object| object.cells.len() + 1);
        frames.sum::<usize>() + objects.sum::<usize>()
    }

    /// The type of a value.
    pub fn kind(&self, value: Value) -> Kind {
        match value {
            Value::Integer(_) => Kind::Integer,
            Value::Object(number) => self.objects[number].kind,
        }
    }

    /// The type of a value, the element of an array read.
    pub fn form(&self, value: Value) -> Form {
        match value {
            Value::Integer(_) => Form::Integer,
            Value::Object(number) => self.objects[number].form(),
        }
    }
}
