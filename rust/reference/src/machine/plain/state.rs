//! The state of the plain machine.

/// What a variable, a cell of an array or a slot of a record holds.
#[derive(Clone, Copy, Debug, PartialEq, Eq)]
pub enum Cell {
    Blank,
    Integer(u32),
    /// An object, by its index in [`State::objects`].
    Object(usize),
}

#[derive(Clone, Debug, PartialEq, Eq)]
pub enum Object {
    Array(Vec<Cell>),
    Record(Vec<Cell>),
}

impl Object {
    pub fn cells(&self) -> &[Cell] {
        match self {
            Object::Array(cells) | Object::Record(cells) => cells,
        }
    }
}

#[derive(Clone, Debug, PartialEq, Eq)]
pub struct Frame {
    pub procedure: usize,
    pub next: usize,
    pub variables: Vec<Cell>,
    /// The variable of the caller that keeps the result.
    pub keep: Option<usize>,
}

#[derive(Clone, Debug, Default, PartialEq, Eq)]
pub struct State {
    /// The last frame is the one that works.
    pub frames: Vec<Frame>,
    pub objects: Vec<Object>,
    /// How many words of the input were taken.
    pub taken: usize,
    pub output: Vec<u32>,
    pub steps: u64,
    /// The units of the live frames and all objects.
    pub units: usize,
}
