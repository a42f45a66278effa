//! A machine of the second engine, the plain or the watched one, as those who
//! tell of a run look at it.

use crate::settling::Called;
use reference::machine::watched::Value;
use reference::machine::{plain, watched, Resources};
use reference::{Kind, Operation, Outcome, Place, Program, Rights, Stop};
use text::{Reading, Sheet, Type};

pub struct Machine<'a> {
    engine: Engine<'a>,
    sheet: &'a Sheet,
    /// What the watched machine reads ?R as, in each frame and in the element
    /// of each object.
    frames: Vec<Reading>,
    objects: Vec<Reading>,
}

enum Engine<'a> {
    Plain(plain::Machine<'a>),
    Watched(watched::Machine<'a>),
}

use Engine::{Plain, Watched};

/// What a filled variable, cell or slot holds.
#[derive(Clone)]
pub struct Held {
    pub value: Value,
    /// The type of the value with the rights that it carries; only the
    /// watched machine keeps it.
    pub carried: Option<Type>,
}

/// How many frames and objects are added up in the time of a simple step.
const COUNTED_IN_A_STEP: u64 = 64;

/// None is blank.
pub type Cell = Option<Held>;

impl<'a> Machine<'a> {
    /// Opens main's frame, or says that the memory is full.
    pub fn start(
        program: &'a Program,
        sheet: &'a Sheet,
        resources: Resources<'a>,
        watch: bool,
    ) -> Result<Self, Stop> {
        let engine = match watch {
            true => Watched(watched::Machine::start(program, resources)?),
            false => Plain(plain::Machine::start(program, resources)?),
        };
        Ok(Machine {
            engine,
            sheet,
            frames: vec![Reading::Name(None)],
            objects: Vec::new(),
        })
    }

    /// Makes a step, or gives the stop; None where the machine is stuck.
    pub fn step(&mut self) -> Result<(), Option<Stop>> {
        match &mut self.engine {
            Plain(machine) => machine.step().map_err(|end| match end {
                plain::End::Stop(stop) => Some(stop),
                plain::End::Stuck => None,
            }),
            Watched(machine) => {
                let due = machine.due();
                machine.step().map_err(Some)?;
                if let Some((place, operation)) = due {
                    self.follow(place, operation);
                }
                Ok(())
            }
        }
    }

    /// Keeps what ?R is read as where a frame or an object is made.
    fn follow(&mut self, place: Place, operation: Operation) {
        match operation {
            Operation::Call { procedure, .. } => {
                let reading = self.settled(place, procedure);
                self.frames.push(reading);
            }
            Operation::Return { .. } => {
                self.frames.pop();
            }
            Operation::NewArray { .. } | Operation::NewRecord { .. } => {
                self.objects.push(self.reading(0));
            }
            _ => (),
        }
    }

    /// What the frame that a call opens reads ?R as.
    fn settled(&self, place: Place, callee: usize) -> Reading {
        if self.sheet.procedures[callee].name.is_none() {
            return Reading::Name(None);
        }
        let instructions = &self.sheet.procedures[place.procedure].instructions;
        let record = instructions[place.instruction].place;
        let call = Called::at(self.sheet, place.procedure, record);
        let settling = call.and_then(|call| call.settling_as(self.sheet, &self.reading(0)));
        settling.map_or(Reading::Name(None), |settling| settling.reading())
    }

    /// What a frame reads ?R as, 0 being the one that works and 1 its caller.
    pub fn reading(&self, depth: usize) -> Reading {
        let reading = self.frames.iter().nth_back(depth);
        reading.cloned().unwrap_or(Reading::Name(None))
    }

    /// How long the next step takes, a simple one being 1: the watched machine
    /// adds up all frames and objects before it makes one more.
    pub fn weight(&self) -> u64 {
        let Watched(machine) = &self.engine else {
            return 1;
        };
        match machine.due() {
            Some((
                _,
                Operation::NewArray { .. } | Operation::NewRecord { .. } | Operation::Call { .. },
            )) => {
                let state = machine.state();
                let counted = state.frames.len() + state.objects.len();
                1 + counted as u64 / COUNTED_IN_A_STEP
            }
            _ => 1,
        }
    }

    pub fn outcome(&self, stop: Stop) -> Outcome {
        match &self.engine {
            Plain(machine) => machine.outcome(stop),
            Watched(machine) => machine.outcome(stop),
        }
    }

    /// The instruction that is due, unless main's first frame has returned.
    pub fn due(&self) -> Option<Place> {
        self.next_of(0)
    }

    /// The call that opened the frame that works, unless that is main's first.
    pub fn opened_by(&self) -> Option<Place> {
        before(self.next_of(1)?)
    }

    /// The call from which the frame that works has just come back.
    pub fn returned_to(&self) -> Option<Place> {
        before(self.next_of(0)?)
    }

    /// The next instruction of a frame, 0 being the one that works and 1 its
    /// caller.
    fn next_of(&self, depth: usize) -> Option<Place> {
        let (procedure, instruction) = match &self.engine {
            Plain(machine) => {
                let frame = machine.state().frames.iter().nth_back(depth)?;
                (frame.procedure, frame.next)
            }
            Watched(machine) => {
                let frame = machine.state().frames.iter().nth_back(depth)?;
                (frame.procedure, frame.next)
            }
        };
        Some(Place {
            procedure,
            instruction,
        })
    }

    /// What a variable of the frame that works holds.
    pub fn variable(&self, number: usize) -> Cell {
        match &self.engine {
            Plain(machine) => {
                let frame = machine.state().frames.last()?;
                unwatched(*frame.variables.get(number)?)
            }
            Watched(machine) => {
                let state = machine.state();
                let variables = &state.frames.last()?.variables;
                self.carrying(state, *variables.get(number)?)
            }
        }
    }

    /// The number of the object in a variable of the frame that works.
    pub fn object(&self, variable: usize) -> Option<usize> {
        match self.variable(variable)?.value {
            Value::Object(number) => Some(number),
            Value::Integer(_) => None,
        }
    }

    pub fn integer(&self, variable: usize) -> Option<u32> {
        match self.variable(variable)?.value {
            Value::Integer(word) => Some(word),
            Value::Object(_) => None,
        }
    }

    /// How many cells or slots an object has.
    pub fn size(&self, object: usize) -> usize {
        match &self.engine {
            Plain(machine) => machine.state().objects[object].cells().len(),
            Watched(machine) => machine.state().objects[object].cells.len(),
        }
    }

    /// What a cell or a slot of the object in a variable holds.
    pub fn cell(&self, variable: usize, index: usize) -> Cell {
        let object = self.object(variable)?;
        match &self.engine {
            Plain(machine) => {
                let cells = machine.state().objects[object].cells();
                unwatched(*cells.get(index)?)
            }
            Watched(machine) => {
                let state = machine.state();
                self.carrying(state, *state.objects[object].cells.get(index)?)
            }
        }
    }

    /// How many reads were taken.
    pub fn taken(&self) -> usize {
        match &self.engine {
            Plain(machine) => machine.state().taken,
            Watched(machine) => machine.state().taken,
        }
    }

    /// The words put.
    pub fn put(&self) -> &[u32] {
        match &self.engine {
            Plain(machine) => &machine.state().output,
            Watched(machine) => &machine.state().output,
        }
    }

    /// What a cell of the watched machine holds, with the type of its value.
    fn carrying(&self, state: &watched::State, cell: watched::Cell) -> Cell {
        let watched::Held { value, rights } = cell?;
        let rights = bits(&rights);
        let carried = match (value, state.kind(value)) {
            (Value::Object(number), Kind::Array { element }) => {
                let unread = Reading::Name(None);
                let reading = self.objects.get(number).unwrap_or(&unread);
                let element = Box::new(self.sheet.read_type(element, reading));
                Type::Tray { element, rights }
            }
            (_, Kind::Record { of }) => Type::Declared { of, rights },
            _ => Type::Integer,
        };
        Some(Held {
            value,
            carried: Some(carried),
        })
    }

    /// The units of the live frames and of all objects.
    pub fn units(&self) -> usize {
        match &self.engine {
            Plain(machine) => machine.state().units,
            Watched(machine) => machine.state().units(),
        }
    }
}

fn before(next: Place) -> Option<Place> {
    let instruction = next.instruction.checked_sub(1)?;
    Some(Place {
        instruction,
        ..next
    })
}

fn unwatched(cell: plain::Cell) -> Cell {
    let value = match cell {
        plain::Cell::Blank => return None,
        plain::Cell::Integer(word) => Value::Integer(word),
        plain::Cell::Object(number) => Value::Object(number),
    };
    let carried = None;
    Some(Held { value, carried })
}

/// Bit i for right i.
pub fn bits(rights: &Rights) -> u32 {
    rights.members().fold(0, |bits, right| bits | 1 << right)
}

/// The instruction at a place.
pub fn operation(program: &Program, place: Place) -> Operation {
    program.procedures[place.procedure].instructions[place.instruction].operation
}
