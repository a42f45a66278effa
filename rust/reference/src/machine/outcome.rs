//! What run and watch say.

use crate::refusal::{Reason, Refusal};

/// Why a machine ends, with the numbers of document 01.
#[derive(Clone, Copy, Debug, PartialEq, Eq, PartialOrd, Ord)]
pub enum Stop {
    /// "done": the first frame, main's, returned.
    Done = 11,
    /// "fuel spent": steps = fuel.
    FuelSpent = 12,
    /// "blank": an empty variable, cell or slot used.
    Blank = 13,
    /// "past the tray": index ≥ size.
    PastEnd = 14,
    /// "reads ended": none left to take.
    InputEnded = 15,
    /// "report full": no word free.
    OutputFull = 16,
    /// "bench full": units exceed the memory.
    MemoryFull = 17,
    /// "mixed sample": wrong kind; the watched machine only.
    WrongKind = 18,
    /// "unlicensed": missing right; the watched machine only.
    MissingRight = 19,
}

impl Stop {
    pub const ALL: [Stop; 9] = [
        Stop::Done,
        Stop::FuelSpent,
        Stop::Blank,
        Stop::PastEnd,
        Stop::InputEnded,
        Stop::OutputFull,
        Stop::MemoryFull,
        Stop::WrongKind,
        Stop::MissingRight,
    ];

    pub fn from_number(number: u8) -> Option<Stop> {
        Stop::ALL.into_iter().find(|&stop| stop as u8 == number)
    }
}

/// A procedure and one of its instructions.
#[derive(Clone, Copy, Debug, Default, PartialEq, Eq, Hash)]
pub struct Place {
    pub procedure: usize,
    pub instruction: usize,
}

/// What run or watch says about a sheet and what it was lent.
#[derive(Clone, Copy, Debug, PartialEq, Eq)]
pub enum Outcome {
    Refused {
        number: u8,
        /// The byte at which the refused record starts.
        place: usize,
    },
    Stopped {
        stop: Stop,
        steps: u64,
        /// The words put on the output.
        words: usize,
        place: Place,
    },
}

impl Outcome {
    /// A stop before main's frame opens.
    pub(super) fn at_start(stop: Stop) -> Self {
        Outcome::Stopped {
            stop,
            steps: 0,
            words: 0,
            place: Place::default(),
        }
    }

    pub fn number(&self) -> u64 {
        match *self {
            Outcome::Refused { number, .. } => u64::from(number),
            Outcome::Stopped { stop, .. } => stop as u64,
        }
    }

    /// The place of a refusal, steps, words put, procedure and instruction; 0
    /// for what a refusal or a stop does not have.
    pub fn reply(&self) -> [u64; 5] {
        match *self {
            Outcome::Refused { place, .. } => [place as u64, 0, 0, 0, 0],
            Outcome::Stopped {
                steps,
                words,
                place,
                ..
            } => [
                0,
                steps,
                words as u64,
                place.procedure as u64,
                place.instruction as u64,
            ],
        }
    }
}

impl Outcome {
    /// The outcome that a number and a reply mean, if they mean one.
    pub fn from_reply(number: u64, reply: [u64; 5]) -> Option<Outcome> {
        let number = u8::try_from(number).ok()?;
        let [place, steps, words, procedure, instruction] = reply;
        let index = |word: u64| usize::try_from(word).ok();
        let outcome = match Stop::from_number(number) {
            Some(stop) => Outcome::Stopped {
                stop,
                steps,
                words: index(words)?,
                place: Place {
                    procedure: index(procedure)?,
                    instruction: index(instruction)?,
                },
            },
            None => Outcome::Refused {
                number,
                place: index(place)?,
            },
        };
        let possible = (1..=21).contains(&number) && outcome.reply() == reply;
        possible.then_some(outcome)
    }
}

impl From<Refusal> for Outcome {
    fn from(Refusal { reason, place }: Refusal) -> Self {
        Outcome::Refused {
            number: reason as u8,
            place,
        }
    }
}

/// The most words of memory that may be lent.
pub const MAX_MEMORY: usize = 65_536;

/// Refuses a memory that is too large, as the last of all refusals.
pub fn check_memory(memory_words: usize) -> Result<(), Refusal> {
    if memory_words > MAX_MEMORY {
        return Err(Refusal::new(Reason::MemoryTooLarge, 0));
    }
    Ok(())
}
