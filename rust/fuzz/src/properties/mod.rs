//! What must hold of every input, by the kind of round.

pub mod bytes;
mod printable;
pub mod program;
pub mod text;

use crate::counts::Counts;
use bytes::Sheet;
use program::Tried;
use std::panic::{catch_unwind, AssertUnwindSafe};
use text::Text;

pub struct Property<Case> {
    pub name: &'static str,
    /// Counts what has come up, and says what does not hold.
    pub holds: fn(&Case, &mut Counts) -> Result<(), String>,
}

pub const OF_TEXTS: [Property<Text>; 4] = [
    Property {
        name: "a text assembles, or there is an error",
        holds: text::assembles_or_not,
    },
    Property {
        name: "an error has a place inside the text",
        holds: text::places_are_inside,
    },
    Property {
        name: "an error's message is short and printable",
        holds: text::messages_are_short,
    },
    Property {
        name: "what assembles comes back from its disassembly",
        holds: text::comes_back,
    },
];

pub const OF_SHEETS: [Property<Sheet>; 7] = [
    Property {
        name: "any bytes come back from their disassembly",
        holds: bytes::comes_back,
    },
    Property {
        name: "the engines' checks agree",
        holds: bytes::checks_agree,
    },
    Property {
        name: "the engines' runs agree, and the memory is zero or untouched",
        holds: bytes::runs_agree,
    },
    Property {
        name: "the engines' watched runs agree, and the memory is zero or untouched",
        holds: bytes::watches_agree,
    },
    Property {
        name: "the output keeps the words that are not put",
        holds: bytes::output_is_kept,
    },
    Property {
        name: "of an accepted sheet watch says what run says",
        holds: bytes::watch_is_run,
    },
    Property {
        name: "in the second edition a sheet of the first is what it was",
        holds: bytes::editions_are_alike,
    },
];

pub const OF_FILES: [Property<Tried>; 7] = [
    Property {
        name: "a task ends with a status, without a panic",
        holds: program::ends,
    },
    Property {
        name: "standard error is short and printable",
        holds: program::errors_are_short,
    },
    Property {
        name: "what check prints is short and printable",
        holds: program::explanations_are_short,
    },
    Property {
        name: "check prints the second engine's verdict",
        holds: program::check_prints_the_verdict,
    },
    Property {
        name: "run prints the second engine's refusal or stop",
        holds: program::run_prints_the_stop,
    },
    Property {
        name: "asm writes the bytes of a text, or nothing",
        holds: program::asm_writes_the_bytes,
    },
    Property {
        name: "asm makes the same bytes of what dis writes",
        holds: program::dis_comes_back,
    },
];

/// The name of a property that does not hold, and what was found.
pub type Broken = (&'static str, String);

/// The properties that do not hold of a case; a panic holds nothing.
pub fn broken<Case>(
    properties: &[Property<Case>],
    case: &Case,
    counts: &mut Counts,
) -> Vec<Broken> {
    let mut all = Vec::new();
    for property in properties {
        let outcome = caught(|| (property.holds)(case, counts)).and_then(|held| held);
        all.extend(outcome.err().map(|fault| (property.name, fault)));
    }
    all
}

/// What is done, or what a panic said.
pub fn caught<Done>(act: impl FnOnce() -> Done) -> Result<Done, String> {
    catch_unwind(AssertUnwindSafe(act)).map_err(|cause| {
        let said = cause.downcast_ref::<String>().map(String::as_str);
        let said = said.or_else(|| cause.downcast_ref::<&str>().copied());
        format!("panicked: {}", said.unwrap_or_default())
    })
}

#[cfg(test)]
mod tests {
    use super::{broken, Counts, Property};

    #[test]
    fn every_property_that_does_not_hold_is_named() {
        let properties: [Property<u8>; 3] = [
            Property {
                name: "is even",
                holds: |&number, _| match number % 2 {
                    0 => Ok(()),
                    _ => Err(format!("{number} is odd")),
                },
            },
            Property {
                name: "holds",
                holds: |_, _| Ok(()),
            },
            Property {
                name: "divides 12",
                holds: |&number, _| match 12 % number {
                    0 => Ok(()),
                    rest => panic!("{rest} are left"),
                },
            },
        ];
        let found = |number| broken(&properties, &number, &mut Counts::default());
        assert_eq!(found(4), []);
        let (odd, left) = ("5 is odd", "panicked: 2 are left");
        let due = [("is even", odd), ("divides 12", left)];
        assert_eq!(found(5), due.map(|(name, fault)| (name, fault.to_owned())));
    }
}
