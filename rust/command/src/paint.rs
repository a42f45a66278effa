//! Colour, where a terminal shows it or it is asked for.

use std::env;
use std::io::{self, IsTerminal};

/// When there is colour: on a terminal that may have it, always or never.
#[derive(Clone, Copy, Debug, PartialEq, Eq)]
pub enum When {
    Auto,
    Always,
    Never,
}

impl When {
    pub fn named(word: &str) -> Option<When> {
        match word {
            "auto" => Some(When::Auto),
            "always" => Some(When::Always),
            "never" => Some(When::Never),
            _ => None,
        }
    }

    /// What standard output is painted with.
    pub fn output(self) -> Paint {
        self.of(&io::stdout())
    }

    /// What standard error is painted with.
    pub fn errors(self) -> Paint {
        self.of(&io::stderr())
    }

    fn of(self, stream: &impl IsTerminal) -> Paint {
        let refused = env::var_os("NO_COLOR").is_some_and(|value| !value.is_empty());
        let on = match self {
            When::Auto => stream.is_terminal() && !refused && !is_dumb(),
            When::Always => true,
            When::Never => false,
        };
        Paint { on }
    }
}

/// Whether the terminal is said to obey no controls.
pub fn is_dumb() -> bool {
    env::var_os("TERM").is_some_and(|value| value == "dumb")
}

/// Paints, or leaves as it is.
#[derive(Clone, Copy)]
pub struct Paint {
    on: bool,
}

impl Paint {
    pub fn verdict(self, word: &str, good: bool) -> String {
        self.with(if good { "32" } else { "31" }, word)
    }

    pub fn carets(self, carets: &str) -> String {
        self.with("31", carets)
    }

    /// A file with a line and a column.
    pub fn place(self, place: &str) -> String {
        self.with("1", place)
    }

    fn with(self, code: &str, said: &str) -> String {
        match self.on {
            true => format!("\x1b[{code}m{said}\x1b[0m"),
            false => String::from(said),
        }
    }
}
