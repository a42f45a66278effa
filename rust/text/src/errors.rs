//! The errors of a text, collected.

use crate::span::Error;

/// The most errors that are told of one text; reading stops there.
pub const MAX_ERRORS: usize = 100;

/// Each pass over a text adds its first errors. What a pass gives is in the
/// order of the text, so that the first of all are among them.
#[derive(Default)]
pub struct Errors {
    found: Vec<Error>,
    /// How many the pass has added.
    in_pass: usize,
}

impl Errors {
    pub fn add(&mut self, error: Error) {
        if !self.is_full() {
            self.in_pass += 1;
            self.found.push(error);
        }
    }

    /// Adds the error and gives nothing, for what cannot be made then.
    pub fn none<T>(&mut self, error: Error) -> Option<T> {
        self.add(error);
        None
    }

    /// Whether the pass may stop.
    pub fn is_full(&self) -> bool {
        self.in_pass == MAX_ERRORS
    }

    pub fn next_pass(&mut self) {
        self.in_pass = 0;
    }

    pub fn is_empty(&self) -> bool {
        self.found.is_empty()
    }

    /// The first ones in the order of the text, each once.
    pub fn sorted(self) -> Vec<Error> {
        let mut all = self.found;
        all.sort_by_key(|error| (error.span.line, error.span.start));
        all.dedup();
        all.truncate(MAX_ERRORS);
        all
    }
}
