//! Places in a text, and what is wrong at one.

use std::fmt;

/// Some columns of one line; lines and columns are counted from 1, and the
/// end is the column after the last.
#[derive(Clone, Copy, Debug, PartialEq, Eq)]
pub struct Span {
    pub line: usize,
    pub start: usize,
    pub end: usize,
}

impl Span {
    /// From the start of this one to the end of another on the same line.
    pub fn to(self, other: Span) -> Span {
        Span {
            end: other.end.max(self.end),
            ..self
        }
    }
}

/// Why a text does not assemble.
#[derive(Clone, Debug, PartialEq, Eq)]
pub struct Error {
    pub span: Span,
    pub message: String,
}

impl Error {
    pub fn new(span: Span, message: impl Into<String>) -> Self {
        let message = message.into();
        Error { span, message }
    }
}

/// The line, the column and the message.
impl fmt::Display for Error {
    fn fmt(&self, out: &mut fmt::Formatter) -> fmt::Result {
        let Span { line, start, .. } = self.span;
        write!(out, "{line}:{start}: {}", self.message)
    }
}
