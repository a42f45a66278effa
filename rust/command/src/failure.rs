//! Why a task is not done, and how that is said.

use crate::files::name_of;
use crate::paint::Paint;
use crate::streams::{Stream, ERRORS};
use crate::{show, FAILED, MISUSE};
use std::ffi::{OsStr, OsString};
use std::io::{self, BufWriter, Write};
use text::{Span, MAX_ERRORS};

#[derive(Debug)]
pub enum Failure {
    /// A wrong call.
    Misuse(String),
    /// A file that cannot be read, or is not what it must be.
    Faulty(Faulty),
    /// The two engines disagree.
    Failed(String),
    /// The output cannot be written: nothing more is done.
    Output(String),
}

/// A file with what is wrong in it.
#[derive(Debug)]
pub struct Faulty {
    pub path: OsString,
    /// What its lines are shown from, where they are.
    pub text: String,
    pub errors: Vec<FileError>,
}

#[derive(Debug)]
pub struct FileError {
    /// None where it is about the whole file.
    pub span: Option<Span>,
    pub message: String,
}

impl From<io::Error> for Failure {
    fn from(cause: io::Error) -> Self {
        Failure::Output(format!("the output cannot be written: {cause}"))
    }
}

impl Failure {
    /// About a file as a whole; the message follows its name.
    pub fn of_file(path: &OsStr, message: String) -> Failure {
        Failure::Faulty(Faulty {
            path: path.to_owned(),
            text: String::new(),
            errors: vec![FileError {
                span: None,
                message,
            }],
        })
    }

    pub fn status(&self) -> u8 {
        match self {
            Failure::Misuse(_) | Failure::Faulty(_) => MISUSE,
            Failure::Failed(_) | Failure::Output(_) => FAILED,
        }
    }

    /// Says it on standard error, which nobody may be left to read.
    pub fn say(&self, paint: Paint) {
        let mut errors = BufWriter::new(Stream::of(ERRORS));
        let _ = match self {
            Failure::Faulty(faulty) => faulty.say(paint, &mut errors),
            Failure::Misuse(message) | Failure::Failed(message) | Failure::Output(message) => {
                writeln!(errors, "wennathig: {message}")
            }
        };
        let _ = errors.flush();
    }
}

impl Faulty {
    fn say(&self, paint: Paint, errors: &mut impl Write) -> io::Result<()> {
        let name = name_of(&self.path);
        let lines: Vec<&str> = self.text.lines().collect();
        for FileError { span, message } in &self.errors {
            let Some(span) = span else {
                writeln!(errors, "wennathig: {name} {message}")?;
                continue;
            };
            let place = paint.place(&format!("{name}:{}:{}:", span.line, span.start));
            writeln!(errors, "wennathig: {place} {message}")?;
            if !self.text.is_empty() {
                let line = lines.get(span.line - 1).copied().unwrap_or_default();
                writeln!(errors, "{}", show::line(line, span.line, &[*span], paint))?;
            }
        }
        // The text may have more.
        if self.errors.len() == MAX_ERRORS {
            let only = format!("only the first {MAX_ERRORS} errors are told");
            writeln!(errors, "wennathig: of {name} {only}")?;
        }
        Ok(())
    }
}
