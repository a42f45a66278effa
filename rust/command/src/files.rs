//! Files that are read, no further than is needed.

use crate::quote::escaped;
use crate::streams::{self, Stream, INPUT};
use crate::Failure;
use std::ffi::{OsStr, OsString};
use std::fs::File;
use std::io::{self, Read};

/// The name by which a file that is read is spoken of.
pub fn name_of(path: &OsStr) -> String {
    match path == "-" {
        true => String::from("standard input"),
        false => escaped(&path.to_string_lossy()),
    }
}

/// Refuses an empty name, of which nothing could be said.
pub fn must_be_named(path: &OsStr) -> Result<(), Failure> {
    match path.is_empty() {
        true => Err(Failure::Misuse(String::from(
            "the name of a file cannot be empty",
        ))),
        false => Ok(()),
    }
}

/// A file that is being read; - is standard input.
pub struct Reader {
    path: OsString,
    from: Box<dyn Read>,
}

impl Reader {
    pub fn open(path: &OsStr) -> Result<Reader, Failure> {
        must_be_named(path)?;
        let from = opened(path).map_err(|cause| unreadable(path, &cause))?;
        let path = path.to_owned();
        Ok(Reader { path, from })
    }

    /// Reads on until there are so many bytes, or no more come.
    pub fn up_to(&mut self, bytes: &mut Vec<u8>, most: usize) -> Result<(), Failure> {
        let more = most.saturating_sub(bytes.len()) as u64;
        let outcome = self.from.by_ref().take(more).read_to_end(bytes);
        outcome.map_err(|cause| unreadable(&self.path, &cause))?;
        Ok(())
    }

    /// Reads all the rest, so that there are no more bytes than the most.
    pub fn whole(&mut self, bytes: &mut Vec<u8>, most: usize) -> Result<(), Failure> {
        self.up_to(bytes, most + 1)?;
        match bytes.len() > most {
            true => Err(Failure::of_file(
                &self.path,
                format!("is longer than {most} bytes"),
            )),
            false => Ok(()),
        }
    }
}

fn opened(path: &OsStr) -> io::Result<Box<dyn Read>> {
    if path == "-" {
        return Ok(Box::new(Stream::of(INPUT)));
    }
    if let Some(number) = streams::number_of(path) {
        // /dev/stdin is there even where standard input is closed.
        Stream::of(number).metadata()?;
    }
    Ok(Box::new(File::open(path)?))
}

/// The bytes of a file that has at most so many.
pub fn read(path: &OsStr, most: usize) -> Result<Vec<u8>, Failure> {
    let mut bytes = Vec::new();
    Reader::open(path)?.whole(&mut bytes, most)?;
    Ok(bytes)
}

fn unreadable(path: &OsStr, cause: &io::Error) -> Failure {
    Failure::of_file(path, format!("cannot be read: {cause}"))
}
