//! A sheet with its text, whichever of the two the file holds.

use crate::failure::{Faulty, FileError};
use crate::files::{self, name_of, Reader};
use crate::options::{Form, SheetFile};
use crate::Failure;
use reference::MAX_SHEET;
use std::ffi::OsStr;
use std::path::Path;
use text::{assemble, disassemble, Assembled, Listing, Names, Span};

/// The longest text: 2,048 characters for each of the 8,192 records that a
/// sheet has at most. A device may have no end.
const MAX_TEXT: usize = 16 << 20;
/// The most bytes that are disassembled: their text is never longer than the
/// longest that assembles.
pub const MAX_DISASSEMBLED: usize = 512 << 10;

pub struct Source {
    /// The name of the file.
    pub name: String,
    pub form: Form,
    pub sheet: Vec<u8>,
    /// More bytes than a sheet has were not read.
    pub is_cut: bool,
    /// The author's text, or that of the disassembler.
    pub text: String,
    pub listing: Listing,
    pub names: Names,
}

impl Source {
    pub fn read(file: &SheetFile) -> Result<Source, Failure> {
        let (form, bytes) = content(file)?;
        let name = name_of(&file.path);
        let is_cut = form == Form::Bytes && bytes.len() > MAX_SHEET;
        if is_cut {
            // It is refused whatever it holds, and no record of it is shown.
            return Ok(Source {
                name,
                form,
                sheet: bytes,
                is_cut,
                text: String::new(),
                listing: Listing::default(),
                names: Names::default(),
            });
        }
        let text = match form {
            Form::Text => as_text(&file.path, bytes)?,
            Form::Bytes => disassemble(&bytes),
        };
        let (assembled, text) = assembled_of(&file.path, text)?;
        Ok(Source {
            name,
            form,
            sheet: assembled.sheet,
            is_cut,
            text,
            listing: assembled.listing,
            names: assembled.names,
        })
    }
}

/// The text that a file holds.
pub fn text_of(path: &OsStr) -> Result<String, Failure> {
    as_text(path, files::read(path, MAX_TEXT)?)
}

/// The sheet of a file that holds a text.
pub fn assembled(path: &OsStr) -> Result<Assembled, Failure> {
    Ok(assembled_of(path, text_of(path)?)?.0)
}

/// The sheet of a text, and the text.
fn assembled_of(path: &OsStr, text: String) -> Result<(Assembled, String), Failure> {
    let errors = match assemble(&text) {
        Ok(assembled) => return Ok((assembled, text)),
        Err(errors) => errors.into_iter().map(|error| FileError {
            span: Some(error.span),
            message: error.message,
        }),
    };
    Err(Failure::Faulty(Faulty {
        path: path.to_owned(),
        errors: errors.collect(),
        text,
    }))
}

/// Bytes that are no UTF-8 are an error at their line and column.
fn as_text(path: &OsStr, bytes: Vec<u8>) -> Result<String, Failure> {
    String::from_utf8(bytes).map_err(|error| {
        let valid = &error.as_bytes()[..error.utf8_error().valid_up_to()];
        let before = String::from_utf8_lossy(valid);
        let line = before.matches('\n').count() + 1;
        let last = before.rsplit('\n').next().unwrap_or_default();
        let start = last.chars().count() + 1;
        let end = start + 1;
        let span = Some(Span { line, start, end });
        let message = String::from("expected text, found bytes that are no UTF-8");
        Failure::Faulty(Faulty {
            path: path.to_owned(),
            text: String::new(),
            errors: vec![FileError { span, message }],
        })
    })
}

/// The form of a file, as asked for or else by its name or its content, and as
/// many of its bytes as are needed: of those of a sheet, one more than it has.
fn content(file: &SheetFile) -> Result<(Form, Vec<u8>), Failure> {
    let is_named = Path::new(&file.path).extension() == Some(OsStr::new("ws"));
    let form = file.form.or(is_named.then_some(Form::Text));
    let mut reader = Reader::open(&file.path)?;
    let mut bytes = Vec::new();
    if form != Some(Form::Text) {
        reader.up_to(&mut bytes, MAX_SHEET + 1)?;
        if form == Some(Form::Bytes) || !is_printed(&bytes, bytes.len() > MAX_SHEET) {
            return Ok((Form::Bytes, bytes));
        }
    }
    let outcome = reader.whole(&mut bytes, MAX_TEXT);
    if form.is_none() && !is_printed(&bytes, outcome.is_err()) {
        bytes.truncate(MAX_SHEET + 1);
        return Ok((Form::Bytes, bytes));
    }
    outcome?;
    Ok((Form::Text, bytes))
}

/// Whether the bytes are printed characters, at least one; the last may be
/// cut.
fn is_printed(bytes: &[u8], is_cut: bool) -> bool {
    let text = match std::str::from_utf8(bytes) {
        Ok(text) => text,
        Err(error) if is_cut && error.error_len().is_none() => {
            let valid = &bytes[..error.valid_up_to()];
            std::str::from_utf8(valid).unwrap_or_default()
        }
        Err(_) => return false,
    };
    let printed = |c: char| !c.is_control() || matches!(c, '\n' | '\r' | '\t');
    !text.is_empty() && text.chars().all(printed)
}
