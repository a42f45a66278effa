//! The numbers that a sheet takes.

use crate::failure::{Faulty, FileError};
use crate::files;
use crate::Failure;
use std::ffi::OsStr;
use text::{quoted, Span};

/// The longest file of reads: a device may have no end.
const MAX_READS: usize = 64 << 20;
/// The UTF-8 byte order mark, which some editors write first.
const MARK: &[u8] = b"\xef\xbb\xbf";

/// The numbers of a file, with white space between them. What follows # in a
/// line is passed over.
pub fn read(path: &OsStr) -> Result<Vec<u32>, Failure> {
    let bytes = files::read(path, MAX_READS)?;
    let bytes = bytes.strip_prefix(MARK).unwrap_or(&bytes);
    let mut numbers = Vec::new();
    for (index, line) in bytes.split(|&byte| byte == b'\n').enumerate() {
        numbers_of(line, index + 1, &mut numbers).map_err(|error| {
            Failure::Faulty(Faulty {
                path: path.to_owned(),
                text: String::new(),
                errors: vec![error],
            })
        })?;
    }
    Ok(numbers)
}

/// Adds the numbers of a line.
fn numbers_of(line: &[u8], number: usize, numbers: &mut Vec<u32>) -> Result<(), FileError> {
    let said = line.split(|&byte| byte == b'#').next().unwrap_or_default();
    let said = String::from_utf8_lossy(said);
    for word in said.split_whitespace() {
        let plain = word.bytes().all(|byte| byte.is_ascii_digit());
        match word.parse().ok().filter(|_| plain) {
            Some(word) => {
                let room = numbers.try_reserve(1);
                room.map_err(|_| FileError {
                    span: None,
                    message: String::from("holds more numbers than there is memory for"),
                })?;
                numbers.push(word);
            }
            None => {
                // Both are parts of one string.
                let before = word.as_ptr() as usize - said.as_ptr() as usize;
                let start = said[..before].chars().count() + 1;
                let found = quoted(word);
                return Err(FileError {
                    span: Some(Span {
                        line: number,
                        start,
                        end: start + 1,
                    }),
                    message: format!("expected a number from 0 to 4294967295, found `{found}`"),
                });
            }
        }
    }
    Ok(())
}
