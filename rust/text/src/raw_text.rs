//! Bytes that are no well-formed sheet made into raw text.

use crate::disassemble::add;
use crate::edition;
use crate::field::Field;
use crate::mnemonic::Mnemonic;
use crate::raw::{BYTES, RAW};
use crate::record::Record;
use reference::{Edition, MAX_SHEET};

/// How lines are written: for reading, or, where the bytes are more than any
/// sheet has, without places and blanks, so that a text is at most about four
/// times as long as its bytes.
#[derive(Clone, Copy)]
struct Style {
    bytes_in_line: usize,
    has_places: bool,
}

const READABLE: Style = Style {
    bytes_in_line: 16,
    has_places: true,
};
const COMPACT: Style = Style {
    bytes_in_line: 64,
    has_places: false,
};

/// The records and the bytes between them, as far as marks and lengths allow.
pub fn raw_text(sheet: &[u8]) -> String {
    let style = match sheet.len() > MAX_SHEET {
        true => COMPACT,
        false => READABLE,
    };
    let edition = edition::of_sheet(sheet);
    let mut out = format!("{RAW}\n");
    let mut place = 0;
    while place < sheet.len() {
        let rest = &sheet[place..];
        let start = out.len();
        let (size, word) = match Record::read(rest, edition) {
            Some(record) => (record.kind.size(edition), raw_record(&mut out, &record)),
            None => {
                let size = bytes_before_record(rest, edition, style);
                raw_bytes(&mut out, &rest[..size]);
                (size, String::new())
            }
        };
        if style.has_places {
            let blank = 40_usize.saturating_sub(out.len() - start);
            add(&mut out, format_args!("{:blank$} # {place}{word}", ""));
        }
        out.push('\n');
        place += size;
    }
    out
}

/// Gives the word of an instruction.
fn raw_record(out: &mut String, record: &Record) -> String {
    *out += record.kind.mark();
    for value in &record.values {
        add(out, format_args!(" {value}"));
    }
    let code = record.value(Field::Code);
    let code = code.and_then(|code| u8::try_from(code).ok());
    let mnemonic = code.and_then(Mnemonic::by_code);
    mnemonic.map_or_else(String::new, |mnemonic| format!(" {}", mnemonic.word))
}

/// Up to the next record, or as many as a line has.
fn bytes_before_record(rest: &[u8], edition: Edition, style: Style) -> usize {
    let most = style.bytes_in_line.min(rest.len());
    let next = (1..most).find(|&at| Record::read(&rest[at..], edition).is_some());
    next.unwrap_or(most)
}

fn raw_bytes(out: &mut String, bytes: &[u8]) {
    *out += BYTES;
    for byte in bytes {
        let digits = [byte >> 4, byte & 15].map(|digit| b"0123456789ABCDEF"[usize::from(digit)]);
        out.push(' ');
        out.extend(digits.map(char::from));
    }
}
