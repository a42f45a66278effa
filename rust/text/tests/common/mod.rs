//! What tests of texts and sheets share.

use text::{assemble, disassemble};

pub fn sheet(text: &str) -> Vec<u8> {
    let assembled = assemble(text).unwrap_or_else(|errors| panic!("{}\n{text}", errors[0]));
    assembled.sheet
}

/// The sheet comes back from its text; gives the text.
pub fn round_trip(sheet: &[u8]) -> String {
    let said = disassemble(sheet);
    let again = assemble(&said).unwrap_or_else(|errors| panic!("{}\n{said}", errors[0]));
    assert!(again.sheet == sheet, "other bytes from\n{said}");
    said
}

pub fn is_raw(text: &str) -> bool {
    text.starts_with("raw\n")
}
