//! The table of instructions in docs/TEXT.md is the one that is read.

use std::fs;
use text::{Piece, MNEMONICS};

/// An instruction as the table writes it.
fn form(word: &str, pieces: &[Piece]) -> String {
    let written = |piece: &Piece| match *piece {
        Piece::A => String::from("a"),
        Piece::B => String::from("b"),
        Piece::C => String::from("c"),
        Piece::Number => String::from("k"),
        Piece::Label => String::from("label"),
        Piece::Slot => String::from("slot"),
        Piece::Mark(",") => String::from(", "),
        Piece::Mark(mark @ ("[" | "]" | ".")) => String::from(mark),
        Piece::Mark(mark) => format!(" {mark} "),
        Piece::Call => String::from("[a <-] p(b, ..)"),
        Piece::MaybeA => String::from("[a]"),
    };
    let pieces: String = pieces.iter().map(written).collect();
    format!("{word} {pieces}")
}

#[test]
fn the_page_has_every_instruction_in_its_form() {
    let path = concat!(env!("CARGO_MANIFEST_DIR"), "/../../docs/TEXT.md");
    let page = fs::read_to_string(path).expect("the page");
    let (_, after) = page
        .split_once("<!-- instructions -->\n")
        .expect("the table");
    let (table, _) = after.split_once("<!-- /instructions -->").expect("its end");
    let lines: Vec<&str> = table.lines().map(str::trim).collect();
    assert_eq!(lines.len(), MNEMONICS.len());
    for (line, mnemonic) in lines.into_iter().zip(&MNEMONICS) {
        let form = form(mnemonic.word, mnemonic.pieces);
        let due = format!("{:<2} {form:<26}", mnemonic.code);
        assert!(line.starts_with(&due), "expected {due:?}, found {line:?}");
    }
}
