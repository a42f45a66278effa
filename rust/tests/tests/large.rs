//! The largest sheets, whole and with one late flaw.

use comparison::agreed;
use generator::large::SHEETS;
use generator::{At, Sheet};
use reference::{Edition, Verdict};

/// Those of edition 1, and those that become as large in edition 2.
fn largest() -> Vec<Sheet> {
    const MOST_BYTES: usize = 32_768;
    const MOST_QUALIFIED: usize = 64;
    let in_first = SHEETS.map(|(_, sheet)| sheet(MOST_BYTES));
    let in_second = SHEETS.map(|(_, sheet)| {
        let mut sheet = sheet(MOST_BYTES - 2 * MOST_QUALIFIED);
        sheet.header.edition = Edition::Second.number();
        sheet
    });
    in_first.into_iter().chain(in_second).collect()
}

#[test]
fn largest_sheets_are_accepted() {
    for sheet in largest() {
        let bytes = sheet.encode();
        assert!((32_000..=32_768).contains(&bytes.len()), "{}", bytes.len());
        assert_eq!(agreed(&bytes), Ok(Verdict::Accepted));
    }
}

#[test]
fn a_flaw_in_the_last_instruction_is_found() {
    for sheet in largest() {
        let last = sheet.procedures.len() - 1;
        let final_return = sheet.procedures[last].instructions.len() - 1;
        let place = sheet.place(At::Instruction(last, final_return));
        let mut bytes = sheet.encode();
        bytes[place + 2] = 18;
        let refused = Verdict::Refused { number: 5, place };
        assert_eq!(agreed(&bytes), Ok(refused));
    }
}

#[test]
fn a_wrong_kind_before_the_last_return_is_found() {
    for mut sheet in largest() {
        let last = sheet.procedures.len() - 1;
        let body = &mut sheet.procedures[last].instructions;
        let before = body.len() - 2;
        // Main's result, which there is none of, is kept.
        body[before] = generator::operations::call(0, 255, 0);
        let place = sheet.place(At::Instruction(last, before));
        let refused = Verdict::Refused { number: 8, place };
        assert_eq!(agreed(&sheet.encode()), Ok(refused));
    }
}
