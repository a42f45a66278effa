//! Bytes to text and back to the same bytes.

use generator::accepted::accepted;
use generator::breach::Flaw;
use generator::damage::{damaged, random_bytes};
use generator::handwritten::{cases, runs};
use generator::large::mostly_instructions;
use generator::loops;
use generator::showcase::showcase;
use generator::wellformed::wellformed;
use generator::Random;
use text::{assemble, disassemble};

/// The sheet comes back from its text; gives the text.
fn round_trip(sheet: &[u8], what: &str) -> String {
    let said = disassemble(sheet);
    match assemble(&said) {
        Ok(assembled) => assert!(assembled.sheet == sheet, "{what}: other bytes from\n{said}"),
        Err(errors) => panic!("{what}: {errors:?} in\n{said}"),
    }
    said
}

fn is_raw(text: &str) -> bool {
    text.starts_with("raw\n")
}

#[test]
fn well_formed_sheets_come_back_from_named_text() {
    for seed in 0..4_000 {
        let mut random = Random::new(seed);
        for sheet in [wellformed(&mut random), accepted(&mut random)] {
            let said = round_trip(&sheet.encode(), &format!("seed {seed}"));
            assert!(!is_raw(&said), "seed {seed} is raw");
        }
    }
}

#[test]
fn sheets_with_one_rule_broken_come_back() {
    for (number, flaw) in Flaw::all().into_iter().enumerate() {
        for seed in 0..10 {
            let breach = flaw.build(&mut Random::new(seed << 8 | number as u64));
            let said = round_trip(&breach.broken.encode(), &format!("{flaw:?} {seed}"));
            assert_eq!(is_raw(&said), breach.number <= 5, "{flaw:?} {seed}");
        }
    }
}

#[test]
fn any_bytes_come_back() {
    let mut raw = 0;
    for seed in 0..6_000 {
        let mut random = Random::new(seed);
        let sound = accepted(&mut random);
        for sheet in [damaged(&mut random, &sound), random_bytes(&mut random)] {
            let said = round_trip(&sheet, &format!("seed {seed}"));
            // The text's own reading takes for a sheet what the second engine does.
            let is_sheet = reference::parse(&sheet).is_ok();
            assert_eq!(is_raw(&said), !is_sheet, "seed {seed}");
            raw += usize::from(is_raw(&said));
        }
    }
    assert!(raw > 6_000, "only {raw} sheets were not well-formed");
}

#[test]
fn every_byte_of_a_sheet_changed_comes_back() {
    let sheet = showcase().encode();
    for place in 0..sheet.len() {
        for byte in [0, 1, 2, 3, 17, 40, 65, 127, 128, 254, 255] {
            let mut changed = sheet.clone();
            changed[place] = byte;
            round_trip(&changed, &format!("byte {place} is {byte}"));
        }
        round_trip(&sheet[..place], &format!("cut at {place}"));
    }
}

#[test]
fn hand_written_and_large_sheets_come_back() {
    for case in cases() {
        round_trip(&case.sheet, case.name);
    }
    for case in runs::cases() {
        round_trip(&case.run.sheet, case.name);
    }
    let all = [
        loops::arithmetic(),
        loops::fetch_and_store(),
        loops::call_and_return(),
        loops::record_slots(),
        mostly_instructions(32_768),
    ];
    for (number, sheet) in all.iter().enumerate() {
        let said = round_trip(&sheet.encode(), &format!("loop {number}"));
        assert!(!is_raw(&said), "loop {number} is raw");
    }
    round_trip(&[0; 40_000], "40,000 zeros");
}
