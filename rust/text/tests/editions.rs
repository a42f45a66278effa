//! Texts and sheets of both editions.

mod common;

use common::{is_raw, round_trip, sheet};
use generator::accepted::accepted;
use generator::wellformed::wellformed;
use generator::Random;
use reference::{Edition, Verdict};
use text::{assemble, disassemble, At, RecordKind, Sheet};

/// Rights a1 to the number.
fn rights(count: usize) -> String {
    let names: Vec<String> = (1..=count).map(|number| format!("a{number}")).collect();
    names.join(",")
}

/// A type of so many rights, the last of which is used in types and in the
/// bound of a rights name.
fn text(edition: &str, named: usize) -> String {
    let rights = rights(named);
    format!(
        "{edition}
type call{{{rights}}} (length: integer)
procedure main
    variable calls: tray[call{{a1,a{named}}}]{{fetch,store,size}}
    return
procedure last for ?R >= call{{a{named}}} of call
    formal calls: tray[?R]{{fetch}}
    variable own: call{{open,{rights}}}
    return
"
    )
}

#[test]
fn a_text_is_of_the_edition_that_its_first_statement_says() {
    for (edition, due) in [
        ("", 1),
        ("edition 1", 1),
        ("edition 2", 2),
        ("# first\n\n\t edition 0x2 # the second", 2),
    ] {
        let sheet = sheet(&text(edition, 15));
        assert_eq!(sheet[2], due, "{edition:?}");
        assert_eq!(reference::check(&sheet), Verdict::Accepted);
        let said = round_trip(&sheet);
        assert!(!is_raw(&said));
        assert_eq!(said.starts_with("edition 2\ntype "), due == 2, "{said}");
        assert_eq!(said.contains("edition"), due == 2, "{said}");
    }
    assert_eq!(sheet(&text("", 15)), sheet(&text("edition 1", 15)));
    let marked = format!("\u{feff}{}", text("edition 2", 31));
    assert_eq!(sheet(&marked), sheet(&text("edition 2", 31)));
}

#[test]
fn a_sheet_of_the_second_edition_has_up_to_thirty_one_rights() {
    for named in [2, 15, 16, 22, 30, 31] {
        let sheet = sheet(&text("edition 2", named));
        assert_eq!(reference::check(&sheet), Verdict::Accepted);
        let said = round_trip(&sheet);
        let last = format!("for ?R >= t2{{r{named}}} of t2");
        assert!(said.contains(&last), "{said}");
    }
    let errors = assemble(&text("edition 2", 32)).err().unwrap_or_default();
    let messages: Vec<&str> = errors.iter().map(|error| error.message.as_str()).collect();
    assert_eq!(
        messages,
        ["expected at most 31 named rights, found one more"]
    );
}

/// The records of a text in both editions: all the same but for the edition
/// and the rights bytes.
#[test]
fn the_editions_differ_in_the_rights_bytes() {
    let [first, second] = ["", "edition 2"].map(|edition| {
        let text = text(edition, 15);
        assemble(&text).unwrap_or_else(|errors| panic!("{}", errors[0]))
    });
    let entries = first.listing.entries.iter().zip(&second.listing.entries);
    for (one, two) in entries {
        assert_eq!(one.at, two.at);
        let bytes = &first.sheet[one.place..one.place + one.size];
        let mut due = bytes.to_vec();
        match one.at {
            At::Header => due[2] = 2,
            At::Qualified(_) | At::Name(_) => drop(due.splice(5..5, [0, 0])),
            _ => (),
        }
        let found = &second.sheet[two.place..two.place + two.size];
        assert_eq!(found, due, "{:?}", one.at);
    }
    let sizes = |edition| RecordKind::ALL.map(|kind| kind.size(edition));
    assert_eq!(sizes(Edition::First), [6, 12, 6, 8, 5, 4, 8]);
    assert_eq!(sizes(Edition::Second), [6, 12, 8, 8, 7, 4, 8]);
}

/// The word means the edition at the start of a statement only.
#[test]
fn edition_is_no_reserved_word() {
    let text = "
type edition{edition} (edition: integer)
procedure main
    variable edition: edition{edition}
    call edition <- make()
edition: call edition(edition)
    return
procedure make of edition gives edition{edition}
    variable made: edition{open,edition}
    newrecord made
    return made
procedure edition for ?R >= edition{edition}
    formal edition: ?R
    return
";
    for first in ["", "edition 1", "edition 2"] {
        let sheet = sheet(&format!("{first}{text}"));
        assert_eq!(reference::check(&sheet), Verdict::Accepted);
    }
    let label =
        "procedure main\n variable n: integer\nedition:\n jumpzero n, edition\nedition2: return";
    sheet(label);
}

#[test]
fn raw_records_are_of_the_edition_of_the_header_that_stands_first() {
    let records = "QT 2 65535 255\nGN 2 513\n";
    let narrow = b"QT\x02\xff\xff\xffGN\x02\x01\x02";
    let wide = b"QT\x02\xff\xff\x00\x00\xffGN\x02\x01\x02\x00\x00";
    for (start, due) in [
        ("HD 2 0 0 0", &wide[..]),
        ("bytes 48 44 02 00 00 00", wide),
        ("bytes 48 44 02", wide),
        ("bytes 48\nbytes 44\nbytes 02 00", wide),
        ("HD 2 0 0 0\nHD 1 0 0 0", wide),
        ("HD 1 0 0 0", narrow),
        ("HD 3 0 0 0", narrow),
        ("HD 1 0 0 0\nHD 2 0 0 0", narrow),
        ("bytes 00\nHD 2 0 0 0", narrow),
        ("bytes 48 44", narrow),
        ("", narrow),
    ] {
        let made = sheet(&format!("raw\n{start}\n{records}"));
        assert!(made.ends_with(due), "{start}: {made:x?}");
        assert!(is_raw(&round_trip(&made)));
    }
    let most = sheet("raw\nHD 2 0 0 0\nQT 2 4294967295 255\nGN 2 0x80000001");
    assert!(most.ends_with(b"QT\x02\xff\xff\xff\xff\xffGN\x02\x01\x00\x00\x80"));
    assert!(round_trip(&most).contains("QT 2 4294967295 255 "));
}

/// Every byte changed and every cut: the text comes back, and is named for
/// those that the second engine takes for well-formed.
#[test]
fn damaged_sheets_come_back() {
    for sheet in [sheet(&text("edition 2", 15)), sheet(&text("edition 2", 31))] {
        for place in 0..sheet.len() {
            assert!(is_raw(&round_trip(&sheet[..place])), "cut at {place}");
            for byte in [0, 1, 2, 3, 15, 16, 31, 32, 128, 254, 255] {
                let mut changed = sheet.clone();
                changed[place] = byte;
                let said = round_trip(&changed);
                let is_sheet = reference::parse(&changed).is_ok();
                assert_eq!(is_raw(&said), !is_sheet, "byte {place} is {byte}");
                assert_eq!(Sheet::read(&changed).is_some(), is_sheet);
            }
        }
    }
}

/// The number of a verdict; places are others in the other edition.
fn number(sheet: &[u8]) -> u8 {
    match reference::check(sheet) {
        Verdict::Accepted => 0,
        Verdict::Refused { number, .. } => number,
    }
}

/// A generated sheet of the first edition, its text under `edition 2`, and
/// damage to that.
#[test]
fn generated_sheets_come_back_in_the_second_edition() {
    for seed in 0..1_500 {
        let mut random = Random::new(seed);
        for first in [wellformed(&mut random), accepted(&mut random)] {
            let first = first.encode();
            let said = disassemble(&first);
            if said.starts_with("edition 2") {
                continue;
            }
            let mut second = sheet(&format!("edition 2\n{said}"));
            let again = round_trip(&second);
            let again = again.strip_prefix("edition 2\n").map(str::trim_start);
            assert_eq!(again, Some(said.as_str()), "seed {seed}");
            assert_eq!(number(&second), number(&first), "seed {seed}");
            let place = random.below(second.len());
            second[place] = random.byte();
            let is_sheet = reference::parse(&second).is_ok();
            assert_eq!(is_raw(&round_trip(&second)), !is_sheet, "seed {seed}");
        }
    }
}

/// The bytes of one edition under the number of the other.
#[test]
fn sheets_under_another_edition_come_back() {
    for (edition, named) in [("", 15), ("edition 2", 15), ("edition 2", 31)] {
        let mut sheet = sheet(&text(edition, named));
        for number in [0, 1, 2, 3, 255] {
            sheet[2] = number;
            let is_sheet = reference::parse(&sheet).is_ok();
            assert_eq!(is_raw(&round_trip(&sheet)), !is_sheet, "{edition} {number}");
        }
    }
}
