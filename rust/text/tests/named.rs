//! How names and types in place become numbers, and where records stand.

use text::field::Field;
use text::{assemble, disassemble, At};

/// The bytes of QT records: base, rights and element.
fn quals(text: &str) -> Vec<[u8; 3]> {
    let assembled = assemble(text).unwrap_or_else(|errors| panic!("{errors:?}"));
    let entries = assembled.listing.entries.iter();
    let quals = entries.filter(|entry| matches!(entry.at, At::Qualified(_)));
    quals
        .map(|entry| {
            let bytes = &assembled.sheet[entry.place..entry.place + 6];
            [bytes[2], bytes[3], bytes[5]]
        })
        .collect()
}

#[test]
fn types_in_place_are_numbered_at_their_first_use_after_the_declared_ones() {
    let text = "
        type call{read,amend} (next: tray[call{read}]{fetch})
        qual both = call{read,amend}
        procedure main
          variable i, j: integer
          variable a: call{amend,read}
          variable b: tray[call{read}]{size,fetch}
    ";
    let call = 2;
    assert_eq!(
        quals(text),
        [
            [call, 6, 255],
            [call, 2, 255],
            [1, 2, 1],
            [0, 0, 255],
            [1, 10, 1],
        ]
    );
}

#[test]
fn an_element_in_place_is_made_just_before_its_qual() {
    let text = "qual a = tray[tray[integer]{}]{store}\nqual b = integer\nqual c = tray[integer]{}";
    assert_eq!(
        quals(text),
        [[0, 0, 255], [1, 0, 0], [1, 4, 1], [0, 0, 255], [1, 0, 0]]
    );
}

#[test]
fn equal_quals_stay_apart_and_the_first_is_meant_in_place() {
    let text = "qual a = integer\nqual b = integer\nqual c = b\nprocedure main\n variable x: b\n variable y: integer\n return";
    let assembled = assemble(text).unwrap_or_else(|errors| panic!("{errors:?}"));
    assert_eq!(quals(text).len(), 3);
    let inner = |number| {
        let entry = assembled.listing.find(At::Variable(0, number));
        assembled.sheet[entry.expect("a variable").place + 2]
    };
    assert_eq!((inner(0), inner(1)), (1, 0));
    let again = disassemble(&assembled.sheet);
    assert!(!again.starts_with("raw"), "{again}");
}

const SMALL: &str = "
type call{read} (time: integer)   # a type
procedure main
    variable c: call{read}
    variable t: integer
    call c <- make(t)
    return
procedure make of call gives call{read}
    formal time: integer
    variable made: call{open,read}
again:
    newrecord made
    setslot made.time <- time
    return made
";

#[test]
fn the_listing_tells_lines_columns_and_bytes() {
    let assembled = assemble(SMALL).unwrap_or_else(|errors| panic!("{errors:?}"));
    let listing = &assembled.listing;
    let entry = listing.find(At::Instruction(1, 1)).expect("an instruction");
    let span = entry.span.expect("a line");
    assert_eq!((span.line, span.start, span.end), (13, 5, 30));
    let slot = entry.part(Field::K).expect("the slot");
    assert_eq!((slot.line, slot.start, slot.end), (13, 18, 22));
    assert_eq!(&assembled.sheet[entry.place..entry.place + 2], b"IN");
    for byte in entry.place..entry.place + entry.size {
        let found = listing.at_byte(byte).expect("a record");
        assert_eq!(found.at, entry.at);
    }
    let on_line: Vec<At> = listing.on_line(13).map(|entry| entry.at).collect();
    assert_eq!(on_line, [At::Instruction(1, 1)]);
    assert!(listing.at_byte(assembled.sheet.len()).is_none());
    // Every record is listed, one after the other.
    let mut place = 0;
    for entry in &listing.entries {
        assert_eq!(entry.place, place);
        place += entry.size;
    }
    assert_eq!(place, assembled.sheet.len());
    assert_eq!(assembled.names.variable(1, 1), "made");
}

#[test]
fn a_text_is_accepted_by_the_second_engine() {
    let assembled = assemble(SMALL).unwrap_or_else(|errors| panic!("{errors:?}"));
    let verdict = reference::check(&assembled.sheet);
    assert_eq!(verdict, reference::Verdict::Accepted);
    // Names go, all else stays.
    let again = assemble(&disassemble(&assembled.sheet));
    assert!(again.is_ok_and(|again| again.sheet == assembled.sheet));
}
