//! Rights names in texts, in sheets and back.

mod common;

use common::{is_raw, round_trip, sheet};
use reference::layout::NONE;
use text::field::Field;
use text::{assemble, At, RightsName, Sheet};

const SORT: &str = "
type horse{}
type call{read,amend} (length: integer)

procedure main
    variable calls: tray[call{read}]{fetch,store}
    call sort(calls)
    return

procedure sort for ?R >= call{read} of horse
    formal calls: tray[?R]{fetch,store}
    variable left: ?R
    return

procedure same for ?R >= call{} gives ?R
    formal item: ?R
    return item
";

#[test]
fn a_bound_is_a_record_right_after_the_head() {
    let assembled = assemble(SORT).unwrap_or_else(|errors| panic!("{errors:?}"));
    let (sheet, listing) = (&assembled.sheet, &assembled.listing);
    let bytes = |at| {
        let entry = listing.find(at).expect("the record");
        &sheet[entry.place..entry.place + entry.size]
    };
    assert_eq!(bytes(At::Name(1)), b"GN\x03\x02\x00");
    assert_eq!(bytes(At::Name(2)), b"GN\x03\x00\x00");
    let places = listing
        .entries
        .windows(2)
        .filter(|pair| pair[1].at == At::Name(1));
    let before: Vec<At> = places.map(|pair| pair[0].at).collect();
    assert_eq!(before, [At::Procedure(1)]);
    // The columns of the bound and of its parts.
    let entry = listing.find(At::Name(1)).expect("the record");
    let columns = |span: text::Span| (span.line, span.start, span.end);
    assert_eq!(entry.span.map(columns), Some((10, 16, 36)));
    assert_eq!(entry.part(Field::Base).map(columns), Some((10, 26, 30)));
    assert_eq!(entry.part(Field::Least).map(columns), Some((10, 30, 36)));
}

#[test]
fn a_name_is_one_qualified_type_of_base_255() {
    let sheet = sheet(SORT);
    let names = sheet
        .windows(6)
        .filter(|bytes| bytes.starts_with(b"QT\xff"));
    let names: Vec<&[u8]> = names.collect();
    assert_eq!(names, [&[b'Q', b'T', 255, 0, 0, NONE]]);
}

#[test]
fn a_sheet_with_names_comes_back_from_named_text() {
    let said = round_trip(&sheet(SORT));
    assert!(!is_raw(&said), "{said}");
    for line in [
        "procedure p1 for ?R >= t3{r1} of t2\n    formal v0: tray[?R]{fetch,store}\n    variable v1: ?R\n",
        "procedure p2 for ?R >= t3{} gives ?R\n    formal v0: ?R\n",
    ] {
        assert!(said.contains(line), "{said}");
    }
    let read = Sheet::read(&sheet(SORT)).expect("a sheet");
    let names: Vec<_> = read
        .procedures
        .iter()
        .map(|procedure| procedure.name)
        .collect();
    let name = |least| Some(RightsName { of: 1, least });
    assert_eq!(names, [None, name(2), name(0)]);
}

/// Types that use ?R and that nothing names are no fault.
#[test]
fn quals_of_names_are_named() {
    let text = "qual a = ?R\nqual b = ?R\nqual c = tray[tray[a]{}]{size}\nprocedure main\n return";
    let said = round_trip(&sheet(text));
    assert!(!is_raw(&said), "{said}");
    assert!(said.contains("qual q0 = ?R\nqual q1 = ?R\n"), "{said}");
}

/// What the layout does not allow is raw, and comes back.
#[test]
fn what_is_misplaced_comes_back_from_raw_text() {
    for text in [
        "type t{a} (s: ?R)\nprocedure main\n return",
        "type t{a} (s: tray[?R]{})\nprocedure main\n return",
        "procedure main\n variable v: ?R\n return",
        "procedure main\n return\nprocedure p gives ?R\n variable v: integer\n return v",
        "procedure main\n return\nprocedure p\n formal v: tray[tray[?R]{}]{}\n return",
        "procedure main\n return\nprocedure p\n formal v: ?R as integer\n return",
    ] {
        assert!(is_raw(&round_trip(&sheet(text))), "{text}");
    }
    let head = "raw\nHD 1 1 0 2\nTY 2 0 255 255 255 255 255 255 255 255\nPR 0 0 0 255 1\n";
    let (name, end) = ("GN 2 6\n", "IN 17 255 255 255 0\n");
    let procedure = "PR 0 0 0 255 1\n";
    let named = format!("{head}{end}{procedure}{name}{end}");
    assert!(!is_raw(&round_trip(&sheet(&named))));
    for (text, record) in [
        // After main's head, twice, open, no such right, no such type.
        (format!("{head}{name}{end}{procedure}{end}"), "GN 2 6"),
        (format!("{head}{end}{procedure}{name}{name}{end}"), "GN 2 6"),
        (named.replace("GN 2 6", "GN 2 7"), "GN 2 7"),
        (named.replace("GN 2 6", "GN 2 8"), "GN 2 8"),
        (named.replace("GN 2 6", "GN 1 0"), "GN 1 0"),
        (named.replace("GN 2 6", "GN 3 0"), "GN 3 0"),
        (named.replace("GN 2 6", "GN 255 65535"), "GN 255 65535"),
    ] {
        let said = round_trip(&sheet(&text));
        assert!(is_raw(&said) && said.contains(record), "{said}");
    }
}

/// Every byte changed and every cut, and named text only for what has all of
/// its records within the layout.
#[test]
fn damaged_sheets_come_back() {
    let sheet = sheet(SORT);
    for place in 0..sheet.len() {
        assert!(is_raw(&round_trip(&sheet[..place])), "cut at {place}");
        for byte in [0, 1, 2, 3, 71, 78, 254, 255] {
            let mut changed = sheet.clone();
            changed[place] = byte;
            let said = round_trip(&changed);
            assert_eq!(is_raw(&said), Sheet::read(&changed).is_none());
        }
    }
}

/// The own reading takes for a sheet what the second engine does.
#[test]
fn sheets_are_those_of_the_second_engine() {
    let plain = SORT
        .replace("?R", "call{read}")
        .replace(" for call{read} >= call{read}", "");
    let plain = sheet(&plain.replace(" for call{read} >= call{}", ""));
    for place in 0..plain.len() {
        for byte in 0..=254 {
            let mut changed = plain.clone();
            changed[place] = byte;
            let due = reference::parse(&changed).is_ok();
            assert_eq!(Sheet::read(&changed).is_some(), due, "{place} {byte}");
        }
    }
}
