//! Every error of a text is told, and what follows from one is not.

use text::{assemble, Error, MAX_ERRORS};

fn errors(text: &str) -> Vec<Error> {
    assemble(text).err().unwrap_or_default()
}

/// The lines and columns of all errors.
fn places(text: &str) -> Vec<(usize, usize)> {
    let errors = errors(text);
    let places = errors
        .iter()
        .map(|error| (error.span.line, error.span.start));
    places.collect()
}

#[test]
fn all_errors_are_told_in_the_order_of_the_text() {
    let text = "
type call{read,read}
qual q = tray[horse{}]{peek}
procedure main gives r
    variable i: call{amend}
    variable j: integer
    set i = 1
    put n
    add j := j $ j
on: on: jumpzero j, off
    call sum(j)
    type call
qual s = call
";
    let expected = [
        (2, 16),
        (3, 15),
        (3, 24),
        (4, 22),
        (5, 22),
        (7, 11),
        (8, 9),
        (9, 16),
        (10, 5),
        (10, 21),
        (11, 10),
        (12, 10),
        (13, 10),
    ];
    assert_eq!(places(text), expected);
}

/// Texts with one mistake, whatever follows from it, and its place.
const ONE_MISTAKE: &[(&str, usize, usize)] = &[
    // Names of declarations that are wrong are used.
    ("procedure main\n variable i, j integer\n put i\n put j\n return", 2, 16),
    ("procedure main\n varaible i, j: integer\n variable k: integer\n put i\n put j\n put k\n return", 2, 2),
    ("procedure main\n variable é, j: integer\n put j\n return", 2, 11),
    ("procedure main\n variable j: horse{}\n put j\n return", 2, 14),
    ("type call{read amend}\nqual q = call{amend}\nqual r = call{read}\n", 1, 16),
    ("type call{read} (time integer)\nprocedure main of call\n variable i: call{open}\n setslot i.time <- i", 1, 23),
    ("tpye call{read} (time: integer)\nprocedure p of call\n variable i: call{read}\n getslot i <- i.time", 1, 1),
    ("qual q = tray[integer]\nprocedure main\n variable i, j: q\n variable k: tray[q]{}", 1, 23),
    ("qual q = horse{}\nqual r = q\nprocedure main\n variable i, j: q\n variable k: tray[r]{}", 1, 10),
    ("type call\ntype call{read} (time: integer)\nqual q = call{read}\nqual r = call{}", 2, 6),
    // Of what edition the text is.
    ("editon 2\ntype t{a,b,c,d,e,f,g,h,i,j,k,l,m,n,o,p}", 1, 1),
    ("edition 3\ntype t{a,b,c,d,e,f,g,h,i,j,k,l,m,n,o,p}\nqual q = t{p}", 1, 9),
    ("hello\nedition 2\ntype t{a,b,c,d,e,f,g,h,i,j,k,l,m,n,o,p}", 1, 1),
    ("type t\nedition 2\ntype u{a,b,c,d,e,f,g,h,i,j,k,l,m,n,o,p}", 2, 1),
    ("type t{a,b,c,d,e,f,g,h,i,j,k,l,m,n,o,p}\nqual q = t{p}", 1, 38),
    ("raw\nHD 2 0 0\nQT 2 65536 255", 2, 9),
    // Procedures whose lines are wrong.
    ("procedure\n variable i: integer\n put i\nprocedure p\n return", 1, 10),
    ("procdure main\n variable i: integer\n put i\n return", 1, 1),
    ("procedure main\n variable i: integer\n call p(i)\n return\nprocedur p\n formal i: integer\n variable j: integer\n put j", 5, 1),
    ("procedure main\n variable i: integer\n call p(i, i)\n return\nprocedure p gives\n formal i, j: integer\n put j\n return", 5, 18),
    ("procedure main\n variable i, j: integer\n call p(i, j)\n return\nprocedure p\n formal i j: integer\n put j", 6, 11),
    ("procedure main\n variable i: integer\n call p(i)\nprocedure p\n return\nprocedure p\n formal i: integer", 6, 11),
    ("procedure main of horse\n variable i: integer\n getslot i <- i.time\n setslot i.time <- i", 1, 19),
    // Lines out of their place.
    ("variable i: integer\nset i := 1\non: put i\nreturn", 1, 1),
    ("procedure main\n return\n variable i: integer\n variable j: integer\n put j", 3, 2),
    ("procedure main\n variable i: integer\n formal j: integer\n formal k: integer\n put k", 3, 2),
    // Labels of instructions that are wrong, and many without one.
    ("procedure main\n variable i: integer\n jumpzero i, on\non: ptu i", 4, 5),
    ("procedure main\n variable i: integer\n jumpzero i, on\non: set i = 0", 4, 11),
    ("procedure main\n return\na: b:\nc:", 3, 1),
];

#[test]
fn a_mistake_is_told_once() {
    for &(text, line, column) in ONE_MISTAKE {
        let found = errors(text);
        assert_eq!(places(text), [(line, column)], "{text}\n{found:#?}");
    }
}

#[test]
fn a_line_that_is_wrong_does_not_hide_the_next() {
    let text = "procedure main\n variable i: integer\n put\n set i := i\n put k\n}\n put i i";
    assert_eq!(places(text), [(3, 5), (4, 11), (5, 6), (6, 1), (7, 8)]);
    // A wrong instruction declares nothing.
    let text = "procedure main\n set n = 1\n put n";
    assert_eq!(places(text), [(2, 8), (3, 6)]);
}

/// A line that says its kind says no edition.
#[test]
fn a_line_that_is_wrong_is_of_no_other_edition() {
    let rights = "a,b,c,d,e,f,g,h,i,j,k,l,m,n,o,p";
    let text = format!("type t{{\nedition 1\ntype u{{{rights}}}");
    assert_eq!(places(&text), [(1, 8), (2, 1), (3, 38)]);
    let text = "raw\nHD 1 0 0 0\nbytes x\nQT 2 65536 255";
    assert_eq!(places(text), [(3, 7), (4, 6)]);
}

#[test]
fn an_instruction_has_one_error() {
    let text = "procedure main\n add i := j + k\n call p(i, j)";
    assert_eq!(places(text), [(2, 6), (3, 7)]);
}

#[test]
fn all_errors_of_a_raw_text_are_told() {
    let text = "raw\nXX 1\nHD 1 2 3 4\nbytes 0\nVR 1 256\n$\n: 3\nraw\nbytes 00 $";
    let expected = [(2, 1), (4, 7), (5, 6), (6, 1), (7, 1), (8, 1), (9, 10)];
    assert_eq!(places(text), expected);
}

#[test]
fn the_first_errors_are_told_where_there_are_many() {
    let lines = |line: &str| format!("{line}\n").repeat(1_000_000);
    let unread = lines("$");
    let raw = format!("raw\n{unread}");
    let unknown = format!("procedure main\n{}", lines("put n"));
    let types = (0..1_000_000).map(|number| format!("qual q{number} = horse{{}}\n"));
    let types = types.collect();
    for (text, first) in [(unread, 1), (raw, 2), (unknown, 2), (types, 1)] {
        let found = errors(&text);
        assert_eq!(found.len(), MAX_ERRORS);
        assert_eq!(found[0].span.line, first);
        let in_order = |pair: &[Error]| {
            let place = |error: &Error| (error.span.line, error.span.start);
            place(&pair[0]) <= place(&pair[1]) && pair[0] != pair[1]
        };
        assert!(found.windows(2).all(in_order));
    }
}

/// The errors of lines that do not parse and of names come mixed.
#[test]
fn the_first_errors_are_of_every_kind() {
    let pair = "put n\nput $\n";
    let text = format!("procedure main\n{}", pair.repeat(99));
    let found = errors(&text);
    assert_eq!(found.len(), MAX_ERRORS);
    let lines: Vec<usize> = found.iter().map(|error| error.span.line).collect();
    let expected: Vec<usize> = (2..2 + MAX_ERRORS).collect();
    assert_eq!(lines, expected);
}

#[test]
fn a_byte_order_mark_is_passed_over_at_the_start_only() {
    for text in ["procedure main\n return", "raw\nbytes 00", ""] {
        let plain = assemble(text).map(|assembled| assembled.sheet);
        let marked = assemble(&format!("\u{feff}{text}")).map(|assembled| assembled.sheet);
        assert!(plain.is_ok());
        assert_eq!(plain, marked);
    }
    assert_eq!(places("\u{feff}hello"), [(1, 1)]);
    for text in [
        "\u{feff}\u{feff}raw",
        "return\n\u{feff}return",
        "raw\n\u{feff}bytes 00",
    ] {
        let found = errors(text);
        let told = found
            .iter()
            .filter(|error| error.message.ends_with(r"found `\u{feff}`"));
        assert_eq!(told.count(), 1, "{text:?}: {found:?}");
    }
}
