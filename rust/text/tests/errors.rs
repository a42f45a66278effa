//! What does not assemble: the line, the column and what was expected there.

use text::{assemble, Error};

/// A text, and the line, the column and a part of the message.
const BAD: &[(&str, usize, usize, &str)] = &[
    // Characters that no statement has.
    ("$", 1, 1, "expected type, qual, procedure, formal, variable, an instruction or a label, found `$`"),
    ("procedure main\nreturn\nbéf", 3, 1, "expected type, qual, procedure"),
    ("procedure main\n variable b\u{e9}: integer", 2, 12, "expected `:`, found `é`"),
    ("procedure main\n variable a: integer\n put a; return", 3, 7, "expected the end of the line, found `;`"),
    ("procedure main\n variable a: integer\n less a := a > a; $", 3, 14, "expected `<`, found `>`"),
    ("procedure main\n return // x", 2, 9, "expected a variable or the end of the line, found `/`"),
    ("procedure main\n set a = $", 2, 8, "expected `:=`, found `=`"),
    ("procedure main\non$ return", 2, 1, "found `on`"),
    ("type t{$}", 1, 8, "expected a right, found `$`"),
    ("raw\nbytes 00 \u{9b}", 2, 10, r"expected a byte as two hexadecimal digits, found `\u{9b}`"),
    ("hello", 1, 1, "expected type, qual, procedure"),
    ("{", 1, 1, "found `{`"),
    ("12 set", 1, 1, "found `12`"),
    ("return", 1, 1, "expected a `procedure` line before"),
    ("loop: return", 1, 1, "expected a `procedure` line before"),
    ("raw: return", 1, 1, "expected a `procedure` line before"),
    ("type", 1, 5, "expected the name of a type, found the end of the line"),
    ("type 7", 1, 6, "expected the name of a type, found `7`"),
    ("type integer", 1, 6, "found `integer`, which has a meaning already"),
    ("type call\ntype call", 2, 6, "found `call`, which is declared in line 1"),
    ("type call\nqual call = integer", 2, 6, "found `call`, which is declared in line 1"),
    ("type call{read", 1, 15, "expected `}`"),
    ("type call{read,}", 1, 16, "expected a right, found `}`"),
    ("type call{read,read}", 1, 16, "found `read`, which is declared in line 1"),
    ("type call{open}", 1, 11, "found `open`, a right of every type"),
    ("type t{a,b,c,d,e,f,g,h,i,j,k,l,m,n,o,p}", 1, 38, "expected at most 15 named rights, found one more: the text is of edition 1, and `edition 2` as its first line allows 31"),
    ("type call (time integer)", 1, 17, "expected `:`, found `integer`"),
    ("type call (time: integer, time: integer)", 1, 27, "found `time`, which is declared"),
    ("type call (time: horse{})", 1, 18, "expected a declared type, found `horse`"),
    ("type call (time: call)", 1, 18, "expected `{` and rights after the type `call`"),
    ("type c (a: integer, b: integer, c: integer, d: integer, e: integer, f: integer, g: integer, h: integer, i: integer)", 1, 105, "expected at most 8 slots"),
    ("type call{read}\nqual q = call{amend}", 2, 15, "expected a right of `call` (open, read), found `amend`"),
    ("type call{read}\nqual q = call{read,read}", 2, 20, "expected another right, found `read` again"),
    ("qual q = tray[integer]{peek}", 1, 24, "expected a right of a tray (fetch, store, size), found `peek`"),
    ("qual q = tray(integer)", 1, 14, "expected `[`, found `(`"),
    ("qual q = tray[integer]", 1, 23, "expected `{`, found the end of the line"),
    ("qual q = tray[r]{}\nqual r = integer", 1, 15, "expected a qualified type that is declared above, found `r`, which is declared below, in line 2"),
    ("qual q = tray[q]{}", 1, 15, "expected a qualified type that is declared above, found `q`, which this line declares"),
    ("qual q = tray[r]{}", 1, 15, "expected a qualified type that is declared above, found `r`"),
    ("type t (s: r)", 1, 12, "expected a qualified type, found `r`"),
    ("procedure main gives r", 1, 22, "expected a qualified type, found `r`"),
    ("procedure main\n  variable i: r", 2, 15, "expected a qualified type, found `r`"),
    ("qual q = integer\nqual r = q{}", 2, 10, "expected a declared type, found `q`, a qualified type"),
    ("qual q = integer\nprocedure main of q", 2, 19, "expected a declared type, found `q`, a qualified type"),
    ("qual q integer", 1, 8, "expected `=`, found `integer`"),
    ("qual q = integer{}", 1, 17, "expected the end of the line, found `{`"),
    ("procedure main\nprocedure main", 2, 11, "found `main`, which is declared in line 1"),
    ("procedure main of call", 1, 19, "expected a declared type, found `call`"),
    ("procedure main gives", 1, 21, "expected a qualified type, found the end of the line"),
    ("procedure main\n  variable i: integer\n  formal j: integer", 3, 3, "expected formals before all other variables"),
    ("procedure main\n  return\n  variable i: integer", 3, 3, "expected variables before the instructions"),
    ("procedure main\n  variable i, i: integer", 2, 15, "found `i`, which is declared in line 2"),
    ("procedure main\n  variable i integer", 2, 14, "expected `:`, found `integer`"),
    ("procedure main\n  set i := 1", 2, 7, "expected a variable of `main`, found `i`"),
    ("procedure main\n  variable i: integer\n  set i = 1", 3, 9, "expected `:=`, found `=`"),
    ("procedure main\n  variable i: integer\n  set i := 65536", 3, 12, "expected a number from 0 to 65535, found `65536`"),
    ("procedure main\n  variable i: integer\n  set i := 0x1g", 3, 12, "expected a number from 0 to 65535, found `0x1g`"),
    ("procedure main\n  variable i: integer\n  add i := i - i", 3, 14, "expected `+`, found `-`"),
    ("procedure main\n  variable i: integer\n  put i i", 3, 9, "expected the end of the line, found `i`"),
    ("procedure main\n  variable i: integer\n  jumpzero i, on", 3, 15, "expected a label of `main`, found `on`"),
    ("procedure main\n  variable i: integer\n  jumpzero i on", 3, 14, "expected `,`, found `on`"),
    ("procedure main\non:\n  return\non: return", 4, 1, "found `on`, which is declared in line 2"),
    ("procedure main\n  return\non:  # the end", 3, 1, "expected an instruction after the label `on`"),
    ("procedure main\n  call sum()", 2, 8, "expected a procedure, found `sum`"),
    ("procedure main\n  call main(", 2, 13, "expected a variable, found the end of the line"),
    ("procedure main\n  variable a, b: integer\n  call p(a)\nprocedure p\n  formal x, y: integer", 3, 8, "expected 2 actuals for `p`, found 1"),
    ("procedure main\n  variable a, b: integer\n  call p(b, a)\nprocedure p\n  formal x, y: integer", 3, 13, "expected none after `b`, the last variable, found `a`"),
    ("procedure main\n  variable a, b, c: integer\n  call p(a, c)\nprocedure p\n  formal x, y: integer", 3, 13, "expected `b`, the variable after `a`, found `c`"),
    ("procedure main\n  variable a: integer\n  getslot a <- a.time", 3, 18, "found `main`, which is of none"),
    ("type t{} (s: integer)\nprocedure main of t\n  variable a: integer\n  setslot a.time <- a", 4, 13, "expected a slot of `t` (s), found `time`"),
    ("type t\nprocedure main of t\n  variable a: integer\n  setslot a.time <- a", 4, 13, "expected a slot of `t` (it has none), found `time`"),
    ("procedure main\n  variable a: integer\n  call p()\nprocedure p\n  formal x: integer", 3, 8, "expected 1 actual for `p`, found 0"),
    ("raw\nXX 1 2", 2, 1, "expected HD, TY, QT, PR, GN, VR, IN or `bytes`, found `XX`"),
    ("raw\nHD 1 0 0", 2, 9, "expected a number from 0 to 255, found the end of the line"),
    ("raw\nHD 1 0 0 256", 2, 10, "expected a number from 0 to 255, found `256`"),
    ("raw\nVR 0 255 1", 2, 10, "expected the end of the line, found `1`"),
    ("raw\nbytes 48 4", 2, 10, "expected a byte as two hexadecimal digits, found `4`"),
    // The edition.
    ("edition", 1, 8, "expected the edition, 1 or 2, found the end of the line"),
    ("# none\n\n edition 3\nprocedure main\n return", 3, 10, "expected the edition, 1 or 2, found `3`"),
    ("edition 0", 1, 9, "expected the edition, 1 or 2, found `0`"),
    ("edition 258", 1, 9, "expected the edition, 1 or 2, found `258`"),
    ("edition two", 1, 9, "expected the edition, 1 or 2, found `two`"),
    ("edition = 2", 1, 9, "expected the edition, 1 or 2, found `=`"),
    ("edition 2 1", 1, 11, "expected the end of the line, found `1`"),
    ("edition 2 type t", 1, 11, "expected the end of the line, found `type`"),
    ("edition 2\nedition 2", 2, 1, "expected one `edition` line, before all others, found a second one"),
    ("edition 1\nprocedure main\n return\n edition 2", 4, 2, "expected one `edition` line, before all others, found a second one"),
    ("type t\nedition 2", 2, 1, "expected one `edition` line, before all others, found it after others"),
    ("procedure main\n return\n edition 1", 3, 2, "expected one `edition` line, before all others, found it after others"),
    ("here: edition 2", 1, 1, "expected a `procedure` line before this one, found none"),
    ("edition: return", 1, 1, "expected a `procedure` line before this one, found none"),
    ("edition 2\nraw", 2, 1, "expected `raw` alone in its line and before all others, found it elsewhere"),
    ("raw\nedition 2", 2, 1, "expected HD, TY, QT, PR, GN, VR, IN or `bytes`, found `edition`"),
    ("edition 1\ntype t{a,b,c,d,e,f,g,h,i,j,k,l,m,n,o,p}", 2, 38, "expected at most 15 named rights, found one more: the text is of edition 1"),
    ("raw\nHD 2 0 0 0\nQT 2 4294967296 255", 3, 6, "expected a number from 0 to 4294967295, found `4294967296`"),
    ("raw\nHD 2 0 0 0\nGN 2", 3, 5, "expected a number from 0 to 4294967295, found the end of the line"),
    ("raw\nHD 1 0 0 0\nQT 2 65536 255", 3, 6, "expected a number from 0 to 65535, found `65536`"),
    ("raw\nHD 3 0 0 0\nGN 2 65536", 3, 6, "expected a number from 0 to 65535, found `65536`"),
    ("raw\nQT 2 65536 255", 2, 6, "expected a number from 0 to 65535, found `65536`"),
    ("raw\nbytes 00\nHD 2 0 0 0\nQT 2 65536 255", 4, 6, "expected a number from 0 to 65535, found `65536`"),
    ("raw\nHD 2 0 0 0\nIN 1 0 255 255 65536", 3, 16, "expected a number from 0 to 65535, found `65536`"),
    // Rights names.
    ("type t{a}\nprocedure main\nprocedure p for ?R >= t{a} for ?R >= t{a}", 3, 28, "expected one rights name for a procedure, found a second `for`"),
    ("type t{a}\nprocedure main\nprocedure p of t for ?R >= t{a}", 3, 18, "expected `for` right after the name of the procedure, found it elsewhere"),
    ("type t{a}\nprocedure main for ?R >= t{}\n return", 2, 16, "expected no `for` on the first procedure, which is main, found one"),
    ("procedure main\nprocedure p for ?R >= t{}", 2, 23, "expected a declared type, found `t`"),
    ("procedure main\nprocedure p for ?R >= integer{}", 2, 23, "expected a declared type, found `integer`"),
    ("qual t = integer\nprocedure main\nprocedure p for ?R >= t{}", 3, 23, "expected a declared type, found `t`, a qualified type"),
    ("type t{a}\nprocedure main\nprocedure p for ?R >= t{b}", 3, 25, "expected a right of `t` (open, a), found `b`"),
    ("type t{a}\nprocedure main\nprocedure p for ?R >= t{a,a}", 3, 27, "expected another right, found `a` again"),
    ("type t{a}\nprocedure main\nprocedure p for ?R >= t{a,open}", 3, 27, "expected a right that `t` names, found `open`"),
    ("type t{a}\nprocedure main\nprocedure p for ?R >= t", 3, 24, "expected `{`, found the end of the line"),
    ("type t{a}\nprocedure main\nprocedure p for t{a}", 3, 17, "expected `?R`, found `t`"),
    ("type t{a}\nprocedure main\nprocedure p for ?R = t{a}", 3, 20, "expected `>=`, found `=`"),
    ("type t{a}\nprocedure main\nprocedure p for ?R >= ?R", 3, 23, "expected the name of a type, found `?R`"),
    ("procedure main\n variable v: ?S", 2, 14, "expected a qualified type, found `?`"),
    ("procedure main\n variable v: ?Rs", 2, 14, "expected a qualified type, found `?`"),
    ("procedure main\n variable v: ?R{}", 2, 16, "expected the end of the line, found `{`"),
    ("qual ?R = integer", 1, 6, "expected the name of a qualified type, found `?R`"),
    ("raw\nGN 2", 2, 5, "expected a number from 0 to 65535, found the end of the line"),
    // The word `raw`.
    ("raw raw", 1, 5, "expected the end of the line after `raw`, which stands alone, found `raw`"),
    ("# raw\n\n raw HD 1 0 0 0\nbytes 00", 3, 6, "expected the end of the line after `raw`, which stands alone, found `HD`"),
    ("raw;\nHD 1 0 0 0", 1, 4, "after `raw`, which stands alone, found `;`"),
    ("raw\nbytes 00\nraw", 3, 1, "expected `raw` alone in its line and before all others, found it elsewhere"),
    ("procedure main\n return\nraw", 3, 1, "expected `raw` alone in its line and before all others, found it elsewhere"),
    ("type t\nraw raw", 2, 1, "expected `raw` alone in its line and before all others, found it elsewhere"),
    ("raw\nbytes GG", 2, 7, "expected a byte as two hexadecimal digits"),
];

/// The error of a text that has one.
fn only_error(text: &str) -> Error {
    let errors = assemble(text).err().unwrap_or_default();
    let [error] = errors.as_slice() else {
        panic!("expected one error of {text:?}, found {errors:?}");
    };
    error.clone()
}

#[test]
fn errors_name_line_and_column_and_what_was_expected() {
    for &(text, line, column, expected) in BAD {
        let error = only_error(text);
        let found = (error.span.line, error.span.start);
        assert_eq!(found, (line, column), "{text:?}: {error}");
        let message = &error.message;
        assert!(message.contains(expected), "{text:?}: {error}");
        assert!(message.starts_with("expected "), "{text:?}: {error}");
        assert!(message.contains(", found "), "{text:?}: {error}");
    }
}

/// Every tray in another is a qualified type of its own, and the base is one.
#[test]
fn trays_in_one_another_are_as_many_as_qualified_types() {
    let deep = |depth: usize| {
        let (before, after) = ("tray[".repeat(depth), "]{}".repeat(depth));
        format!("qual q = {before}integer{after}")
    };
    for depth in [1, 64, 254] {
        let assembled = assemble(&deep(depth)).unwrap_or_else(|errors| panic!("{errors:?}"));
        assert_eq!(assembled.sheet.len(), 6 + 6 * (depth + 1));
    }
    for depth in [255, 10_000, 200_000] {
        let error = only_error(&deep(depth));
        let expected = "expected at most 255 qualified types, found one more";
        assert_eq!(error.message, expected);
    }
}

/// The texts that are cut short or have a character changed are errors or
/// sheets, and nothing else happens.
#[test]
fn no_text_makes_the_assembler_panic() {
    let sheet = generator::showcase::showcase().encode();
    let text = text::disassemble(&sheet);
    for place in 0..text.len() {
        let _ = assemble(&text[..place]);
        for other in [
            "", "{", "}", "[", ",", "\n", "0", "v0", ":", "é", "\u{0}", ".",
        ] {
            let _ = assemble(&format!("{}{other}{}", &text[..place], &text[place + 1..]));
        }
    }
}
