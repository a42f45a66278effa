//! Texts of three hundred thousand things. What is looked up by going through all of them
//! would take minutes here.

use text::{assemble, Assembled, Error};

const MANY: usize = 300_000;

/// So many numbered pieces, one after the other.
fn numbered(count: usize, piece: impl Fn(usize) -> String) -> String {
    (0..count).map(piece).collect()
}

fn sheet(text: &str) -> Assembled {
    assemble(text).unwrap_or_else(|errors| panic!("{:?}", &errors[..errors.len().min(3)]))
}

/// The text has one error, with this message and at this line.
fn one_error(text: &str, message: &str, line: usize) {
    let errors: Vec<Error> = assemble(text).err().unwrap_or_default();
    let found: Vec<String> = errors.iter().map(Error::to_string).collect();
    assert_eq!(errors.len(), 1, "{found:?}");
    assert_eq!(
        (errors[0].message.as_str(), errors[0].span.line),
        (message, line)
    );
}

fn too_many(most: usize, what: &str) -> String {
    format!("expected at most {most} {what}, found one more")
}

#[test]
fn declarations() {
    let used = "procedure main\n variable v: t299999{}\n variable w: tray[t7{}]{}\n return";
    let types = numbered(MANY, |n| format!("type t{n}\n"));
    one_error(&format!("{types}{used}"), &too_many(253, "types"), 254);
    let quals = numbered(MANY, |n| format!("qual t{n} = integer\n"));
    let used = "procedure main\n variable v: t299999\n variable w: t0\n return";
    one_error(
        &format!("{quals}{used}"),
        &too_many(255, "qualified types"),
        256,
    );
    let copies = numbered(MANY, |n| format!("qual t{} = t{n}\n", n + 1));
    let copies = format!("qual t0 = integer\n{copies}");
    one_error(&copies, &too_many(255, "qualified types"), 256);
    let deeper = numbered(MANY, |n| format!("qual t{} = tray[t{n}]{{}}\n", n + 1));
    let deeper = format!("qual t0 = integer\n{deeper}");
    one_error(&deeper, &too_many(255, "qualified types"), 256);
    let procedures = numbered(MANY, |n| format!("procedure p{n}\n"));
    let called = " call p7()\n call p299999()\n return";
    let message = too_many(255, "procedures");
    one_error(&format!("{procedures}{called}"), &message, 256);
}

#[test]
fn variables() {
    let line = |kind| numbered(MANY, move |n| format!(" {kind} v{n}: integer\n"));
    let uses = numbered(MANY, |n| format!(" put v{n}\n"));
    let text = format!("procedure main\n{}{uses}", line("variable"));
    // The instructions are too many as well.
    let errors = assemble(&text).err().unwrap_or_default();
    let messages: Vec<&str> = errors.iter().map(|error| error.message.as_str()).collect();
    let expected = [too_many(255, "variables"), too_many(65_535, "instructions")];
    assert_eq!(messages, expected);
    let text = format!("procedure main\n{}", line("formal"));
    one_error(&text, &too_many(255, "variables"), 257);
    // Names in one line, with a type that is long itself.
    let names = numbered(MANY, |n| format!("v{n},"));
    let (before, after) = ("tray[".repeat(300), "]{}".repeat(300));
    let text = format!("procedure main\n formal {names}w: {before}integer{after}");
    let errors = assemble(&text).err().unwrap_or_default();
    assert_eq!(errors.len(), 2);
    let text = format!("procedure main\n call p({names}w)\nprocedure p\n formal {names}w: integer");
    let errors = assemble(&text).err().unwrap_or_default();
    assert_eq!(errors.len(), 2);
}

#[test]
fn labels() {
    const LAST: usize = 65_535;
    let head = "procedure main\n variable i: integer\n";
    let jumps = numbered(LAST - 1, |n| {
        format!("l{n}: jumpzero i, l{}\n", LAST - 2 - n)
    });
    let assembled = sheet(&format!("{head}{jumps} return"));
    assert_eq!(assembled.sheet.len(), 6 + 6 + 8 + 4 + 8 * LAST);
    // Many labels on one instruction, in lines and in one line.
    for end in ["\n", " "] {
        let labels = numbered(MANY, |n| format!("l{n}:{end}"));
        let jumps = numbered(LAST - 1, |n| format!("jumpzero i, l{}\n", MANY - 1 - n));
        let assembled = sheet(&format!("{head}{labels} return\n{jumps}"));
        assert_eq!(assembled.sheet.len(), 6 + 6 + 8 + 4 + 8 * LAST);
    }
}

#[test]
fn instructions() {
    let text = |count| format!("procedure main\n{}", "return\n".repeat(count));
    assert_eq!(sheet(&text(65_535)).sheet.len(), 6 + 8 + 8 * 65_535);
    for count in [65_536, MANY] {
        let message = too_many(65_535, "instructions");
        one_error(&text(count), &message, 65_537);
    }
}

#[test]
fn lists_in_one_line() {
    let names = numbered(MANY, |n| format!("r{n},"));
    one_error(
        &format!("edition 2\ntype t{{{names}r}}"),
        &too_many(31, "named rights"),
        2,
    );
    let slots = numbered(MANY, |n| format!("s{n}: integer,"));
    one_error(
        &format!("type t (s: integer,{slots} z: integer)"),
        &too_many(8, "slots"),
        1,
    );
    let same = "a,".repeat(MANY);
    let message = "expected another right, found `a` again";
    one_error(&format!("type t{{a}}\nqual q = t{{{same}a}}"), message, 2);
    let message = "expected another right, found `size` again";
    let sizes = "size,".repeat(MANY);
    one_error(
        &format!("qual q = tray[integer]{{{sizes}size}}"),
        message,
        1,
    );
    let message = "expected 0 actuals for `main`, found 300001";
    one_error(&format!("procedure main\n call main({same}a)"), message, 2);
    let (before, after) = ("tray[".repeat(MANY), "]{}".repeat(MANY));
    let deep = format!("qual q = {before}integer{after}");
    one_error(&deep, &too_many(255, "qualified types"), 1);
    assert_eq!(assemble(&before).err().map(|errors| errors.len()), Some(1));
    let word = "a".repeat(5 * MANY);
    for text in [
        &word,
        &format!("qual {word} = {word}"),
        &" ".repeat(5 * MANY),
        &"$".repeat(MANY),
    ] {
        let errors = assemble(text).err().unwrap_or_default();
        assert!(errors.len() <= 1);
        assert!(errors.iter().all(|error| error.message.len() < 300));
    }
}

#[test]
fn raw_texts() {
    let records = "VR 0 255\n".repeat(MANY);
    assert_eq!(sheet(&format!("raw\n{records}")).sheet.len(), 4 * MANY);
    let bytes = " 4F".repeat(MANY);
    assert_eq!(sheet(&format!("raw\nbytes{bytes}")).sheet.len(), MANY);
    let lines = "bytes 00\n".repeat(MANY);
    assert_eq!(sheet(&format!("raw\n{lines}")).sheet.len(), MANY);
    let blank = "\n".repeat(5 * MANY);
    assert_eq!(sheet(&format!("{blank}raw")).sheet.len(), 0);
}
