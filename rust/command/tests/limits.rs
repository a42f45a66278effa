//! docs/RULES.md: the limits and the units of memory are those of the program.

mod common;

use common::rules::{between, head_and_sheet, rows, texts, verdict, PAGE};
use common::{status, stderr, stdout, wennathig};

const SORTER: &str = include_str!("../../../samples/sorter.ws");
const SMALLEST: &str = "procedure main\nreturn\n";

/// The task `test` passes an accepted sheet with the lines of this head.
fn holds(head: &str, sheet: &str) {
    let text = format!("# expect: accepted 0 0\n{head}\n{sheet}");
    let output = wennathig(&["test", "-"], text.as_bytes());
    let said = stdout(&output) + &stderr(&output);
    assert_eq!(status(&output), 0, "{said}{text}");
}

/// A number with commas.
fn figure(cell: &str) -> Option<u64> {
    cell.replace(',', "").parse().ok()
}

fn list(count: u64, item: impl Fn(u64) -> String, separator: &str) -> String {
    (0..count).map(item).collect::<Vec<_>>().join(separator)
}

// ---- What a sheet has

/// A main that returns at once, and what stands before it.
fn with_main(before: &str) -> String {
    format!("{before}\n{SMALLEST}")
}

/// A type with more rights or slots than a text can say.
fn raw_type(edition: u64, rights: u64, slots: u64) -> String {
    let bytes = if slots == 0 { " 255" } else { " 0" }.repeat(8);
    let main = "QT 0 0 255\nPR 0 0 0 255 1\nIN 17 255 255 255 0";
    format!("raw\nHD {edition} 1 1 1\nTY {rights} {slots}{bytes}\n{main}")
}

/// A type with so many named rights, in a text of an edition that has at most
/// so many.
fn named_rights(edition: u64, most: u64, count: u64) -> String {
    let rights = list(count, |i| format!("r{i}"), ",");
    match count > most {
        true => raw_type(edition, count, 0),
        false => with_main(&format!("edition {edition}\ntype t{{{rights}}}")),
    }
}

/// A text in which there is so much of what a row of the table limits; None
/// where the row is not about what a text has.
fn text_with(what: &str, count: u64) -> Option<String> {
    declaring(what, count).or_else(|| with_procedure(what, count))
}

/// Where it is outside the procedures.
fn declaring(what: &str, count: u64) -> Option<String> {
    let text = match what {
        "edition" => format!("raw\nHD {count} 0 0 1\nPR 0 0 0 255 1\nIN 17 255 255 255 0"),
        "declared types" => with_main(&list(count, |i| format!("type t{i}"), "\n")),
        "qualified types" => with_main(&list(count, |i| format!("qual q{i} = integer"), "\n")),
        "procedures" => list(count, |i| format!("procedure p{i}\nreturn"), "\n"),
        "named rights of a type, beside open, in edition 1" => named_rights(1, 15, count),
        "named rights of a type, beside open, in edition 2" => named_rights(2, 31, count),
        "slots of a type" if count == 0 => with_main("type t"),
        "slots of a type" if count > 8 => raw_type(1, 0, count),
        "slots of a type" => {
            let slots = list(count, |i| format!("s{i}: integer"), ", ");
            with_main(&format!("type t ({slots})"))
        }
        "arrays inside one another, in a type" => {
            let arrays = list(count, |i| format!("qual q{} = tray[q{i}]{{}}", i + 1), "\n");
            with_main(&format!("qual q0 = integer\n{arrays}"))
        }
        _ => return None,
    };
    Some(text)
}

/// Where it is in a procedure.
fn with_procedure(what: &str, count: u64) -> Option<String> {
    let text = match what {
        "formals of a procedure; main has none" => {
            let formals = list(count, |i| format!("formal f{i}: integer"), "\n");
            format!("{SMALLEST}procedure p\n{formals}\nreturn")
        }
        "rights names of a procedure; main has none" if count > 1 => {
            let names = "GN 2 0\n".repeat(count as usize);
            let (slots, end) = (" 255".repeat(8), "IN 17 255 255 255 0\n");
            let head = "PR 0 0 0 255 1\n";
            format!("raw\nHD 1 1 0 2\nTY 0 0{slots}\n{head}{end}{head}{names}{end}")
        }
        "rights names of a procedure; main has none" => {
            let name = ["", " for ?R >= call{}"][count as usize];
            format!("type call\n{SMALLEST}procedure p{name}\nreturn")
        }
        "variables of a procedure, formals among them" => {
            let variables = list(count, |i| format!("variable v{i}: integer"), "\n");
            format!("procedure main\n{variables}\nreturn")
        }
        "instructions of a procedure, the last a return" if count == 0 => {
            String::from("procedure main\n")
        }
        "instructions of a procedure, the last a return" => procedure("main", "", count),
        "the number k in `set a := k`" => {
            format!("procedure main\nvariable a: integer\nset a := {count}\nreturn")
        }
        _ => return None,
    };
    Some(text)
}

/// A procedure of so many instructions, the last a return.
fn procedure(name: &str, variables: &str, instructions: u64) -> String {
    let calls = list(instructions - 1, |_| format!("call {name}()\n"), "");
    format!("procedure {name}\n{variables}{calls}return\n")
}

/// The bytes that a text assembles to.
fn assembled(text: &str) -> Vec<u8> {
    let output = wennathig(&["asm", "-", "-o", "-"], text.as_bytes());
    assert_eq!(status(&output), 0, "{}", stderr(&output));
    output.stdout
}

/// Outside its limits a text is refused with the number that the row names, at
/// a record of the mark that it names; or it has an error.
fn refused_outside(text: &str, outside: &str) {
    let said = verdict(text);
    let Some((number, mark)) = outside.split_once(", at ") else {
        assert!(outside.starts_with("an error in the text"), "{outside}");
        assert_eq!(said, "error", "{text}");
        return;
    };
    let place = said.strip_prefix(&format!("refused {number} "));
    let place: usize = place.expect(&said).parse().expect(&said);
    let found = &assembled(text)[place..][..2];
    assert_eq!(found, &mark.as_bytes()[..2], "{outside}");
}

#[test]
fn what_a_sheet_has_is_limited_as_the_table_says() {
    let mut tried = 0;
    for row in rows(between(PAGE, "<!-- limits -->\n", "<!-- /limits -->")) {
        let [what, from, to, outside] = row[..] else {
            panic!("{row:?}")
        };
        if text_with(what, 0).is_none() {
            continue;
        }
        tried += 1;
        let [from, to] = [from, to].map(|cell| figure(cell).expect(what));
        let within = |count| text_with(what, count).expect(what);
        for count in [from, to] {
            assert_eq!(verdict(&within(count)), "accepted 0 0", "{what}: {count}");
        }
        refused_outside(&within(to + 1), outside);
        if from > 0 {
            refused_outside(&within(from - 1), outside);
        }
    }
    assert_eq!(tried, 13, "rows of which texts can have more and less");
}

/// The limits of a row by the beginning of its first cell.
fn limits(what: &str) -> (u64, u64, &'static str) {
    let rows = rows(between(PAGE, "<!-- limits -->\n", "<!-- /limits -->"));
    let row = rows.iter().find(|row| row[0].starts_with(what));
    let row = row.expect(what);
    let last = row[2].rsplit(' ').next().unwrap_or_default();
    let [from, to] = [row[1], last].map(|cell| figure(cell).expect(what));
    (from, to, row[3])
}

/// What `check` says of bytes.
fn checked(bytes: &[u8]) -> String {
    stdout(&wennathig(&["check", "--bytes", "-"], bytes))
}

#[test]
fn the_shortest_and_the_longest_sheet() {
    let (shortest, longest, outside) = limits("bytes of a sheet");
    let bytes = assembled(SMALLEST);
    assert_eq!(bytes.len() as u64, shortest);
    assert!(checked(&bytes[1..]).starts_with("refused "));
    // 16 bytes for header, type and variable, 8 for each head and instruction
    let rest = (longest - 16) / 8 - 5;
    let mut text = procedure("a", "variable v: integer\n", rest - 4 * 1000);
    for name in ["b", "c", "d", "e"] {
        text += &procedure(name, "", 1000);
    }
    let mut bytes = assembled(&text);
    assert_eq!(bytes.len() as u64, longest);
    assert_eq!(checked(&bytes), "accepted 0 0\n");
    bytes.push(0);
    assert!(checked(&bytes).starts_with("refused 1 0\n"));
    assert!(outside.starts_with("1;"));
}

// ---- What a run has

#[test]
fn what_a_run_is_lent_is_limited_as_the_table_says() {
    let ends = |lent: &str, words: u64, stop: &str| {
        holds(&format!("# {lent}: {words}\n# stop: {stop}"), SMALLEST);
    };
    let (_, most, outside) = limits("words of memory lent");
    ends("memory", 0, "17 bench full");
    ends("memory", most, "11 done");
    ends("memory", most + 1, &format!("{outside} big bench"));
    let (least, most, _) = limits("words of output");
    ends("report", least, "11 done");
    ends("report", most, "11 done");
    let more = (most + 1).to_string();
    let refused = wennathig(&["run", "-", "--report", &more], SMALLEST.as_bytes());
    assert_eq!(status(&refused), 2);
    let (least, most, outside) = limits("fuel");
    assert_eq!(most, u64::MAX);
    ends("fuel", least, &format!("{outside} fuel spent"));
    ends("fuel", most, "11 done");
}

#[test]
fn what_a_run_can_make_is_limited_as_the_table_says() {
    let (least, most, _) = limits("size of an array");
    let ends = |size: u64, stop: &str| {
        let sheet = format!(
            "procedure main\nvariable n: integer\nvariable t: tray[integer]{{}}\nset n := {size}\n\
             newtray t[n]\nreturn\n"
        );
        holds(&format!("# stop: {stop}"), &sheet);
    };
    ends(least, "11 done");
    ends(most, "11 done");
    ends(most + 1, "17 bench full");
    // Each step opens a frame beside the first.
    let (_, most, _) = limits("frames at one time");
    let calls = procedure("main", "", 2);
    let fuel = most - 1;
    holds(&format!("# fuel: {fuel}\n# stop: 12 fuel spent"), &calls);
    holds(&format!("# fuel: {most}\n# stop: 17 bench full"), &calls);
    let (least, most, _) = limits("an integer");
    let sheet = "procedure main\nvariable n, one: integer\nset n := 0\nset one := 1\n\
                 subtract n := n - one\nput n\nadd n := n + one\nput n\nreturn\n";
    holds(&format!("# put: {most} {least}\n# stop: 11 done"), sheet);
}

// ---- Memory

#[test]
fn the_first_example_needs_the_memory_that_is_counted_for_it() {
    let example = texts(between(PAGE, "\n## What a sheet is\n", "\n## "))[0];
    let sheet = head_and_sheet(example).1.join("\n");
    let mut next = 0;
    for row in rows(between(PAGE, "<!-- memory -->\n", "<!-- /memory -->")) {
        let [words, stop, at] = row[..] else {
            panic!("{row:?}")
        };
        let (from, to) = words.split_once(" to ").unwrap_or((words, words));
        let [from, to] = [from, to].map(|cell| figure(cell).expect(words));
        assert_eq!(from, next, "every number of words has a row");
        let put = if stop == "11 done" { "7" } else { "" };
        let at = at.trim_matches('`');
        for memory in from..=to {
            let head = format!("# memory: {memory}\n# put: {put}\n# stop: {stop}\n# at: {at}");
            holds(&head, &sheet);
        }
        next = to + 1;
    }
    assert!(PAGE.contains(&format!("So it needs {} words.", next - 1)));
}

#[test]
fn the_units_counted_step_by_step_are_those_at_which_memory_lacks() {
    let part = between(PAGE, "**The example of the first part**", "So it needs ");
    let sum = |cell: &str| {
        let terms = cell.split(" + ").map(|term| figure(term).expect(cell));
        terms.sum::<u64>()
    };
    let rows = rows(part);
    for row in &rows {
        assert_eq!(sum(row[1]) + sum(row[2]), sum(row[3]), "{row:?}");
    }
    let most = rows.iter().map(|row| sum(row[3])).max();
    assert!(PAGE.contains(&format!("So it needs {} words.", most.expect("rows"))));
}

#[test]
fn the_sorter_needs_26_words_and_3_for_each_call() {
    assert!(PAGE.contains("26 + 3n words; its five calls need 41:"));
    let sheet = head_and_sheet(SORTER).1.join("\n");
    for calls in 2..8 {
        let lengths = list(calls, |i| (9 - i).to_string(), " ");
        let sorted = list(calls, |i| (10 - calls + i).to_string(), " ");
        let ends = |memory: u64, put: &str, stop: &str| {
            let reads = format!("# reads: {calls} {lengths}");
            let head = format!("{reads}\n# memory: {memory}\n# put: {put}\n# stop: {stop}");
            holds(&head, &sheet);
        };
        ends(26 + 3 * calls, &sorted, "11 done");
        ends(26 + 3 * calls - 1, "", "17 bench full");
    }
}
