//! Why sheets are refused: what is marked in the record, and what is said.

mod common;

use common::{status, stdout, wennathig};
use generator::accepted::accepted;
use generator::breach::Flaw;
use generator::damage::{damaged, random_bytes};
use generator::handwritten::cases;
use generator::Random;
use reference::Verdict;

/// What `check` says of a refused sheet.
struct Said {
    first: String,
    marked: String,
    lines: Vec<String>,
}

/// Takes the output apart: the verdict, the number's word, the place, the
/// record with its carets, and the lines after it.
fn said(sheet: &[u8]) -> Said {
    let output = wennathig(&["check", "-"], sheet);
    let printed = stdout(&output);
    assert_eq!(status(&output), 1, "{printed}");
    let mut lines = printed.lines().map(String::from);
    let first = lines.next().unwrap_or_default();
    let mut rest: Vec<String> = lines.skip(1).collect();
    let mut marked = String::new();
    if rest.first().is_some_and(|line| !line.starts_with(' ')) {
        rest.remove(0);
        if rest.first().is_some_and(|line| line.starts_with("    ")) {
            let (record, carets) = (rest.remove(0), rest.remove(0));
            let under = record
                .chars()
                .zip(carets.chars().chain(std::iter::repeat(' ')));
            marked = under
                .map(|(shown, caret)| if caret == '^' { shown } else { ' ' })
                .collect();
        }
    }
    let words: Vec<&str> = marked.split_whitespace().collect();
    Said {
        first,
        marked: words.join(" "),
        lines: rest.iter().map(|line| String::from(line.trim())).collect(),
    }
}

const TYPES: &str = "
type call{read,amend} (length: integer, next: call{read}, list: tray[call{read}]{fetch}, log: tray[call{read}]{store})
type horse{read,amend}
";

const VARIABLES: &str = "
    variable n: integer
    variable none: call{}
    variable reads: call{read}
    variable both: call{read,amend}
    variable horse: horse{read}
    variable calls: tray[call{read}]{fetch,store,size}
    variable boths: tray[call{read,amend}]{fetch,store,size}
    variable stored: tray[call{read}]{store}
    variable fetched: tray[call{read}]{fetch}
    variable nones: tray[call{}]{fetch,store,size}
    variable rows: tray[tray[call{read}]{fetch,store}]{store}
";

const OTHERS: &str = "
procedure nothing
    return
procedure needs_one
    formal given: call{read}
    return
procedure needs_two
    formal first: call{read,amend}
    formal second: horse{read,amend}
    return
procedure reads_all
    formal given: tray[call{read}]{fetch}
    return
procedure stores_all
    formal given: tray[call{read}]{store}
    return
procedure gives_read gives call{read}
    variable own: call{read}
    return own
procedure gives_calls gives tray[call{read}]{fetch,store}
    variable own: tray[call{read}]{fetch,store}
    return own
";

/// A line in a main that has the variables above.
fn in_main(line: &str) -> String {
    format!("{TYPES}procedure main\n{VARIABLES}\n    {line}\n    return\n{OTHERS}")
}

/// A value of the one type bound to a variable of the other.
fn bound(needs: &str, has: &str) -> String {
    let variables = format!("    variable needs: {needs}\n    variable has: {has}");
    format!("{TYPES}procedure main\n{variables}\n    bind needs <- has\n    return\n")
}

/// A line in a procedure of the type call, with two more variables.
fn in_module(line: &str) -> String {
    let own = "    variable open: call{open}\n    variable closed: call{read}";
    format!("{TYPES}procedure main\n    return\n{OTHERS}\nprocedure inside of call\n{VARIABLES}\n{own}\n    {line}\n    return\n")
}

/// A procedure that returns the variable, or nothing.
fn returning(result: &str, variable: &str) -> String {
    format!("{TYPES}procedure main\n    return\n{OTHERS}\nprocedure back{result}\n{VARIABLES}\n    return {variable}\n")
}

/// The whole of a procedure after main.
fn procedure(text: &str) -> String {
    format!("{TYPES}procedure main\n    return\n{text}\n    return\n")
}

struct Case {
    text: String,
    number: u8,
    marked: &'static str,
    lines: &'static [&'static str],
}

fn case(text: String, number: u8, marked: &'static str, lines: &'static [&'static str]) -> Case {
    Case {
        text,
        number,
        marked,
        lines,
    }
}

#[rustfmt::skip]
fn movements() -> Vec<Case> {
    vec![
        case(in_main("bind n <- calls"), 8, "calls", &["needs integer                             (n)", "has   tray[call{read}]{fetch,store,size}  (calls)", "needs integer, has tray"]),
        case(in_main("bind both <- reads"), 9, "reads", &["needs call{read,amend}  (both)", "has   call{read}        (reads)", "needs amend, has read"]),
        case(in_main("bind both <- none"), 9, "none", &["needs call{read,amend}  (both)", "has   call{}            (none)", "needs read,amend, has no right"]),
        case(in_main("fetch horse <- calls[n]"), 8, "calls", &["needs horse{read}  (horse)", "has   call{read}   (an element of calls)", "needs horse, has call"]),
        case(in_main("fetch both <- calls[n]"), 9, "calls", &["needs call{read,amend}  (both)", "has   call{read}        (an element of calls)", "needs amend, has read"]),
        case(in_main("store calls[n] <- horse"), 8, "horse", &["needs call{read}   (an element of calls)", "has   horse{read}  (horse)", "needs call, has horse"]),
        case(in_main("store boths[n] <- reads"), 9, "reads", &["needs call{read,amend}  (an element of boths)", "has   call{read}        (reads)", "needs amend, has read"]),
        case(in_module("getslot n <- open.next"), 8, "next", &["needs integer     (n)", "has   call{read}  (open.next)", "needs integer, has call"]),
        case(in_module("getslot both <- open.next"), 9, "next", &["needs call{read,amend}  (both)", "has   call{read}        (open.next)", "needs amend, has read"]),
        case(in_module("setslot open.next <- none"), 9, "none", &["needs call{read}  (open.next)", "has   call{}      (none)", "needs read, has no right"]),
        case(in_main("call needs_one(horse)"), 8, "horse", &["needs call{read}   (what needs_one needs as given)", "has   horse{read}  (horse)", "needs call, has horse"]),
        case(in_main("call needs_two(both, horse)"), 9, "horse", &["needs horse{read,amend}  (what needs_two needs as second)", "has   horse{read}        (horse)", "needs amend, has read"]),
        case(in_main("call horse <- gives_read()"), 8, "gives_read", &["needs horse{read}  (horse)", "has   call{read}   (the result of gives_read)", "needs horse, has call"]),
        case(in_main("call calls <- gives_calls()"), 9, "gives_calls", &["needs tray[call{read}]{fetch,store,size}  (calls)", "has   tray[call{read}]{fetch,store}       (the result of gives_calls)", "needs size, has fetch,store"]),
        case(returning(" gives call{read}", "horse"), 8, "horse", &["needs call{read}   (the result of back)", "has   horse{read}  (horse)", "needs call, has horse"]),
        case(returning(" gives call{amend}", "reads"), 9, "reads", &["needs call{amend}  (the result of back)", "has   call{read}   (reads)", "needs amend, has read"]),
    ]
}

/// The elements of trays, by what decides: the store of the destination, a
/// right or the base of the elements.
#[rustfmt::skip]
fn elements() -> Vec<Case> {
    let rows = |rights: [&str; 3], call: &str| format!("tray[tray[tray[call{{{call}}}]{{{}}}]{{{}}}]{{{}}}", rights[2], rights[1], rights[0]);
    let deep = |needs: [&str; 3], has: &str| bound(&rows(needs, "read"), &rows(["fetch,store"; 3], has));
    vec![
        case(in_main("bind calls <- boths"), 8, "boths", &["needs tray[call{read}]{fetch,store,size}        (calls)", "has   tray[call{read,amend}]{fetch,store,size}  (boths)", "calls has store, so the elements must be equal: needs call{read}, has call{read,amend}"]),
        case(in_main("bind boths <- calls"), 8, "calls", &["needs tray[call{read,amend}]{fetch,store,size}  (boths)", "has   tray[call{read}]{fetch,store,size}        (calls)", "boths has store, so the elements must be equal: needs call{read,amend}, has call{read}"]),
        case(in_main("bind stored <- boths"), 8, "boths", &["needs tray[call{read}]{store}                   (stored)", "has   tray[call{read,amend}]{fetch,store,size}  (boths)", "stored has store, so the elements must be equal: needs call{read}, has call{read,amend}"]),
        case(in_main("call stores_all(boths)"), 8, "boths", &["needs tray[call{read}]{store}                   (what stores_all needs as given)", "has   tray[call{read,amend}]{fetch,store,size}  (boths)", "what stores_all needs as given has store, so the elements must be equal: needs call{read}, has call{read,amend}"]),
        case(in_module("setslot open.log <- boths"), 8, "boths", &["needs tray[call{read}]{store}                   (open.log)", "has   tray[call{read,amend}]{fetch,store,size}  (boths)", "open.log has store, so the elements must be equal: needs call{read}, has call{read,amend}"]),
        case(in_main("store rows[n] <- boths"), 8, "boths", &["needs tray[call{read}]{fetch,store}             (an element of rows)", "has   tray[call{read,amend}]{fetch,store,size}  (boths)", "an element of rows has store, so the elements must be equal: needs call{read}, has call{read,amend}"]),
        case(returning(" gives tray[call{read}]{store}", "boths"), 8, "boths", &["needs tray[call{read}]{store}                   (the result of back)", "has   tray[call{read,amend}]{fetch,store,size}  (boths)", "the result of back has store, so the elements must be equal: needs call{read}, has call{read,amend}"]),
        case(deep(["store", "fetch,store", "fetch,store"], "read,amend"), 8, "has", &["needs tray[tray[tray[call{read}]{fetch,store}]{fetch,store}]{store}              (needs)", "has   tray[tray[tray[call{read,amend}]{fetch,store}]{fetch,store}]{fetch,store}  (has)", "needs has store, so the elements must be equal: 3 levels down, needs call{read}, has call{read,amend}"]),
        case(deep(["fetch,store", "fetch,store", "fetch"], "read"), 8, "has", &["needs tray[tray[tray[call{read}]{fetch}]{fetch,store}]{fetch,store}        (needs)", "has   tray[tray[tray[call{read}]{fetch,store}]{fetch,store}]{fetch,store}  (has)", "needs has store, so the elements must be equal: 2 levels down, needs tray[call{read}]{fetch}, has tray[call{read}]{fetch,store}"]),
        case(deep(["fetch", "store", "fetch,store"], "read,amend"), 8, "has", &["needs tray[tray[tray[call{read}]{fetch,store}]{store}]{fetch}                    (needs)", "has   tray[tray[tray[call{read,amend}]{fetch,store}]{fetch,store}]{fetch,store}  (has)", "needs has store 1 level down, so the elements below must be equal: 3 levels down, needs call{read}, has call{read,amend}"]),
        case(deep(["fetch", "store", "fetch"], "read"), 8, "has", &["needs tray[tray[tray[call{read}]{fetch}]{store}]{fetch}                    (needs)", "has   tray[tray[tray[call{read}]{fetch,store}]{fetch,store}]{fetch,store}  (has)", "needs has store 1 level down, so the elements below must be equal: 2 levels down, needs tray[call{read}]{fetch}, has tray[call{read}]{fetch,store}"]),
        case(deep(["fetch", "fetch", "store"], "read,amend"), 8, "has", &["needs tray[tray[tray[call{read}]{store}]{fetch}]{fetch}                          (needs)", "has   tray[tray[tray[call{read,amend}]{fetch,store}]{fetch,store}]{fetch,store}  (has)", "needs has store 2 levels down, so the elements below must be equal: 3 levels down, needs call{read}, has call{read,amend}"]),
        case(in_main("call reads_all(nones)"), 8, "nones", &["needs tray[call{read}]{fetch}         (what reads_all needs as given)", "has   tray[call{}]{fetch,store,size}  (nones)", "the elements lack read: needs call{read}, has call{}"]),
        case(in_module("setslot open.list <- nones"), 8, "nones", &["needs tray[call{read}]{fetch}         (open.list)", "has   tray[call{}]{fetch,store,size}  (nones)", "the elements lack read: needs call{read}, has call{}"]),
        case(bound("tray[call{read,amend}]{size}", "tray[call{}]{}"), 8, "has", &["needs tray[call{read,amend}]{size}  (needs)", "has   tray[call{}]{}                (has)", "the elements lack read,amend: needs call{read,amend}, has call{}"]),
        case(deep(["fetch", "fetch", "fetch"], "amend"), 8, "has", &["needs tray[tray[tray[call{read}]{fetch}]{fetch}]{fetch}                     (needs)", "has   tray[tray[tray[call{amend}]{fetch,store}]{fetch,store}]{fetch,store}  (has)", "the elements lack read: 3 levels down, needs call{read}, has call{amend}"]),
        case(deep(["size", "size", "size"], "read"), 8, "has", &["needs tray[tray[tray[call{read}]{size}]{size}]{size}                       (needs)", "has   tray[tray[tray[call{read}]{fetch,store}]{fetch,store}]{fetch,store}  (has)", "the elements lack size: 2 levels down, needs tray[call{read}]{size}, has tray[call{read}]{fetch,store}"]),
        case(deep(["fetch", "size", "store"], "read"), 8, "has", &["needs tray[tray[tray[call{read}]{store}]{size}]{fetch}                     (needs)", "has   tray[tray[tray[call{read}]{fetch,store}]{fetch,store}]{fetch,store}  (has)", "the elements lack size: needs tray[tray[call{read}]{store}]{size}, has tray[tray[call{read}]{fetch,store}]{fetch,store}"]),
        case(bound("tray[horse{}]{fetch}", "tray[call{}]{fetch}"), 8, "has", &["needs tray[horse{}]{fetch}  (needs)", "has   tray[call{}]{fetch}   (has)", "the elements have another base: needs horse, has call"]),
        case(bound("tray[tray[integer]{fetch}]{fetch}", "tray[tray[tray[integer]{fetch}]{fetch}]{fetch}"), 8, "has", &["needs tray[tray[integer]{fetch}]{fetch}               (needs)", "has   tray[tray[tray[integer]{fetch}]{fetch}]{fetch}  (has)", "the elements have another base: 2 levels down, needs integer, has tray"]),
        // With a right lacking at the top too, the elements are told, and with the elements in order the right.
        case(bound("tray[call{read}]{fetch,store}", "tray[call{read,amend}]{fetch}"), 8, "has", &["needs tray[call{read}]{fetch,store}  (needs)", "has   tray[call{read,amend}]{fetch}  (has)", "needs has store, so the elements must be equal: needs call{read}, has call{read,amend}"]),
        case(bound("tray[call{read}]{fetch,size}", "tray[call{read,amend}]{fetch}"), 9, "has", &["needs tray[call{read}]{fetch,size}   (needs)", "has   tray[call{read,amend}]{fetch}  (has)", "needs size, has fetch"]),
        // What is fetched has the rights of the element that its tray's variable declares.
        case(in_main("fetch both <- fetched[n]"), 9, "fetched", &["needs call{read,amend}  (both)", "has   call{read}        (an element of fetched)", "needs amend, has read"]),
    ]
}

#[rustfmt::skip]
fn operands() -> Vec<Case> {
    const CALLS: &str = "has   tray[call{read}]{fetch,store,size}  (calls)";
    vec![
        case(in_main("set calls := 1"), 8, "calls", &["needs integer", CALLS]),
        case(in_main("add n := calls + n"), 8, "calls", &["needs integer", CALLS]),
        case(in_main("less n := n < calls"), 8, "calls", &["needs integer", CALLS]),
        case(in_main("put calls"), 8, "calls", &["needs integer", CALLS]),
        case(in_main("newtray n[n]"), 8, "n", &["needs tray[..]{..}", "has   integer  (n)"]),
        case(in_main("fetch reads <- both[n]"), 8, "both", &["needs tray[..]{..}", "has   call{read,amend}  (both)"]),
        case(in_main("store calls[horse] <- reads"), 8, "horse", &["needs integer", "has   horse{read}  (horse)"]),
        case(in_main("add calls := calls + n"), 8, "calls calls", &["needs integer", CALLS]),
        case(in_main("size calls <- calls"), 8, "calls", &["needs integer", CALLS]),
        case(in_module("newrecord horse"), 8, "horse", &["needs call{..}, the type that the procedure is of", "has   horse{read}  (horse)"]),
        case(in_module("getslot n <- horse.length"), 8, "horse", &["needs call{..}, the type that the procedure is of", "has   horse{read}  (horse)"]),
        case(in_main("fetch reads <- stored[n]"), 9, "stored", &["needs tray[call{read}]{fetch}", "has   tray[call{read}]{store}  (stored)", "needs fetch, has store"]),
        case(in_main("store fetched[n] <- reads"), 9, "fetched", &["needs tray[call{read}]{store}", "has   tray[call{read}]{fetch}  (fetched)", "needs store, has fetch"]),
        case(in_main("size n <- fetched"), 9, "fetched", &["needs tray[call{read}]{size}", "has   tray[call{read}]{fetch}  (fetched)", "needs size, has fetch"]),
        case(in_module("getslot n <- closed.length"), 9, "closed", &["needs call{open}", "has   call{read}  (closed)", "needs open, has read"]),
        case(in_module("setslot closed.length <- n"), 9, "closed", &["needs call{open}", "has   call{read}  (closed)", "needs open, has read"]),
        case(in_main("call n <- nothing()"), 8, "n", &["`nothing` gives nothing: needs a call that keeps no result, keeps one"]),
        case(returning(" gives call{read}", ""), 8, "return", &["`back` gives call{read}: needs a variable to return, has none"]),
        case(returning("", "n"), 8, "n", &["`back` gives nothing: needs a return without a variable, has one"]),
    ]
}

const OPEN_IN: &str = "only inside, in a variable of a procedure that is of the same type";

const EQUAL: &str = "a formal may be more inside than it needs only if it is of the procedure's own type: the two must be equal";

#[rustfmt::skip]
fn records() -> Vec<Case> {
    vec![
        case(String::from("type call{} (own: call{open})\nprocedure main\n return"), 6, "call{open}", &["has call{open}", "open may not stand in a slot"]),
        case(String::from("type call{}\nqual q = tray[call{open}]{fetch}\nprocedure main\n return"), 6, "call{open}", &["has call{open}", "open may not stand in an element"]),
        case(procedure("procedure p of call gives call{open}\n  variable own: call{open}\n return own"), 6, "call{open}", &["has call{open}", "open may not stand in a result"]),
        case(procedure("procedure p of call\n  formal own: call{open}"), 6, "call{open}", &["has call{open}", "open may not stand in what a formal needs"]),
        case(procedure("procedure p of horse\n  variable other: call{open,read}"), 6, "call{open,read}", &["has call{open,read}", "open may not stand in a variable outside the module of its type"]),
        case(procedure("procedure p of horse\n  formal other: call{read} as call{amend}"), 7, "call{read} call{amend}", &["needs  call{read}", "inside call{amend}", EQUAL]),
        case(procedure("procedure p of call\n  formal all: tray[call{read}]{fetch} as tray[call{read}]{fetch,size}"), 7, "tray[call{read}]{fetch} tray[call{read}]{fetch,size}", &["needs  tray[call{read}]{fetch}", "inside tray[call{read}]{fetch,size}", EQUAL]),
        case(procedure("procedure p of call\n  formal all: tray[call{read,amend}]{fetch} as tray[call{read}]{fetch}"), 7, "tray[call{read,amend}]{fetch} tray[call{read}]{fetch}", &["needs  tray[call{read,amend}]{fetch}", "inside tray[call{read}]{fetch}", EQUAL, "they differ 1 level down: needs call{read,amend}, inside call{read}"]),
        case(procedure("procedure p\n  formal all: tray[tray[horse{}]{fetch}]{fetch} as tray[tray[integer]{fetch}]{fetch}"), 7, "tray[tray[horse{}]{fetch}]{fetch} tray[tray[integer]{fetch}]{fetch}", &["needs  tray[tray[horse{}]{fetch}]{fetch}", "inside tray[tray[integer]{fetch}]{fetch}", EQUAL, "they differ 2 levels down: needs horse{}, inside integer"]),
        case(procedure("procedure p of horse\n  formal other: call{read} as horse{open}"), 7, "call{read} horse{open}", &["needs  call{read}", "inside horse{open}", "a formal that is of the procedure's own type inside needs that type"]),
    ]
}

/// A main of one variable that calls a procedure of two formals.
fn two_formals(call: &str) -> String {
    let main = format!("PR 0 0 1 255 2\nVR 0 255\n{call}\nIN 17 255 255 255 0");
    let other = "PR 0 2 2 255 1\nVR 0 0\nVR 0 0\nIN 17 255 255 255 0";
    format!("raw\nHD 1 0 1 2\nQT 0 0 255\n{main}\n{other}")
}

#[rustfmt::skip]
fn layout() -> Vec<Case> {
    let raw = |lines: &str| format!("raw\n{lines}");
    const MAIN: &str = "PR 0 0 0 255 1\nIN 17 255 255 255 0";
    vec![
        case(raw(&format!("bytes{}", " 00".repeat(32_769))), 1, "", &["the sheet has 32,769 bytes, 1 more than there may be"]),
        case(raw("HD 1 0 0 1\nPR 0 0 0 255 1\nbytes 49 4E 11"), 2, "bytes 49 4E 11", &["IN, a record of 8 bytes, is due here, and 3 bytes are left"]),
        case(raw("HD 1 0 0 1\nPR 0 0 0 255 1"), 2, "", &["IN, a record of 8 bytes, is due here, and 0 bytes are left"]),
        case(raw(&format!("HD 1 0 0 1\n{MAIN}\nbytes 00")), 2, "bytes 00", &["1 byte is left over after the last record"]),
        case(raw(&format!("HD 1 0 1 1\n{MAIN}")), 3, "PR 0 0 0 255 1", &["the mark QT is due here, found `PR`"]),
        case(raw("bytes FF 00 00 00 00 00"), 3, "bytes FF 00 00 00 00 00", &["the mark HD is due here, found the bytes FF 00"]),
        case(raw("HD 1 33 0 1"), 5, "33", &["types: 33, it must be from 0 to 32"]),
        case(raw("HD 1 0 0 0"), 5, "0", &["procedures: 0, it must be from 1 to 64"]),
        case(raw(&format!("HD 1 1 0 1\nTY 0 1 0 255 255 255 255 255 255 255\n{MAIN}")), 5, "0", &["slot 0, a qualified type: 0, it must be below 0"]),
        case(raw(&format!("HD 1 0 1 1\nQT 1 16 0\n{MAIN}")), 5, "16", &["rights: 0b0000000000010000, and a tray has the rights 1 fetch, 2 store, 3 size"]),
        case(raw(&format!("HD 1 0 1 1\nQT 1 2 0\n{MAIN}")), 5, "0", &["element, a qualified type before this one: 0, it must be below 0"]),
        case(raw("HD 1 0 0 1\nPR 2 0 0 255 1\nIN 17 255 255 255 0"), 5, "2", &["owner: 2, it must be 0 or a type from 2 to 1"]),
        case(raw("HD 1 0 1 1\nQT 0 0 255\nPR 0 0 1 255 1\nVR 0 0\nIN 17 255 255 255 0"), 5, "0", &["need of a variable that is no formal: 0, it is not used here and must be 255"]),
        case(raw("HD 1 0 0 1\nPR 0 0 0 255 2\nIN 18 255 255 255 0\nIN 17 255 255 255 0"), 5, "18", &["code: 18, it must be from 1 to 17"]),
        case(raw("HD 1 0 0 1\nPR 0 0 0 255 2\nIN 7 3 255 255 0\nIN 17 255 255 255 0"), 5, "3", &["a, a variable: 3, it must be below 0"]),
        case(raw("HD 1 0 0 1\nPR 0 0 0 255 2\nIN 16 255 255 255 9\nIN 17 255 255 255 0"), 5, "9", &["k, a procedure: 9, it must be below 1"]),
        case(raw("HD 1 0 0 1\nPR 0 0 0 255 2\nIN 16 255 4 255 0\nIN 17 255 255 255 0"), 5, "4", &["b: 4, it must be 255, since procedure 0 has no formals"]),
        case(two_formals("IN 16 255 0 255 1"), 5, "0", &["b: 0, so that the actuals are variables 0 to 1, and they must be below 1"]),
        case(two_formals("IN 16 255 255 255 1"), 5, "255", &["b: 255, and procedure 1 has formals: 2"]),
        case(String::from("procedure main\n  variable n: integer\n  set n := 1"), 5, "set", &["the last instruction is a return, found set"]),
        case(String::from("procedure main\n  variable n: integer\n  newrecord n\n  return"), 5, "newrecord", &["newrecord needs a procedure that is of a type"]),
    ]
}

/// A sheet of an edition with a type of so many named rights, the qualified
/// type and, in a second procedure, the rights name.
fn of_edition(edition: u32, named: u32, qualified: &str, name: &str) -> String {
    let quals = u8::from(!qualified.is_empty());
    let (slots, main) = (" 255".repeat(8), "PR 0 0 0 255 1\nIN 17 255 255 255 0");
    let second = format!("PR 0 0 0 255 1\n{name}\nIN 17 255 255 255 0");
    format!("raw\nHD {edition} 1 {quals} 2\nTY {named} 0{slots}\n{qualified}\n{main}\n{second}")
}

#[rustfmt::skip]
fn editions() -> Vec<Case> {
    let header = |lines: &str| format!("raw\nHD {lines}");
    let rights = |edition, count| of_edition(edition, count, "", "");
    let bits = |edition, record| of_edition(edition, 3 + 12 * edition, record, "");
    let least = |edition, record| of_edition(edition, 3 + 12 * edition, "", record);
    let cut = |text: String| String::from(text.trim_end_matches("\nIN 17 255 255 255 0"));
    vec![
        case(header("3 0 0 1"), 4, "3", &["the edition is 3, it must be 1 or 2"]),
        case(header("0 0 0 1\nPR 0 0 0 255 1\nIN 17 255 255 255 0"), 4, "0", &["the edition is 0, it must be 1 or 2"]),
        case(header("255 33 65 0"), 4, "255", &["the edition is 255, it must be 1 or 2"]),
        case(header("2 33 65 0"), 5, "33", &["types: 33, it must be from 0 to 32"]),
        case(rights(1, 16), 5, "16", &["named rights: 16, in edition 1 it must be from 0 to 15; edition 2 allows 31"]),
        case(rights(1, 31), 5, "31", &["named rights: 31, in edition 1 it must be from 0 to 15; edition 2 allows 31"]),
        case(rights(1, 32), 5, "32", &["named rights: 32, in edition 1 it must be from 0 to 15"]),
        case(rights(2, 32), 5, "32", &["named rights: 32, in edition 2 it must be from 0 to 31"]),
        case(rights(2, 255), 5, "255", &["named rights: 255, in edition 2 it must be from 0 to 31"]),
        case(bits(1, "QT 0 32768 255"), 5, "32768", &["rights: 0b1000000000000000, and an integer has no rights"]),
        case(bits(2, "QT 0 32768 255"), 5, "32768", &["rights: 0b00000000000000001000000000000000, and an integer has no rights"]),
        case(bits(2, "QT 0 2147483648 255"), 5, "2147483648", &["rights: 0b10000000000000000000000000000000, and an integer has no rights"]),
        case(bits(2, "QT 1 65536 255"), 5, "65536", &["rights: 0b00000000000000010000000000000000, and a tray has the rights 1 fetch, 2 store, 3 size"]),
        case(bits(2, "QT 255 16777216 255"), 5, "16777216", &["rights: 0b00000001000000000000000000000000, and ?R has its rights from a call"]),
        case(of_edition(1, 14, "QT 2 32768 255", ""), 5, "32768", &["rights: 0b1000000000000000, and type 2 has the rights 0 to 14"]),
        case(of_edition(2, 22, "QT 2 8388608 255", ""), 5, "8388608", &["rights: 0b00000000100000000000000000000000, and type 2 has the rights 0 to 22"]),
        case(bits(2, "QT 2 4026531840 255"), 5, "4026531840", &["rights: 0b11110000000000000000000000000000, and type 2 has the rights 0 to 27"]),
        case(of_edition(1, 14, "", "GN 2 32768"), 5, "32768", &["least set of ?R: 0b1000000000000000, and type 2 names the rights 1 to 14"]),
        case(of_edition(2, 22, "", "GN 2 8388608"), 5, "8388608", &["least set of ?R: 0b00000000100000000000000000000000, and type 2 names the rights 1 to 22"]),
        case(least(2, "GN 2 65537"), 5, "65537", &["least set of ?R: 0b00000000000000010000000000000001, and open, right 0, is none of its rights"]),
        case(header("1 0 1 1\nbytes 51 54 00 00 00"), 2, "bytes 51 54 00 00 00", &["QT, a record of 6 bytes, is due here, and 5 bytes are left"]),
        case(header("2 0 1 1\nbytes 51 54 00 00 00 00 00"), 2, "bytes 51 54 00 00 00 00 00", &["QT, a record of 8 bytes, is due here, and 7 bytes are left"]),
        case(cut(least(1, "bytes 47 4E 02 02")), 2, "bytes 47 4E 02 02", &["GN, a record of 5 bytes, is due here, and 4 bytes are left"]),
        case(cut(least(2, "bytes 47 4E 02 02 00 00")), 2, "bytes 47 4E 02 02 00 00", &["GN, a record of 7 bytes, is due here, and 6 bytes are left"]),
    ]
}

/// A procedure with the rights name and these lines, and two that it can
/// call.
fn in_named(head: &str, lines: &str) -> String {
    let others = "procedure amend for ?R >= call{read,amend}\n formal own: ?R\n return\n\
        procedure both for ?R >= call{} gives ?R\n formal one, two: tray[?R]{}\n variable own: ?R\n return own\n\
        procedure idle for ?R >= call{}\n return\n";
    format!("{TYPES}procedure main\n return\n{others}procedure p for ?R >= call{{read}}{head}\n{lines}\n return\n")
}

#[rustfmt::skip]
fn rights_names() -> Vec<Case> {
    const ONLY: &str = "only ?R goes into ?R";
    const OWN: &str = "  variable pages: tray[tray[?R]{fetch,store}]{fetch,store}\n  variable amends: tray[call{read,amend}]{fetch}\n  variable horses: tray[horse{}]{fetch}\n";
    let own = |line: &str| in_named(" of call", &format!("  formal given: ?R\n  variable all: tray[?R]{{fetch}}\n{OWN}{VARIABLES}\n {line}"));
    vec![
        case(own("bind given <- both"), 9, "both", &["needs ?R                (given)", "has   call{read,amend}  (both)", ONLY]),
        case(own("fetch given <- boths[n]"), 9, "boths", &["needs ?R                (given)", "has   call{read,amend}  (an element of boths)", ONLY]),
        case(own("newrecord given"), 9, "given", &["needs ?R  (given)", "has   a new record of call", ONLY]),
        case(own("bind given <- horse"), 8, "horse", &["needs ?R           (given)", "has   horse{read}  (horse)", "needs ?R of call, has horse"]),
        case(own("bind both <- given"), 9, "given", &["needs call{read,amend}  (both)", "has   ?R                (given)", "needs amend, and of ?R no more than read is certain"]),
        case(own("getslot n <- given.length"), 9, "given", &["needs call{open}", "has   ?R  (given)", "needs open, and of ?R no more than read is certain"]),
        case(own("bind calls <- all"), 8, "all", &["needs tray[call{read}]{fetch,store,size}  (calls)", "has   tray[?R]{fetch}                     (all)", "calls has store, so the elements must be equal: needs call{read}, has ?R"]),
        case(own("bind all <- boths"), 8, "boths", &["needs tray[?R]{fetch}                           (all)", "has   tray[call{read,amend}]{fetch,store,size}  (boths)", "only ?R goes into ?R: needs ?R, has call{read,amend}"]),
        case(own("bind amends <- all"), 8, "all", &["needs tray[call{read,amend}]{fetch}  (amends)", "has   tray[?R]{fetch}                (all)", "the elements lack amend: needs call{read,amend}, has ?R, of which no more than read is certain"]),
        case(own("bind horses <- all"), 8, "all", &["needs tray[horse{}]{fetch}  (horses)", "has   tray[?R]{fetch}       (all)", "the elements have another base: needs horse, has ?R of call"]),
        case(own("bind rows <- pages"), 8, "pages", &["needs tray[tray[call{read}]{fetch,store}]{store}  (rows)", "has   tray[tray[?R]{fetch,store}]{fetch,store}    (pages)", "rows has store, so the elements must be equal: 2 levels down, needs call{read}, has ?R"]),
        case(in_named("", "  formal one: tray[?R]{}\n  variable two: tray[tray[call{}]{}]{}\n  variable all: tray[tray[?R]{}]{}\n bind all <- two"), 8, "two", &["needs tray[tray[?R]{}]{}      (all)", "has   tray[tray[call{}]{}]{}  (two)", "only ?R goes into ?R: 2 levels down, needs ?R, has call{}"]),
        case(in_named("", "  formal given: tray[tray[?R]{}]{} as tray[tray[call{read}]{}]{}"), 7, "tray[tray[?R]{}]{} tray[tray[call{read}]{}]{}", &["needs  tray[tray[?R]{}]{}", "inside tray[tray[call{read}]{}]{}", EQUAL, "they differ 2 levels down: needs ?R, inside call{read}"]),
        case(own("call amend(reads)"), 21, "reads", &["settled to call{read}, but amend needs at least call{read,amend}", "lacks amend"]),
        case(own("call amend(given)"), 21, "given", &["settled to the ?R of p, of which call{read} is all that is certain, but amend needs at least call{read,amend}", "lacks amend"]),
        case(own("call amend(horse)"), 8, "horse", &["needs call{read,amend}  (what amend needs as own)", "has   horse{read}       (horse)", "needs call, has horse"]),
        case(own("call horse <- both(calls, boths)"), 20, "calls boths", &["calls settles ?R to call{read}, boths to call{read,amend}"]),
        case(own("call horse <- both(stored, fetched)"), 8, "both", &["needs horse{read}  (horse)", "has   call{read}   (the result of both)", "needs horse, has call"]),
        case(own("call idle()"), 20, "idle", &["no formal of idle uses ?R, so that no call can settle it"]),
        case(in_named("", "  formal one: tray[?R]{}\n  variable two: tray[call{read}]{}\n  variable kept: ?R\n call kept <- both(one, two)"), 20, "one two", &["one settles ?R to the ?R of p, two to call{read}"]),
        case(in_named(" of call", "  formal given: ?R as call{open}"), 7, "?R call{open}", &["needs  ?R", "inside call{open}", "?R is never amplified: a formal that needs ?R or is ?R inside has it as both"]),
        case(in_named(" of call", "  formal given: call{read} as ?R"), 7, "call{read} ?R", &["needs  call{read}", "inside ?R", "?R is never amplified: a formal that needs ?R or is ?R inside has it as both"]),
    ]
}

#[test]
fn explanations_mark_the_part_and_say_what_is_missing() {
    let all = [
        movements(),
        elements(),
        operands(),
        records(),
        layout(),
        editions(),
        rights_names(),
    ];
    for case in all.into_iter().flatten() {
        let found = said(case.text.as_bytes());
        let shown: String = case.text.chars().take(2_000).collect();
        let number = format!("refused {} ", case.number);
        assert!(
            found.first.starts_with(&number),
            "{}:\n{shown}",
            found.first
        );
        assert_eq!(found.marked, case.marked, "{:?}:\n{shown}", found.lines);
        let mut lines = found.lines;
        if case.number == 6 {
            let last = lines.pop().unwrap_or_default();
            let (before, after) = last.split_once(": ").unwrap_or_default();
            assert_eq!(after, OPEN_IN);
            lines.push(String::from(before));
        }
        assert_eq!(lines, case.lines, "{shown}");
    }
}

/// The first line that the verdict of the second engine would have.
fn first_line(sheet: &[u8]) -> String {
    match reference::check(sheet) {
        Verdict::Accepted => String::from("accepted 0 0"),
        Verdict::Refused { number, place } => format!("refused {number} {place}"),
    }
}

#[test]
fn every_flaw_is_explained_on_generated_sheets() {
    for (number, flaw) in Flaw::all().into_iter().enumerate() {
        for seed in 0..3 {
            let breach = flaw.build(&mut Random::new(seed << 8 | number as u64));
            let sheet = breach.broken.encode();
            let found = said(&sheet);
            assert_eq!(found.first, first_line(&sheet), "{flaw:?} {seed}");
            assert!(!found.marked.is_empty(), "{flaw:?} {seed}");
            let needs = found.lines.iter().any(|line| line.contains("needs "));
            assert!(
                needs || matches!(breach.number, 5 | 6 | 20),
                "{flaw:?} {seed}: {:?}",
                found.lines
            );
        }
    }
}

#[test]
fn every_refusal_of_hand_written_and_damaged_sheets_is_explained() {
    let mut sheets: Vec<Vec<u8>> = cases().into_iter().map(|case| case.sheet).collect();
    for seed in 0..500 {
        let mut random = Random::new(seed);
        let sound = accepted(&mut random);
        sheets.push(damaged(&mut random, &sound));
        sheets.push(random_bytes(&mut random));
    }
    let mut refused = 0;
    for sheet in sheets {
        let expected = first_line(&sheet);
        if expected.starts_with("accepted") {
            continue;
        }
        refused += 1;
        let output = wennathig(&["check", "--bytes", "-"], &sheet);
        let printed = stdout(&output);
        assert_eq!(status(&output), 1, "{expected}: {output:?}");
        assert!(printed.starts_with(&format!("{expected}\n")), "{printed}");
        // After the word comes the place, and something is said of it.
        let told = printed.lines().filter(|line| line.starts_with("  "));
        assert!(told.count() > 0, "{printed}");
        // Of movements: 8 is told by the kinds and 9 by the rights at the top.
        assert!(!printed.contains("needs , "), "{printed}");
        let by_elements = printed.contains("so the elements") || printed.contains("  the elements");
        assert!(
            !by_elements || expected.starts_with("refused 8"),
            "{printed}"
        );
    }
    assert!(refused > 500, "only {refused} sheets were refused");
}
