//! The task `test`: texts held against their heads.

mod common;

use common::{status, stderr, stdout, wennathig};
use std::fs;
use std::path::PathBuf;

/// Puts 1 and 2, and returns from main.
const PUTS: &str = "
procedure main
    variable n, one: integer
    set one := 1
    set n := 1
    put n                   # 1
    add n := n + one
    put n
    return
";

/// Refused for 8 at `put held`; the watched machine stops before it.
const REFUSED: &str = "
procedure main
    variable n: integer
    variable held: tray[integer]{fetch}
    put n
    put held
    return
";

/// Does not assemble.
const WRONG: &str = "
procedure main
    put n       # no such variable
    return
";

/// What `test` says of one text on standard input.
struct Said {
    status: i32,
    out: String,
    errors: String,
}

fn tried(head: &str, text: &str) -> Said {
    let output = wennathig(&["test", "-"], format!("{head}\n{text}").as_bytes());
    Said {
        status: status(&output),
        out: stdout(&output),
        errors: stderr(&output),
    }
}

/// The head holds; what is said of it follows the name.
fn holds(head: &str, text: &str, summary: &str, compared: usize) {
    let said = tried(head, text);
    let due = format!("ok      standard input   {summary}\n{compared} passed, 0 failed\n");
    assert_eq!(
        (said.out, said.errors, said.status),
        (due, String::new(), 0),
        "{head}"
    );
}

/// The head fails in these things and in no others.
fn fails(head: &str, text: &str, differ: &[&str], passed: usize) {
    let said = tried(head, text);
    let line = |one: &&str| format!("FAILED  standard input: {one}\n");
    let lines: String = differ.iter().map(line).collect();
    let due = format!("{lines}{passed} passed, {} failed\n", differ.len());
    assert_eq!(
        (said.out, said.errors, said.status),
        (due, String::new(), 1),
        "{head}"
    );
}

/// The head is in error at a place, and counts as one failure.
fn errs(head: &str, text: &str, place: &str, message: &str) {
    let said = tried(head, text);
    assert_eq!(
        (said.out.as_str(), said.status),
        ("0 passed, 1 failed\n", 2),
        "{head}"
    );
    let due = format!("wennathig: standard input:{place}: ");
    assert!(said.errors.starts_with(&due), "{head}: {}", said.errors);
    assert!(said.errors.contains(message), "{head}: {}", said.errors);
}

fn samples() -> Vec<String> {
    let folder = PathBuf::from(env!("CARGO_MANIFEST_DIR")).join("../../samples");
    let files = fs::read_dir(folder).expect("the samples");
    let paths = files.map(|file| file.expect("a sample").path());
    let mut names: Vec<String> = paths.map(|path| path.display().to_string()).collect();
    names.sort();
    names
}

#[test]
fn every_sample_is_as_its_head_says() {
    let samples = samples();
    assert!(samples.len() >= 20);
    let mut call = vec!["test"];
    call.extend(samples.iter().map(String::as_str));
    let output = wennathig(&call, &[]);
    assert_eq!(status(&output), 0, "{output:?}");
    let printed = stdout(&output);
    let lines: Vec<&str> = printed.lines().collect();
    assert_eq!(lines.len(), samples.len() + 1);
    assert!(lines[samples.len()].ends_with(" passed, 0 failed"));
    // The columns stand below one another.
    let column = |line: &&str| line.find("   accepted").or(line.find("   refused"));
    let widest = samples.iter().map(String::len).max().unwrap_or_default();
    for line in &lines[..samples.len()] {
        let blanks = line.len() - line.trim_end().len();
        assert_eq!(blanks, 0, "{line}");
        let summary = column(line).expect("a verdict");
        let name = line["ok      ".len()..summary].trim_end();
        assert!(samples.iter().any(|sample| sample == name), "{line}");
        assert!(line[8 + widest..].starts_with("   "), "{line}");
    }
}

#[test]
fn check_says_of_every_sample_what_its_head_expects() {
    for sample in samples() {
        let text = fs::read_to_string(&sample).expect("a sample");
        let mut lines = text.lines();
        let expected = lines.find_map(|line| line.strip_prefix("# expect: "));
        let output = wennathig(&["check", &sample], &[]);
        assert_eq!(stdout(&output).lines().next(), expected, "{sample}");
        let accepted = expected == Some("accepted 0 0");
        assert_eq!(status(&output), if accepted { 0 } else { 1 }, "{sample}");
    }
}

#[test]
fn heads_that_hold() {
    holds("# expect: accepted 0 0", PUTS, "accepted 0 0", 1);
    // The verdict, stop, words and line, then stop, words and place of the watched machine.
    let head = "# Prose: anything.\n#\n# expect: accepted 0 0\n# stop: 11 done\n# put: 1 2\n#\n# at: return";
    holds(head, PUTS, "accepted 0 0, 11 done", 7);
    let head = "# expect: accepted 0 0\n# stop: 12 fuel spent\n# fuel: 3\n# put: 1\n# at: add n := n + one";
    holds(head, PUTS, "accepted 0 0, 12 fuel spent", 7);
    let head =
        "# expect: accepted 0 0\n# stop: 16 report full\n# report: 1\n# put:  1\n# at: put n";
    holds(head, PUTS, "accepted 0 0, 16 report full", 7);
    // Before main's frame opens the line is main's.
    let head = "# expect: accepted 0 0\n# memory: 3\n# stop: 17 bench full\n# at: procedure main";
    holds(head, PUTS, "accepted 0 0, 17 bench full", 7);
    let head = "# expect: accepted 0 0\n# memory: 65537\n# stop: 10 big bench\n# put:";
    holds(head, PUTS, "accepted 0 0, 10 big bench", 6);
    let head = "# expect: refused 8 42\n# at: put held";
    holds(head, REFUSED, "refused 8 42", 2);
    let head = "# expect: refused 8 42\n# watch: 13 blank";
    holds(head, REFUSED, "refused 8 42, watched 13 blank", 3);
    let head = "# expect: refused 8 42\n# at: put held\n# watch: 13 blank\n# watch-at: put n";
    holds(head, REFUSED, "refused 8 42, watched 13 blank", 5);
    let head = "# expect: error 5:9\n# at: put n";
    holds(head, WRONG, "error 5:9", 2);
}

#[test]
fn each_thing_that_differs_is_named() {
    let head = "# expect: accepted 0 0\n# stop: 13 blank\n# put: 2 1\n# at: put n";
    let differ = [
        "the stop: expected '13 blank', found '11 done'",
        "the words put: expected '2 1', found '1 2'",
        "the line stopped at: expected 'put n', found 'return'",
    ];
    fails(head, PUTS, &differ, 4);
    let head = "# expect: accepted 0 0\n# stop: 11 done";
    fails(head, PUTS, &["the words put: expected '', found '1 2'"], 5);
    // A sheet with another verdict is not run.
    let differ = ["the verdict: expected 'accepted 0 0', found 'refused 8 42'"];
    fails(head, REFUSED, &differ, 0);
    let differ = [
        "the verdict: expected 'refused 8 50', found 'refused 8 42'",
        "the line refused: expected 'put n', found 'put held'",
    ];
    fails(
        "# expect: refused 8 50\n# at: put n\n# watch: 11 done",
        REFUSED,
        &differ,
        0,
    );
    let differ = [
        "the verdict: expected 'refused 8 50', found 'accepted 0 0'",
        "the line refused: expected 'put n', found ''",
    ];
    fails("# expect: refused 8 50\n# at: put n", PUTS, &differ, 0);
    let differ = [
        "the watched stop: expected '18 mixed sample', found '13 blank'",
        "the watched words put: expected '1', found ''",
        "the line stopped at: expected 'put held', found 'put n'",
    ];
    let head = "# expect: refused 8 42\n# watch: 18 mixed sample\n# put: 1\n# at: put held";
    fails(head, REFUSED, &differ, 2);
    let differ = ["the line in error: expected 'put m', found 'put n'"];
    fails("# expect: error 5:9\n# at: put m", WRONG, &differ, 1);
    let differ = ["the verdict: expected 'accepted 0 0', found 'error 4:9'"];
    fails("# expect: accepted 0 0", WRONG, &differ, 0);
}

/// What a terminal would obey is written out, wherever it comes from.
#[test]
fn what_is_found_is_quoted() {
    let differ = ["the line stopped at: expected '\\u{1b}[2J', found 'return'"];
    let head = "# expect: accepted 0 0\n# stop: 11 done\n# put: 1 2\n# at: \u{1b}[2J";
    fails(head, PUTS, &differ, 6);
    let said = tried("# expect: accepted 0 0\n# \u{1b}[2J: 3", PUTS);
    assert!(!said.errors.contains('\u{1b}'), "{}", said.errors);
    let twice = wennathig(&["test", "-", "-"], PUTS.as_bytes());
    assert_eq!(status(&twice), 2, "{twice:?}");
    assert!(stderr(&twice).contains("only once"), "{twice:?}");
}

#[test]
fn lines_that_cannot_be_meant_are_errors() {
    // No key that opens the head, or none that is known.
    errs("", PUTS, "1:1", "expected a line `# expect: ..`");
    errs(
        "# exepct: accepted 0 0",
        PUTS,
        "1:1",
        "expected a line `# expect: ..`",
    );
    errs(
        "# expect: accepted 0 0\n# stpo: 11 done",
        PUTS,
        "2:3",
        "found `stpo`",
    );
    errs(
        "# expect: accepted 0 0\n# put 1 2",
        PUTS,
        "2:3",
        "found `put 1 2`",
    );
    errs(
        "# expect: accepted 0 0\n# Prose.",
        PUTS,
        "2:3",
        "found `Prose.`",
    );
    errs(
        "# expect: accepted 0 0\n# Stop: 11 done",
        PUTS,
        "2:3",
        "found `Stop`",
    );
    // The colon makes the key.
    let head = "# What is on the\n# report\n# expect: accepted 0 0";
    holds(head, PUTS, "accepted 0 0", 1);
    let head = "# expect: accepted 0 0\n# stop: 11 done\n# put";
    errs(head, PUTS, "3:3", "found `put`");
    // A key twice, before the others, after the head.
    let twice = "# expect: accepted 0 0\n# fuel: 3\n# fuel: 4\n# stop: 11 done";
    errs(twice, PUTS, "3:3", "`fuel:` is said twice");
    errs(
        "# put: 1 2\n# expect: accepted 0 0",
        PUTS,
        "1:3",
        "`put:` stands before `# expect:`",
    );
    errs(
        "# expect: accepted 0 0\n\n# put: 1 2",
        PUTS,
        "3:3",
        "`put:` stands outside the head, after line 2, which is empty",
    );
    errs(
        "# expect: accepted 0 0\n\n# expect: accepted 0 0",
        PUTS,
        "3:3",
        "`expect:` stands outside",
    );
}

#[test]
fn keys_in_the_body_are_errors_also_where_they_are_indented() {
    let head = "# expect: accepted 0 0\nprocedure main";
    let after = "`put:` stands outside the head, after line 2, which does not begin with `#`";
    for (line, place) in [
        ("# put: the next", "3:3"),
        (" # put: the next", "3:4"),
        ("\t  #put: the next", "3:5"),
    ] {
        errs(&format!("{head}\n{line}"), "return", place, after);
    }
    // What is no key, or follows a statement, is a comment like any other.
    let body = " # output: the next\n # put the next\n return # put: the next";
    holds(&format!("{head}\n{body}"), "", "accepted 0 0", 1);
}

#[test]
fn a_head_that_does_not_begin_the_text_is_told_why() {
    let expect = "# expect: accepted 0 0";
    let first = "expected `# expect:` at the start of the text, found it after line 1, which";
    errs(
        &format!("\n{expect}"),
        PUTS,
        "2:3",
        &format!("{first} is empty"),
    );
    let text = format!("procedure main\n  {expect}");
    let message = format!("{first} does not begin with `#`");
    errs(&text, "return", "2:5", &message);
    // A line of the head has nothing before its #, whatever it says.
    let blank = "expected `#` at the start of the line, found a blank before it";
    errs(&format!("  {expect}"), PUTS, "1:1", blank);
    errs(
        &format!("# Prose.\n\t# More.\n{expect}"),
        PUTS,
        "2:1",
        blank,
    );
    errs(&format!("{expect}\n # put: 1 2"), PUTS, "2:1", blank);
    errs(&format!("{expect}\n # stpo: 11 done"), PUTS, "2:1", blank);
}

/// Which of the stops a head may expect, its help says.
#[test]
fn help_names_the_refusal_of_the_memory() {
    let help = stdout(&wennathig(&["help", "test"], &[]));
    assert!(help.contains("or 10 big bench where the memory lent is refused"));
    assert!(help.lines().all(|line| line.chars().count() <= 120));
}

#[test]
fn values_that_are_not_of_their_form_are_errors() {
    let verdicts = [
        "accepted",
        "accepted 0 1",
        "refused 8",
        "refused 10 0",
        "refused 0 0",
        "refused +8 0",
    ];
    for verdict in
        verdicts
            .into_iter()
            .chain(["error 3", "error 3:x", "Accepted 0 0", "refused  8 42", ""])
    {
        let head = format!("# expect: {verdict}");
        errs(&head, PUTS, "1:11", "expected `accepted 0 0`, ");
    }
    let accepted = |line: &str| format!("# expect: accepted 0 0\n{line}\n# stop: 11 done");
    for words in ["1,2", "-1", "+1", "0x1", "4294967296"] {
        errs(
            &accepted(&format!("# put: {words}")),
            PUTS,
            "2:8",
            "expected numbers from 0 to 4294967295",
        );
        errs(
            &accepted(&format!("#reads:{words}")),
            PUTS,
            "2:8",
            "expected numbers from 0 to 4294967295",
        );
    }
    errs(
        &accepted("# fuel: many"),
        PUTS,
        "2:9",
        "expected a number from 0 to 18446744073709551615",
    );
    errs(
        &accepted("# memory:"),
        PUTS,
        "2:10",
        "expected a number from 0",
    );
    errs(
        &accepted("# report: 16777217"),
        PUTS,
        "2:11",
        "expected a number from 0 to 16777216",
    );
    errs(
        &accepted("# at:"),
        PUTS,
        "2:6",
        "expected a line of the text",
    );
    for stop in [
        "11",
        "done",
        "11 blank",
        "11  done",
        "9 no licence",
        "18 mixed sample",
        "20 more",
    ] {
        let head = format!("# expect: accepted 0 0\n# stop: {stop}");
        errs(
            &head,
            PUTS,
            "2:9",
            "expected a stop of this machine, such as `11 done`",
        );
    }
}

#[test]
fn keys_that_say_nothing_about_the_sheet_are_errors() {
    for line in [
        "put: 1",
        "reads: 1",
        "fuel: 1",
        "memory: 9",
        "report: 1",
        "at: return",
        "watch: 11 done",
    ] {
        let head = format!("# expect: accepted 0 0\n# {line}");
        errs(&head, PUTS, "2:3", "says nothing about this sheet");
    }
    for line in ["put: 1", "stop: 13 blank", "watch-at: put n"] {
        errs(
            &format!("# expect: refused 8 42\n# {line}"),
            REFUSED,
            "2:3",
            "says nothing about this sheet",
        );
    }
    // Below 6 the watched machine refuses the sheet too.
    errs(
        "# expect: refused 5 0\n# watch: 11 done",
        PUTS,
        "2:3",
        "says nothing about this sheet",
    );
    for line in ["put: 1", "stop: 11 done", "watch: 11 done"] {
        errs(
            &format!("# expect: error 5:9\n# {line}"),
            WRONG,
            "2:3",
            "says nothing about this sheet",
        );
    }
}

#[test]
fn a_text_in_error_does_not_keep_the_others_from_being_tried() {
    let folder = PathBuf::from(env!("CARGO_TARGET_TMPDIR")).join("expect");
    let _ = fs::remove_dir_all(&folder);
    fs::create_dir_all(&folder).expect("a folder for the test");
    let written = |name: &str, bytes: &[u8]| {
        let path = folder.join(name);
        fs::write(&path, bytes).expect("a file for the test");
        path.display().to_string()
    };
    let good = written(
        "good.ws",
        format!("# expect: accepted 0 0\n{PUTS}").as_bytes(),
    );
    let differs = written(
        "differs.ws",
        format!("# expect: refused 8 42\n{PUTS}").as_bytes(),
    );
    let bare = written("bare.ws", PUTS.as_bytes());
    let bytes = written("bytes.ws", b"# expect: accepted 0 0\n\xff\n");
    let absent = folder.join("absent.ws").display().to_string();
    let output = wennathig(&["test", &differs, &good], &[]);
    assert_eq!(status(&output), 1, "{output:?}");
    let output = wennathig(&["test", &bare, &absent, &bytes, &differs, &good], &[]);
    assert_eq!(status(&output), 2, "{output:?}");
    let printed = stdout(&output);
    let lines: Vec<&str> = printed.lines().collect();
    assert_eq!(lines.len(), 3, "{printed}");
    assert!(lines[0].starts_with("FAILED  ") && lines[0].contains("differs.ws: the verdict: "));
    assert!(lines[1].starts_with("ok      ") && lines[1].contains("good.ws "));
    assert_eq!(lines[2], "1 passed, 4 failed");
    for name in ["bare.ws:1:1: ", "absent.ws cannot be read", "bytes.ws"] {
        assert!(stderr(&output).contains(name), "{}", stderr(&output));
    }
    for call in [
        &["test"][..],
        &["test", &good, "--fuel", "3"],
        &["test", &good, "--nothing"],
    ] {
        let output = wennathig(call, &[]);
        assert_eq!(status(&output), 2, "{call:?}");
        assert!(output.stdout.is_empty(), "{call:?}");
    }
}
