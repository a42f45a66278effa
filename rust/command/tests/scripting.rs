//! What scripts build on: the exit statuses, several files, the words alone,
//! and JSON. docs/SCRIPTING.md promises it.

mod common;

use common::{folder, status, stderr, stdout, wennathig, written, ECHO, SMALLEST};
use std::ffi::OsStr;
use std::fs;
use std::os::unix::ffi::OsStrExt;
use std::path::{Path, PathBuf};
use std::process::Command;

/// A folder with one sheet of each kind.
struct Sheets {
    folder: PathBuf,
    /// Accepted, and done after one step.
    done: String,
    /// Accepted, and stops where the reads end.
    echo: String,
    /// Refused with 8.
    refused: String,
    /// A text with an error.
    wrong: String,
    missing: String,
}

fn sheets(name: &str) -> Sheets {
    let folder = folder(&format!("scripting-{name}"));
    let put_tray = b"procedure main\n  variable t: tray[integer]{fetch}\n  put t\n  return\n";
    Sheets {
        done: written(&folder, "done", SMALLEST),
        echo: written(&folder, "echo.ws", ECHO.as_bytes()),
        refused: written(&folder, "refused.ws", put_tray),
        wrong: written(&folder, "wrong.ws", b"procedure main\n  put n\n"),
        missing: path(&folder, "missing"),
        folder,
    }
}

fn path(folder: &Path, name: &str) -> String {
    folder.join(name).to_str().expect("a plain path").to_owned()
}

#[test]
fn of_several_files_each_has_its_turn() {
    let all = sheets("several");
    let [done, refused] = [&all.done, &all.refused];
    let output = wennathig(
        &["check", done, &all.wrong, &all.missing, refused, done],
        &[],
    );
    let said = stdout(&output);
    let lines: Vec<&str> = said.lines().filter(|line| line.contains("ed ")).collect();
    let accepted = format!("{done}: accepted 0 0");
    assert_eq!(lines[0], accepted);
    assert!(
        lines[1].starts_with(&format!("{refused}: refused 8 ")),
        "{said}"
    );
    assert_eq!(lines.last(), Some(&accepted.as_str()));
    assert!(said.contains("\nwrong kind: "));
    let errors = stderr(&output);
    assert!(errors.starts_with(&format!("wennathig: {}:2:7: ", all.wrong)));
    assert!(errors.contains(&format!("wennathig: {} cannot be read: ", all.missing)));
    assert_eq!(status(&output), 2);
    // With one file there is no name before the verdict.
    assert_eq!(stdout(&wennathig(&["check", done], &[])), "accepted 0 0\n");
}

#[test]
fn several_runs_have_a_heading_and_the_same_reads() {
    let all = sheets("runs");
    let call = ["run", &all.echo, &all.refused, &all.echo, "--reads", "-"];
    let output = wennathig(&call, b"5 6");
    let said = stdout(&output);
    let alone = stdout(&wennathig(&["run", &all.echo, "--reads", "-"], b"5 6"));
    let refused = stdout(&wennathig(&["run", &all.refused], &[]));
    let (echo, other) = (&all.echo, &all.refused);
    let expected = format!("{echo}:\n{alone}{other}:\n{refused}{echo}:\n{alone}");
    assert_eq!(said, expected);
    assert_eq!(status(&output), 1);
    let watched = wennathig(&["watch", &all.refused], &[]);
    assert_eq!(watched, wennathig(&["run", "--watch", &all.refused], &[]));
    assert!(stdout(&watched).starts_with("stopped 13 blank"));
}

#[test]
fn the_status_is_the_most_severe() {
    let all = sheets("status");
    let [done, echo, refused, wrong] = [&all.done, &all.echo, &all.refused, &all.wrong];
    let cases: [(&[&str], i32); 8] = [
        (&["run", done, echo], 0),
        (&["run", done, "--expect-done"], 0),
        (&["run", echo, done, "--expect-done"], 4),
        (&["run", echo, refused, done, "--expect-done"], 1),
        (&["run", echo, refused, wrong, done, "--expect-done"], 2),
        (&["check", refused, &all.missing, done], 2),
        (&["check", done, refused, done], 1),
        (&["check", done, done], 0),
    ];
    for (call, expected) in cases {
        for manner in [&[][..], &["--quiet"], &["--json"]] {
            let call = [call, manner].concat();
            assert_eq!(status(&wennathig(&call, &[])), expected, "{call:?}");
        }
    }
}

#[test]
fn quiet_leaves_the_words_and_the_errors() {
    let all = sheets("quiet");
    let output = wennathig(&["check", "-q", &all.done, &all.refused], &[]);
    assert_eq!((stdout(&output), stderr(&output)), Default::default());
    assert_eq!(status(&output), 1);
    let call = [
        "run",
        "--quiet",
        &all.echo,
        &all.refused,
        &all.echo,
        "--reads",
        "-",
    ];
    let output = wennathig(&call, b"1 2");
    assert_eq!(stdout(&output), "1\n2\n1\n2\n");
    let output = wennathig(&["check", "--quiet", &all.wrong], &[]);
    assert_eq!(stdout(&output), "");
    assert!(stderr(&output).contains("wrong.ws:2:7: "));
    let to_output = wennathig(&["run", &all.echo, "--reads", "-", "--words", "-"], b"1 2");
    assert_eq!(
        (status(&to_output), stdout(&to_output).as_str()),
        (0, "1\n2\n")
    );
}

#[test]
fn words_go_to_a_file_of_their_own() {
    let all = sheets("words");
    let out = path(&all.folder, "words");
    let output = wennathig(&["run", &all.refused, "--words", &out], &[]);
    assert_eq!(status(&output), 1);
    assert!(!Path::new(&out).exists(), "a refused sheet puts no words");
    let output = wennathig(&["run", &all.echo, "--reads", "-", "--words", &out], b"1 2");
    assert!(stdout(&output).starts_with("stopped 15 reads ended"));
    assert_eq!(fs::read(&out).expect("the words"), b"1\n2\n");
    let call = ["run", &all.refused, "--words", &out];
    wennathig(&call, &[]);
    assert_eq!(fs::read(&out).expect("the words"), b"1\n2\n");
    // No word is put, and the file says so.
    wennathig(&["run", &all.done, "--words", &out, "--quiet"], &[]);
    assert_eq!(fs::read(&out).expect("the words"), b"");
    let call = ["run", &all.echo, "--reads", "-", "--json", "--words", &out];
    let output = wennathig(&call, b"3");
    assert!(!stdout(&output).contains("\"words\""));
    assert_eq!(fs::read(&out).expect("the words"), b"3\n");
}

#[test]
fn json_has_one_object_a_file() {
    let all = sheets("json");
    let (done, refused, wrong, missing) = (&all.done, &all.refused, &all.wrong, &all.missing);
    let output = wennathig(&["check", "--json", done, refused, wrong, missing], &[]);
    let expected = [
        format!(r#"{{"file":"{done}","verdict":"accepted","number":0,"place":0}}"#),
        format!(
            r#"{{"file":"{refused}","verdict":"refused","number":8,"word":"wrong kind","meaning":"base, element or form of return","place":30,"line":3,"column":7,"procedure":"main","instruction":0,"reason":["needs integer","has   tray[integer]{{fetch}}  (t)"]}}"#
        ),
        format!(
            r#"{{"file":"{wrong}","verdict":"error","errors":[{{"line":2,"column":7,"message":"expected a variable of `main`, found `n`"}}]}}"#
        ),
        format!(
            r#"{{"file":"{missing}","verdict":"error","errors":[{{"message":"cannot be read: No such file or directory (os error 2)"}}]}}"#
        ),
    ];
    let said = stdout(&output);
    assert_eq!(said.lines().collect::<Vec<_>>(), expected);
    // Errors are said as without it.
    assert_eq!(
        stderr(&output),
        stderr(&wennathig(&["check", wrong, missing], &[]))
    );
}

#[test]
fn json_of_a_run_has_the_machine_the_stop_and_the_words() {
    let all = sheets("json-run");
    let (done, echo, refused) = (&all.done, &all.echo, &all.refused);
    let call = ["run", "--json", echo, done, refused, "--reads", "-"];
    let output = wennathig(&call, b"5 6");
    let said = stdout(&output);
    let lines: Vec<&str> = said.lines().collect();
    assert_eq!(
        lines[0],
        format!(
            r#"{{"file":"{echo}","machine":"plain","verdict":"stopped","number":15,"word":"reads ended","meaning":"none is left to take","steps":7,"put":2,"words":[5,6],"procedure":"main","instruction":1,"place":36,"line":5,"column":5,"reason":["the reads are 2, and all are taken"]}}"#
        )
    );
    assert_eq!(
        lines[1],
        format!(
            r#"{{"file":"{done}","machine":"plain","verdict":"stopped","number":11,"word":"done","meaning":"the first frame, main's, returned","steps":1,"put":0,"words":[],"procedure":"main","instruction":0,"place":14,"line":2,"column":9,"disassembly":true}}"#
        )
    );
    let start =
        format!(r#"{{"file":"{refused}","machine":"plain","verdict":"refused","number":8,"#);
    assert!(lines[2].starts_with(&start), "{}", lines[2]);
    let call = ["watch", "--json", "-", "--memory", "1"];
    let said = stdout(&wennathig(&call, SMALLEST));
    let start = r#"{"file":"-","machine":"watched","verdict":"stopped","number":17,"#;
    assert!(said.starts_with(start), "{said}");
    let end = r#""procedure":"main","place":6,"line":1,"column":1,"disassembly":true,"reason":["main's frame needs 2 words before the first step"]}"#;
    assert!(said.trim_end().ends_with(end), "{said}");
    let call = ["run", "--json", "-", "--memory", "65537"];
    let expected = r#"{"file":"-","machine":"plain","verdict":"refused","number":10,"word":"big bench","meaning":"more than 65,536 words of memory are lent","place":0}"#;
    assert_eq!(stdout(&wennathig(&call, SMALLEST)).trim_end(), expected);
}

#[test]
fn reads_that_are_wrong_are_their_own_object_and_nothing_is_run() {
    let all = sheets("json-reads");
    let reads = written(&all.folder, "reads", b"1 2\n x\n");
    let call = ["run", "--json", &all.echo, &all.done, "--reads", &reads];
    let output = wennathig(&call, &[]);
    let expected = format!(
        r#"{{"file":"{reads}","verdict":"error","errors":[{{"line":2,"column":2,"message":"expected a number from 0 to 4294967295, found `x`"}}]}}"#
    );
    assert_eq!(stdout(&output).trim_end(), expected);
    assert_eq!(status(&output), 2);
}

#[test]
fn file_names_are_escaped_in_json_and_elsewhere() {
    let folder = folder("scripting-names");
    let name = written(&folder, "a \"b\"\n\x1b.ws", b"procedure main\n  put n\n");
    let output = wennathig(&["check", "--json", &name], &[]);
    assert!(stdout(&output).contains(r#"a \"b\"\n\u001b.ws","verdict"#));
    assert!(stderr(&output).contains("a \"b\"\\n\\u{1b}.ws:2:7: "));
    let name = OsStr::from_bytes(b"/nowhere/\xff");
    let output = Command::new(env!("CARGO_BIN_EXE_wennathig"))
        .args([OsStr::new("check"), OsStr::new("--json"), name])
        .output()
        .expect("the command starts");
    let start = "{\"file\":\"/nowhere/\u{fffd}\",\"verdict\":\"error\"";
    assert!(stdout(&output).starts_with(start), "{}", stdout(&output));
}

#[test]
fn reads_have_white_space_between_them() {
    let all = sheets("reads");
    let reads = b"\xef\xbb\xbf1 2\t3\r\n# none: \xff x\n\n  4#5\n\x0c6 7";
    let output = wennathig(&["run", "--quiet", &all.echo, "--reads", "-"], reads);
    assert_eq!(stdout(&output), "1\n2\n3\n4\n6\n7\n");
    let wrong: [(&[u8], &str); 5] = [
        (
            b"1 2 0x3",
            "1:5: expected a number from 0 to 4294967295, found `0x3`",
        ),
        (
            b"1\n2 4294967296",
            "2:3: expected a number from 0 to 4294967295, found `4294967296`",
        ),
        (
            b"\xef\xbb\xbf \x1b[2J",
            "1:2: expected a number from 0 to 4294967295, found `\\u{1b}[2J`",
        ),
        (
            "é 1".as_bytes(),
            "1:1: expected a number from 0 to 4294967295, found `é`",
        ),
        (
            "\u{a0}é".as_bytes(),
            "1:2: expected a number from 0 to 4294967295, found `é`",
        ),
    ];
    for (reads, expected) in wrong {
        let output = wennathig(&["run", &all.echo, "--reads", "-"], reads);
        let expected = format!("wennathig: standard input:{expected}\n");
        assert_eq!((status(&output), stderr(&output)), (2, expected));
    }
    let long = vec![b'x'; 5_000_000];
    let output = wennathig(&["run", &all.echo, "--reads", "-"], &long);
    assert!(output.stderr.len() < 300, "{} bytes", output.stderr.len());
}

#[test]
fn that_errors_are_left_out_is_said() {
    let folder = folder("scripting-many");
    let many = |count: usize| {
        let text = format!("procedure main\n{}", "put $\n".repeat(count));
        written(&folder, &format!("{count}.ws"), text.as_bytes())
    };
    let last = |path: &str, manner: &str| {
        let output = wennathig(&["check", path, manner], &[]);
        assert_eq!(status(&output), 2);
        let said = stderr(&output);
        assert_eq!(stdout(&output).matches("\"line\":").count() % 100, 0);
        said.lines().last().map(String::from)
    };
    let path = many(101);
    let expected = format!("wennathig: of {path} only the first 100 errors are told");
    for manner in ["--text", "--quiet", "--json"] {
        assert_eq!(last(&path, manner).as_ref(), Some(&expected), "{manner}");
    }
    let all = last(&many(99), "--text").unwrap_or_default();
    assert!(!all.contains("only"), "{all}");
}
