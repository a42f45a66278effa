//! The arguments: how options may be written, what help says, what is misuse.

mod common;

use common::{folder, status, stderr, stdout, wennathig, written};
use std::fs;
use std::process::{Command, Output, Stdio};
use std::thread;

/// Puts one word and is done after three steps.
const ONE: &[u8] =
    b"procedure main\n    variable n: integer\n    set n := 7\n    put n\n    return\n";

#[test]
fn a_value_may_stand_with_its_option() {
    let folder = folder("options-values");
    let sheet = written(&folder, "one.ws", ONE);
    let apart = wennathig(&["run", "--fuel", "2", &sheet], &[]);
    let together = wennathig(&["run", &sheet, "--fuel=2"], &[]);
    assert!(stdout(&apart).contains("stopped 12 fuel spent"));
    assert_eq!(apart, together);
    let out = folder.join("one.sheet");
    let joined = format!("-o{}", out.display());
    assert_eq!(status(&wennathig(&["asm", &sheet, &joined], &[])), 0);
    let piped = wennathig(&["asm", &sheet, "-o-"], &[]);
    assert_eq!(fs::read(&out).expect("the sheet"), piped.stdout);
    // A value may begin with a dash; it is the next argument whatever it is.
    let output = wennathig(&["run", &sheet, "--fuel", "--trace"], &[]);
    assert!(stderr(&output).contains("--fuel needs a number"));
    // An empty value is a value, and no number.
    let output = wennathig(&["run", &sheet, "--fuel="], &[]);
    assert_eq!(status(&output), 2);
}

/// The command in a folder, so that a name can begin with a dash.
fn within(folder: &std::path::Path, arguments: &[&str]) -> Output {
    Command::new(env!("CARGO_BIN_EXE_wennathig"))
        .args(arguments)
        .current_dir(folder)
        .stdin(Stdio::null())
        .output()
        .expect("the command starts")
}

#[test]
fn two_dashes_end_the_options() {
    let folder = folder("options-end");
    written(&folder, "--trace", ONE);
    written(&folder, "-q", ONE);
    let output = within(&folder, &["check", "--text", "--", "--trace", "-q"]);
    let expected = "--trace: accepted 0 0\n-q: accepted 0 0\n";
    assert_eq!(stdout(&output), expected);
    let output = within(&folder, &["run", "--quiet", "--", "-q"]);
    assert_eq!(stdout(&output), "7\n");
    assert_eq!(status(&within(&folder, &["check", "--"])), 2);
}

#[test]
fn every_task_has_its_own_help() {
    for task in ["check", "run", "watch", "asm", "dis"] {
        let first = format!("usage: wennathig {task} ");
        let calls = [["help", task], [task, "-h"], [task, "--help"]];
        let all = calls.map(|call| wennathig(&call, &[]));
        for output in &all {
            assert_eq!(status(output), 0);
            assert!(stdout(output).starts_with(&first), "{}", stdout(output));
            assert_eq!(output, &all[0]);
        }
        let lists_fuel = stdout(&all[0]).contains("--fuel N");
        assert_eq!(lists_fuel, matches!(task, "run" | "watch"), "{task}");
    }
    let whole = stdout(&wennathig(&["--help"], &[]));
    for option in [
        "--json",
        "--quiet",
        "--words OUT",
        "--expect-done",
        "-o OUT",
    ] {
        assert!(whole.contains(option), "{option}");
    }
    for call in [&["-h"][..], &["help", "help"], &["help", "--help"]] {
        assert_eq!(whole, stdout(&wennathig(call, &[])));
    }
    assert!(whole.lines().all(|line| line.chars().count() <= 120));
    assert_eq!(status(&wennathig(&["help", "nothing"], &[])), 2);
    assert_eq!(status(&wennathig(&["help", "run", "check"], &[])), 2);
}

#[test]
fn the_version_is_that_of_the_header() {
    let header = include_str!("../../../include/wennathig.h");
    let part = |name: &str| {
        let line = header.lines().find(|line| line.contains(name));
        let word = line.and_then(|line| line.split_whitespace().nth(2));
        word.expect("a number").to_owned()
    };
    let dotted = ["VERSION_MAJOR ", "VERSION_MINOR ", "VERSION_PATCH "].map(part);
    let expected = format!("wennathig {}\n", dotted.join("."));
    for call in ["--version", "-V"] {
        assert_eq!(stdout(&wennathig(&[call], &[])), expected);
    }
}

#[test]
fn a_near_miss_is_told_and_not_taken() {
    let calls: [(&[&str], &str); 15] = [
        (
            &["run", "--feul", "3"],
            "no such option: --feul; is it --fuel?",
        ),
        (
            &["run", "--fuell=3"],
            "no such option: --fuell; is it --fuel?",
        ),
        (
            &["run", "--fue", "3"],
            "no such option: --fue; is it --fuel?",
        ),
        (
            &["run", "--re", "x"],
            "no such option: --re; is it --reads or --report?",
        ),
        (&["run", "-quiet"], "no such option: -quiet; is it --quiet?"),
        // Of short options any is one slip from any other.
        (&["run", "-x"], "no such option: -x"),
        (&["run", "-Q"], "no such option: -Q; is it -q?"),
        (&["asm", "-O", "x"], "no such option: -O; is it -o?"),
        (&["run", "-qx"], "no such option: -qx; is it -q?"),
        (&["run", "--json=yes"], "--json takes no value"),
        (&["run", "--nothing"], "no such option: --nothing"),
        (&["check", "--fuel=3"], "--fuel is no option of check"),
        (&["chek", "x"], "no such task: chek; is it check?"),
        (&["help", "wach"], "no such task: wach; is it watch?"),
        (&["\x1b[31m"], "no such task: \\u{1b}[31m"),
    ];
    for (call, expected) in calls {
        let output = wennathig(call, &[]);
        let first = stderr(&output).lines().next().map(String::from);
        assert_eq!(first, Some(format!("wennathig: {expected}")), "{call:?}");
        assert_eq!((status(&output), stdout(&output).as_str()), (2, ""));
    }
}

#[test]
fn what_stands_in_place_of_a_task_is_told() {
    let calls: [(&[&str], &str); 12] = [
        (&["--version", "x"], "--version stands alone, found also x"),
        (
            &["-V", "\x1b[31m"],
            "-V stands alone, found also \\u{1b}[31m",
        ),
        (
            &["check", "--version"],
            "--version stands alone, in place of a task",
        ),
        (
            &["--quiet", "check", "s.ws"],
            "--quiet is an option: options come after the task",
        ),
        (
            &["--fuel=3", "run", "s.ws"],
            "--fuel is an option: options come after the task",
        ),
        (
            &["-oout", "asm", "s.ws"],
            "-o is an option: options come after the task",
        ),
        (
            &["--", "check", "s.ws"],
            "-- comes after the task, where it ends the options",
        ),
        (&["--vesion"], "no such option: --vesion; is it --version?"),
        (&["-v"], "no such option: -v; is it -V?"),
        (&["-x"], "no such option: -x"),
        (&["-quiet", "check"], "no such option: -quiet"),
        (&["-"], "no such task: -"),
    ];
    for (call, expected) in calls {
        let output = wennathig(call, &[]);
        let said = stderr(&output);
        let expected = format!("wennathig: {expected}\nusage: wennathig ");
        assert!(said.starts_with(&expected), "{call:?}: {said}");
        assert_eq!((status(&output), stdout(&output).as_str()), (2, ""));
    }
}

#[test]
fn options_that_exclude_each_other_are_misuse() {
    let calls: [&[&str]; 10] = [
        &["check", "-", "--quiet", "--json"],
        &["run", "-", "--json", "--trace"],
        &["run", "-", "--quiet", "--trace"],
        &["run", "-", "--words", "-", "--json"],
        &["run", "-", "--words", "-", "--trace"],
        &["run", "a", "b", "--words", "c"],
        &["run", "a", "-", "--reads", "-"],
        &["check", "-", "a", "-"],
        &["check", "-", "--color", "blue"],
        &["asm", "a", "b", "-o", "c"],
    ];
    for call in calls {
        let output = wennathig(call, ONE);
        assert_eq!(status(&output), 2, "{call:?}");
        assert!(stderr(&output).contains("\nusage: wennathig "), "{call:?}");
        assert!(output.stdout.is_empty(), "{call:?}");
    }
}

#[test]
fn colour_is_only_where_it_is_asked_for() {
    let folder = folder("options-colour");
    let good = written(&folder, "good.ws", ONE);
    let bad = written(&folder, "bad.ws", b"procedure main\n  put n\n");
    let open = written(
        &folder,
        "open.ws",
        b"procedure main\n variable n: integer\n put n\n",
    );
    let output = wennathig(&["check", &good, "--color", "always"], &[]);
    assert_eq!(stdout(&output), "\x1b[32maccepted\x1b[0m 0 0\n");
    let output = wennathig(&["check", &open, "--color=always"], &[]);
    let said = stdout(&output);
    assert!(said.starts_with("\x1b[31mrefused\x1b[0m 5 "), "{said}");
    assert!(said.contains(&format!("\n\x1b[1m{open}:3:2:\x1b[0m byte ")));
    assert!(said.contains("\n    \x1b[31m^^^\x1b[0m\n"), "{said}");
    let output = wennathig(&["check", &bad, "--color=always"], &[]);
    let place = format!("wennathig: \x1b[1m{bad}:2:7:\x1b[0m ");
    assert!(stderr(&output).starts_with(&place), "{}", stderr(&output));
    let object = wennathig(&["check", "--json", &open, "--color=always"], &[]);
    assert!(!stdout(&object).contains('\x1b'));
    // Neither of the two is a terminal here.
    for when in ["auto", "never"] {
        let output = wennathig(&["check", &open, &bad, "--color", when], &[]);
        let both = stdout(&output) + &stderr(&output);
        assert!(!both.contains('\x1b'), "{both}");
    }
}

/// What the command prints on a terminal, with these variables set and these
/// arguments. It is ended after a while.
fn on_terminal(variables: &str, arguments: &str) -> String {
    let command = env!("CARGO_BIN_EXE_wennathig");
    let line = format!("env {variables} timeout 3 '{command}' {arguments}");
    let output = Command::new("script")
        .args(["-qec", &line, "/dev/null"])
        .env_remove("NO_COLOR")
        .stdin(Stdio::null())
        .output()
        .expect("script, of the package bsdutils");
    stdout(&output)
}

#[test]
fn a_terminal_has_colour_unless_it_is_refused() {
    let folder = folder("options-terminal");
    let sheet = written(&folder, "one.ws", ONE);
    let call = format!("check '{sheet}'");
    let painted = "\x1b[32maccepted\x1b[0m 0 0";
    for variables in ["TERM=xterm", "TERM=xterm NO_COLOR="] {
        assert_eq!(on_terminal(variables, &call).trim_end(), painted);
    }
    for variables in ["TERM=dumb", "TERM=xterm NO_COLOR=1"] {
        let said = on_terminal(variables, &call);
        assert_eq!(said.trim_end(), "accepted 0 0", "{variables}");
    }
}

/// Runs until its fuel is spent, which takes longer than a test waits.
const ENDLESS: &[u8] = b"procedure main
    variable zero: integer
    set zero := 0
again:
    jumpzero zero, again
    return
";

#[test]
fn a_long_run_shows_that_it_lives_unless_it_is_quiet_or_the_terminal_dumb() {
    let folder = folder("options-progress");
    let sheet = written(&folder, "endless.ws", ENDLESS);
    let call = format!("run '{sheet}' --fuel={}", u64::MAX);
    let quiet = format!("{call} --quiet");
    let calls = [
        ("TERM=xterm", &call, true),
        ("TERM=xterm", &quiet, false),
        ("TERM=dumb", &call, false),
    ];
    thread::scope(|scope| {
        for (variables, call, is_shown) in calls {
            scope.spawn(move || {
                let said = on_terminal(variables, call);
                assert_eq!(said.contains("\rrunning, 1 s"), is_shown, "{said:?}");
                assert!(is_shown || said.is_empty(), "{said:?}");
            });
        }
    });
}
