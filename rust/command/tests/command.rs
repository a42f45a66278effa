//! The command's tasks: exit statuses, what is printed, what is written.

mod common;

use common::{folder, status, stderr, stdout, wennathig, written, ECHO, SMALLEST};
use generator::handwritten::runs;
use generator::loops;
use generator::runs::Run;
use reference::Outcome;
use std::fs;
use std::io::Read;
use std::path::PathBuf;
use std::process::{Command, Stdio};

#[test]
fn accepted_is_0_and_refused_is_1() {
    let output = wennathig(&["check", "-"], SMALLEST);
    assert_eq!(
        (status(&output), stdout(&output).as_str()),
        (0, "accepted 0 0\n")
    );
    let output = wennathig(&["check", "-"], &[]);
    assert_eq!(status(&output), 1);
    assert!(stdout(&output).starts_with("refused 2 0\ntorn: "));
    assert!(output.stderr.is_empty());
    let output = wennathig(&["run", "-"], &[]);
    assert_eq!(status(&output), 1);
    assert!(stdout(&output).starts_with("refused 2 0\ntorn: "));
}

#[test]
fn misuse_is_2_with_a_usage_line() {
    let calls: [&[&str]; 17] = [
        &[],
        &["chek", "-"],
        &["check"],
        &["check", "-", "-"],
        &["check", "-", "--fuel", "3"],
        &["check", "-", "--nothing"],
        &["check", "-", "--text", "--bytes"],
        &["run", "-", "--reads", "-"],
        &["run", "-", "--fuel"],
        &["run", "-", "--fuel", "-1"],
        &["run", "-", "--fuel", "+1"],
        &["run", "-", "--fuel", "18446744073709551616"],
        &["run", "-", "--fuel", "1", "--fuel", "2"],
        &["run", "-", "--memory", "x"],
        &["run", "-", "--report", "16777217"],
        &["asm", "-"],
        &["dis", "-", "--watch"],
    ];
    for call in calls {
        let output = wennathig(call, SMALLEST);
        assert_eq!(status(&output), 2, "{call:?}: {output:?}");
        assert!(output.stdout.is_empty(), "{call:?}");
        assert!(stderr(&output).contains("\nusage: wennathig "), "{call:?}");
    }
    for call in [["check", "/nowhere/at/all"], ["check", "/"]] {
        let output = wennathig(&call, &[]);
        assert_eq!(status(&output), 2, "{call:?}");
        assert!(stderr(&output).contains("cannot be read"), "{call:?}");
    }
    let help = wennathig(&["help"], &[]);
    assert_eq!(status(&help), 0);
    assert!(stdout(&help).starts_with("usage: wennathig check [OPTION].. FILE.."));
}

#[test]
fn a_text_with_an_error_is_not_written() {
    let folder = folder("error");
    let bad = written(
        &folder,
        "bad.ws",
        b"procedure main\n    set n := 1\n    return\n",
    );
    let out = folder.join("bad.sheet");
    let output = wennathig(&["asm", &bad, "-o", out.to_str().expect("a path")], &[]);
    assert_eq!(status(&output), 2);
    let expected =
        "bad.ws:2:9: expected a variable of `main`, found `n`\n    set n := 1\n        ^\n";
    assert!(stderr(&output).ends_with(expected), "{}", stderr(&output));
    assert!(!out.exists());
    // What was there before stays.
    fs::write(&out, SMALLEST).expect("a file");
    wennathig(&["asm", &bad, "-o", out.to_str().expect("a path")], &[]);
    assert_eq!(fs::read(&out).expect("the file"), SMALLEST);
    let bytes = written(&folder, "bytes.ws", b"procedure main\n  # \xff\n");
    let output = wennathig(&["check", &bytes], &[]);
    assert_eq!(status(&output), 2);
    assert!(
        stderr(&output).contains("bytes.ws:2:5: expected text"),
        "{}",
        stderr(&output)
    );
}

#[test]
fn text_and_bytes_are_told_apart() {
    let folder = folder("forms");
    let text = b"procedure main\n    return\n";
    let named = written(&folder, "sheet.ws", text);
    let plain = written(&folder, "sheet", text);
    let bytes = written(&folder, "sheet.bin", SMALLEST);
    for path in [&named, &plain, &bytes] {
        assert_eq!(stdout(&wennathig(&["check", path], &[])), "accepted 0 0\n");
    }
    let forced = wennathig(&["check", &plain, "--bytes"], &[]);
    assert!(
        stdout(&forced).starts_with("refused 3 0\n"),
        "{}",
        stdout(&forced)
    );
    let forced = wennathig(&["check", &bytes, "--text"], &[]);
    assert_eq!(status(&forced), 2);
    // No procedure: a text, but not a sheet that is accepted.
    let empty = written(&folder, "empty.ws", b"");
    assert!(stdout(&wennathig(&["check", &empty], &[])).starts_with("refused 5 0\n"));
}

#[test]
fn assembled_and_disassembled_files_are_the_same_sheet() {
    let folder = folder("files");
    let text = written(&folder, "echo.ws", ECHO.as_bytes());
    let sheet = folder.join("echo.sheet");
    let again = folder.join("again.ws");
    let path = |path: &PathBuf| path.to_str().expect("a path").to_owned();
    let output = wennathig(&["asm", &text, "-o", &path(&sheet)], &[]);
    assert_eq!((status(&output), stdout(&output).as_str()), (0, ""));
    assert_eq!(
        status(&wennathig(
            &["dis", &path(&sheet), "-o", &path(&again)],
            &[]
        )),
        0
    );
    let printed = wennathig(&["dis", &path(&sheet)], &[]);
    assert_eq!(printed.stdout, fs::read(&again).expect("the text"));
    let piped = wennathig(&["asm", &path(&again), "-o", "-"], &[]);
    assert_eq!(piped.stdout, fs::read(&sheet).expect("the sheet"));
}

#[test]
fn a_run_prints_the_report_and_then_the_stop() {
    let folder = folder("run");
    let sheet = written(&folder, "echo.ws", ECHO.as_bytes());
    let reads = written(&folder, "reads", b"7\n\n  8 # two\n4294967295\n");
    let output = wennathig(&["run", &sheet, "--reads", &reads], &[]);
    assert_eq!(status(&output), 0);
    assert!(
        output.stderr.is_empty(),
        "no progress where there is no terminal"
    );
    let printed = stdout(&output).replace(&sheet, "SHEET");
    let expected = "7\n8\n4294967295\nstopped 15 reads ended: none is left to take\n\
                    steps 10, words put 3\nSHEET:5:5: byte 36, in main, instruction 1\n    \
                    take n\n    ^^^^^^\n  the reads are 3, and all are taken\n";
    assert_eq!(printed, expected);
    let piped = wennathig(&["run", &sheet, "--reads", "-"], b"7\n8\n4294967295");
    assert_eq!(piped.stdout, output.stdout);
    for (bad, place) in [
        ("7\nx\n", "2:1"),
        ("4294967296", "1:1"),
        (" -1", "1:2"),
        ("+1", "1:1"),
    ] {
        let output = wennathig(&["run", &sheet, "--reads", "-"], bad.as_bytes());
        assert_eq!(status(&output), 2, "{bad}");
        let message = format!("standard input:{place}: expected a number from 0 to 4294967295");
        assert!(stderr(&output).contains(&message), "{}", stderr(&output));
    }
}

#[test]
fn fuel_memory_and_report_are_lent_as_asked() {
    let first = |options: &[&str]| {
        let mut call = vec!["run", "-"];
        call.extend(options);
        let output = wennathig(&call, SMALLEST);
        let printed = stdout(&output);
        (
            status(&output),
            printed.lines().next().unwrap_or_default().to_owned(),
        )
    };
    let starts = |(_, line): (i32, String), start: &str| assert!(line.starts_with(start), "{line}");
    starts(first(&["--fuel", "1", "--memory", "2"]), "stopped 11 done");
    starts(
        first(&["--fuel", "0", "--memory", "2"]),
        "stopped 12 fuel spent",
    );
    starts(
        first(&["--fuel", "0", "--memory", "1"]),
        "stopped 17 bench full",
    );
    starts(first(&["--report", "0"]), "stopped 11 done");
    for memory in ["65537", "18446744073709551615"] {
        assert_eq!(
            first(&["--memory", memory]),
            (1, String::from("refused 10 0"))
        );
        assert_eq!(
            first(&["--memory", memory, "--watch"]),
            (1, String::from("refused 10 0"))
        );
    }
}

/// What the command prints for a run of the hand-written tables.
fn printed(run: &Run, options: &[&str], number: usize) -> (i32, String) {
    let folder = folder(&format!("handwritten{number}"));
    let sheet = written(&folder, "sheet", &run.sheet);
    let reads: Vec<String> = run.input.iter().map(u32::to_string).collect();
    let reads = written(&folder, "reads", reads.join("\n").as_bytes());
    let [fuel, memory, report] = [
        run.fuel.to_string(),
        run.memory_words.to_string(),
        run.output.len().to_string(),
    ];
    let mut call = vec!["run", "--bytes", &sheet, "--reads", &reads, "--fuel", &fuel];
    call.extend(["--memory", &memory, "--report", &report]);
    call.extend(options);
    let output = wennathig(&call, &[]);
    (status(&output), stdout(&output))
}

/// The words put and the beginning of the stop or of the refusal.
fn due(outcome: Outcome, put: &[u32]) -> (i32, String) {
    match outcome {
        Outcome::Refused { number, place } => (1, format!("refused {number} {place}\n")),
        Outcome::Stopped { stop, .. } => {
            let put: String = put.iter().map(|word| format!("{word}\n")).collect();
            (0, format!("{put}stopped {} ", stop as u8))
        }
    }
}

#[test]
fn hand_written_runs_print_what_is_written_out_for_them() {
    for (number, case) in runs::cases().into_iter().enumerate() {
        let expected = &case.expected;
        for (options, outcome) in [(&[][..], expected.run), (&["--watch"][..], expected.watch)] {
            let (status, printed) = printed(&case.run, options, number);
            let (due_status, due) = due(outcome, &expected.put);
            assert_eq!(status, due_status, "{}: {printed}", case.name);
            assert!(printed.starts_with(&due), "{}: {printed}", case.name);
            if let Outcome::Stopped { steps, words, .. } = outcome {
                let line = format!("\nsteps {steps}, words put {words}\n");
                assert!(printed.contains(&line), "{}: {printed}", case.name);
            }
        }
    }
}

#[test]
fn a_trace_has_a_line_for_every_step() {
    for (number, case) in runs::cases().into_iter().enumerate() {
        let number = number + 1_000;
        let expected = &case.expected;
        let tasks = [
            (&["--trace"][..], expected.run),
            (&["--watch", "--trace"][..], expected.watch),
        ];
        for (options, outcome) in tasks {
            let Outcome::Stopped { steps, .. } = outcome else {
                continue;
            };
            let (status, printed) = printed(&case.run, options, number);
            assert_eq!(status, 0, "{}: {printed}", case.name);
            let lines = printed.lines().filter(|line| line.starts_with("step "));
            assert_eq!(lines.count() as u64, steps, "{}: {printed}", case.name);
        }
    }
    let output = wennathig(
        &["run", "-", "--trace", "--fuel", "3"],
        &loops::arithmetic().encode(),
    );
    let printed = stdout(&output);
    let second: Vec<&str> = printed
        .lines()
        .nth(1)
        .unwrap_or_default()
        .split_whitespace()
        .collect();
    assert_eq!(second.join(" "), "step 2 line 10 main 1 set v1 := 1 v1 = 1");
}

/// The reader of a long trace goes away: nothing is said, and the status is
/// that of the run.
#[test]
fn a_closed_pipe_ends_the_command_quietly() {
    let folder = folder("pipe");
    let sheet = written(&folder, "loop", &loops::arithmetic().encode());
    let mut child = Command::new(env!("CARGO_BIN_EXE_wennathig"))
        .args(["run", &sheet, "--trace"])
        .stdin(Stdio::null())
        .stdout(Stdio::piped())
        .stderr(Stdio::piped())
        .spawn()
        .expect("the command starts");
    let mut pipe = child.stdout.take().expect("a pipe");
    pipe.read_exact(&mut [0; 100]).expect("the first lines");
    drop(pipe);
    let output = child.wait_with_output().expect("the command ends");
    assert_eq!((status(&output), stderr(&output).as_str()), (0, ""));
}

#[test]
fn an_output_that_cannot_be_written_is_3() {
    let output = wennathig(
        &["asm", "/dev/stdin", "-o", "/nowhere/at/all"],
        b"procedure main\nreturn",
    );
    assert_eq!(status(&output), 3, "{output:?}");
    assert!(stderr(&output).contains("cannot be written"));
}
