//! Files that are too long, written over or not to be written, streams that
//! are closed or not ready, and messages that a terminal would obey.

mod common;

use common::{folder, status, stderr, stdout, wennathig, written};
use std::fs::{self, File, OpenOptions};
use std::io::{Read, Write};
use std::os::fd::OwnedFd;
use std::os::unix::fs::{symlink, PermissionsExt};
use std::os::unix::net::UnixStream;
use std::path::Path;
use std::process::{Child, Command, Output, Stdio};
use std::thread;
use std::time::{Duration, Instant};

const TEXT: &[u8] = b"procedure main\n    return\n";
const PUT: &[u8] = b"procedure main\n  variable n: integer\n  set n := 7\n  put n\n  return\n";

/// Far more than any of these takes, and far less than they took.
const AT_ONCE: Duration = Duration::from_secs(5);

fn at_once(arguments: &[&str]) -> Output {
    let began = Instant::now();
    let output = wennathig(arguments, &[]);
    assert!(began.elapsed() < AT_ONCE, "{arguments:?}");
    output
}

#[test]
fn no_more_is_read_than_is_needed() {
    let folder = folder("faults-long");
    let zeros = folder.join("zeros");
    let file = File::create(&zeros).expect("a file");
    file.set_len(60_000_000).expect("a long file");
    let zeros = zeros.to_str().expect("a path");
    let expected = "refused 1 0\noverlong: more than 32,768 bytes\n  \
                    the sheet has more than 32,768 bytes, the most that there may be\n";
    for call in [
        &["check", zeros][..],
        &["check", "/dev/zero"],
        &["check", "--bytes", "/dev/zero"],
        &["run", "/dev/zero"],
        &["watch", "/dev/zero"],
    ] {
        let output = at_once(call);
        assert_eq!((status(&output), stdout(&output).as_str()), (1, expected));
    }
}

#[test]
fn a_file_that_is_too_long_is_an_error_at_once() {
    let folder = folder("faults-limits");
    let named = folder.join("zero.ws");
    symlink("/dev/zero", &named).expect("a link");
    let named = named.to_str().expect("a path");
    let too_long: [(&[&str], &str); 5] = [
        (&["check", named], "zero.ws is longer than 16777216 bytes\n"),
        (
            &["check", "--text", "/dev/zero"],
            "is longer than 16777216 bytes\n",
        ),
        (
            &["asm", "/dev/zero", "-o", "-"],
            "is longer than 16777216 bytes\n",
        ),
        (&["dis", "/dev/zero"], "is longer than 524288 bytes\n"),
        (
            &["run", "-", "--reads", "/dev/zero"],
            "is longer than 67108864 bytes\n",
        ),
    ];
    for (call, expected) in too_long {
        let output = at_once(call);
        assert_eq!((status(&output), stdout(&output).as_str()), (2, ""));
        assert!(stderr(&output).ends_with(expected), "{}", stderr(&output));
    }
}

#[test]
fn a_sheet_of_one_byte_too_many_is_overlong_and_the_longest_is_not() {
    let longest = wennathig(&["check", "--bytes", "-"], &vec![0; 32_768]);
    assert!(stdout(&longest).starts_with("refused 3 0\n"));
    let more = wennathig(&["check", "-"], &vec![0; 32_769]);
    assert!(stdout(&more).starts_with("refused 1 0\n"));
    // What is printed at first and not at last is no text.
    let mut mixed = vec![b'#'; 100_000];
    mixed.push(0);
    let output = wennathig(&["check", "-"], &mixed);
    assert!(stdout(&output).starts_with("refused 1 0\n"));
    // A character that stands across the limit of a sheet is no fault of a text.
    let text = format!("#{}\nprocedure main\n return\n", "é".repeat(40_000));
    let output = wennathig(&["check", "-"], text.as_bytes());
    assert_eq!(stdout(&output), "accepted 0 0\n");
}

#[test]
fn overlong_bytes_have_a_text_that_assembles_to_them() {
    // The longest text of so many bytes: a stray one before each short record.
    let bytes = b"\0VR\0\0".repeat((512 << 10) / 5);
    let text = wennathig(&["dis", "-"], &bytes);
    assert_eq!(status(&text), 0);
    assert!(text.stdout.len() < 16 << 20);
    let again = wennathig(&["asm", "-", "-o", "-"], &text.stdout);
    assert!(again.stdout == bytes, "{}", stderr(&again));
    let checked = wennathig(&["check", "--text", "-"], &text.stdout);
    let length = "the sheet has 524,285 bytes, 491,517 more than there may be";
    assert!(stdout(&checked).contains(length));
}

#[test]
fn nothing_is_written_over_what_is_read() {
    let folder = folder("faults-over");
    let text = written(&folder, "sheet.ws", TEXT);
    let reads = written(&folder, "reads", b"1\n");
    let link = folder.join("link");
    symlink(&text, &link).expect("a link");
    let link = link.to_str().expect("a path");
    let hard = folder.join("hard");
    fs::hard_link(&text, &hard).expect("a second name");
    let hard = hard.to_str().expect("a path");
    let around = format!("{}/../faults-over/sheet.ws", folder.display());
    let calls: [&[&str]; 9] = [
        &["asm", &text, "-o", &text],
        &["asm", &text, "-o", link],
        &["asm", link, "-o", &text],
        &["asm", &text, "-o", hard],
        &["asm", &text, "-o", &around],
        &["dis", &text, "-o", &text],
        &["run", &text, "--words", link],
        &["run", &text, "--reads", &reads, "--words", &text],
        &["run", &text, "--reads", &reads, "--words", &reads],
    ];
    for call in calls {
        let output = wennathig(call, &[]);
        assert_eq!((status(&output), stdout(&output).as_str()), (2, ""));
        assert!(stderr(&output).contains("the same file"), "{call:?}");
        assert_eq!(fs::read(&text).expect("the text"), TEXT, "{call:?}");
        assert_eq!(fs::read(&reads).expect("the reads"), b"1\n", "{call:?}");
    }
    // Standard input is a file too.
    let output = Command::new(env!("CARGO_BIN_EXE_wennathig"))
        .args(["asm", "-", "-o", &text])
        .stdin(File::open(&text).expect("the text"))
        .output()
        .expect("the command starts");
    assert_eq!(status(&output), 2);
    assert_eq!(fs::read(&text).expect("the text"), TEXT);
}

#[test]
fn a_file_is_replaced_whole_and_keeps_its_mode_and_its_links() {
    let folder = folder("faults-whole");
    let text = written(&folder, "sheet.ws", TEXT);
    let out = written(&folder, "out", b"old");
    fs::set_permissions(&out, fs::Permissions::from_mode(0o640)).expect("a mode");
    let link = folder.join("link");
    symlink("out", &link).expect("a link");
    let asm = |to: &Path| wennathig(&["asm", &text, "-o", to.to_str().expect("a path")], &[]);
    assert_eq!(status(&asm(&link)), 0);
    let sheet = fs::read(&out).expect("the sheet");
    assert!(sheet.starts_with(b"HD"));
    let mode = fs::metadata(&out).expect("the sheet").permissions().mode();
    assert_eq!(mode & 0o777, 0o640);
    let is_link = fs::symlink_metadata(&link).expect("the link").is_symlink();
    assert!(is_link);
    // All names of a file have what is written to one.
    let other = folder.join("other");
    fs::hard_link(&out, &other).expect("a second name");
    fs::write(&out, b"old").expect("the file");
    assert_eq!(status(&asm(&other)), 0);
    assert_eq!(fs::read(&out).expect("the sheet"), sheet);
    // A link to nothing makes its file.
    let dangling = folder.join("dangling");
    symlink("made", &dangling).expect("a link");
    assert_eq!(status(&asm(&dangling)), 0);
    assert_eq!(fs::read(folder.join("made")).expect("the sheet"), sheet);
    // Nothing is left beside what is written.
    let names = fs::read_dir(&folder).expect("the folder").count();
    assert_eq!(names, 6);
}

/// The command with its standard output at a device that is always full.
fn to_full(arguments: &[&str]) -> Output {
    let full = OpenOptions::new().write(true).open("/dev/full");
    Command::new(env!("CARGO_BIN_EXE_wennathig"))
        .args(arguments)
        .stdin(Stdio::null())
        .stdout(full.expect("the device"))
        .stderr(Stdio::piped())
        .output()
        .expect("the command starts")
}

#[test]
fn an_output_that_takes_nothing_is_3() {
    let folder = folder("faults-full");
    let text = written(&folder, "sheet.ws", TEXT);
    let wrong = written(&folder, "wrong.ws", b"procedure main\n  put n\n");
    let calls: [&[&str]; 9] = [
        &["check", &text],
        &["check", "--json", &text],
        &["check", &text, &wrong, &text],
        &["run", &text],
        &["run", "--json", &text, &text],
        &["asm", &text, "-o", "-"],
        &["asm", &text, "-o", "/dev/stdout"],
        &["help"],
        &["--version"],
    ];
    for call in calls {
        let output = to_full(call);
        assert_eq!(status(&output), 3, "{call:?}");
        assert!(stderr(&output).contains("cannot be written: "), "{call:?}");
    }
    let put = b"procedure main\n  variable n: integer\n  set n := 1\n  put n\n  return\n";
    let put = written(&folder, "put.ws", put);
    for call in [
        ["run", &put, "--words", "/dev/full"],
        ["run", &put, "--words", "/nowhere/at/all"],
        ["asm", &put, "-o", "/dev/full"],
        ["dis", &put, "-o", "/dev/full"],
    ] {
        let output = wennathig(&call, &[]);
        assert_eq!((status(&output), stdout(&output).as_str()), (3, ""));
        let message = format!("wennathig: {} cannot be written: ", call[3]);
        assert!(stderr(&output).starts_with(&message), "{}", stderr(&output));
    }
}

#[test]
fn messages_are_short_and_nothing_that_a_terminal_obeys() {
    let folder = folder("faults-messages");
    let obeyed = |said: &str| said.chars().any(|c| c.is_control() && c != '\n');
    let turned = "procedure main\n  \u{202e}\u{1b}[31mput n\n";
    let turned = written(&folder, "turned.ws", turned.as_bytes());
    let output = wennathig(&["check", &turned], &[]);
    let said = stderr(&output);
    assert!(!obeyed(&said) && !said.contains('\u{202e}'), "{said:?}");
    assert!(
        said.ends_with("    \u{fffd}\u{fffd}[31mput n\n    ^\n"),
        "{said:?}"
    );
    // A refused line of a text, with an escape in its comment.
    let comment =
        "procedure main\n  variable t: tray[integer]{fetch}\n  put t # \u{1b}[2J\n  return\n";
    let comment = written(&folder, "comment.ws", comment.as_bytes());
    let said = stdout(&wennathig(&["check", &comment], &[]));
    assert!(!obeyed(&said), "{said:?}");
    // A long line is shown in part, before, around and after what is marked.
    let long = format!("procedure main\n  put n # {}\n", "x".repeat(5_000_000));
    let long = written(&folder, "long.ws", long.as_bytes());
    let said = stderr(&wennathig(&["check", &long], &[]));
    assert!(said.len() < 1_000, "{} bytes", said.len());
    let name = format!("/nowhere/{}", "\u{1b}]0;x\u{7}");
    let said = stderr(&wennathig(&["check", &name], &[]));
    assert!(said.starts_with("wennathig: /nowhere/\\u{1b}]0;x\\u{7} cannot be read: "));
}

/// What a shell does in a folder with put.ws, reads and the command as $W.
fn shell(folder: &Path, script: &str) -> Output {
    written(folder, "put.ws", PUT);
    written(folder, "reads", b"1 2\n");
    Command::new("sh")
        .args(["-c", script])
        .env("W", env!("CARGO_BIN_EXE_wennathig"))
        .current_dir(folder)
        .stdin(Stdio::null())
        .output()
        .expect("the shell starts")
}

#[test]
fn a_file_that_is_open_as_a_stream_keeps_what_others_write_there() {
    let folder = folder("faults-streams");
    let run = "$W run put.ws --reads reads";
    let around = |words: &str| format!("{{ echo before; {run} {words}; echo after; }}");
    let around_3 = |to: &str| {
        format!("{{ echo before >&3; $W run put.ws -q --words {to}; echo after >&3; }} 3>log")
    };
    symlink("/dev/fd/3", folder.join("link")).expect("a link");
    let said = stdout(&shell(&folder, run));
    let (_, rest) = said.split_once("7\n").expect("the word put");
    let all = format!("before\n7\n{rest}after\n");
    let cases = [
        (format!("{} >log", around("--words /dev/stdout")), &all),
        (format!("{} >log", around("--words /dev/fd/1")), &all),
        (format!("{} >log", around("--words log")), &all),
        (format!("{} >>log", around("--words ./log")), &all),
        (format!("{} >log 2>&1", around("--words /dev/stderr")), &all),
        (around_3("/dev/fd/3"), &String::from("before\n7\nafter\n")),
        (around_3("link"), &String::from("before\n7\nafter\n")),
    ];
    for (script, expected) in cases {
        let output = shell(&folder, &format!("rm -f log; {script}; cat log"));
        assert_eq!(&stdout(&output), expected, "{script}");
        assert_eq!((status(&output), stderr(&output).as_str()), (0, ""));
    }
}

#[test]
fn what_is_written_to_a_stream_stands_in_its_order() {
    let folder = folder("faults-order");
    // The trace comes before the words by whatever descriptor they go.
    let traced = "$W run put.ws --trace --words /dev/fd/3 3>&1";
    let said = stdout(&shell(&folder, traced));
    assert!(said.contains("main ends\n7\nstopped 11 "), "{said}");
    let sheet = shell(&folder, "$W asm put.ws -o -").stdout;
    for to in ["/dev/stdout", "-", "log"] {
        let script = format!("{{ echo before; $W asm put.ws -o {to}; echo after; }} >log; cat log");
        let expected = [b"before\n", &sheet[..], b"after\n"].concat();
        assert_eq!(shell(&folder, &script).stdout, expected, "{to}");
    }
}

#[test]
fn an_input_that_is_closed_is_an_error() {
    let folder = folder("faults-closed-input");
    let reading = [
        ("check - <&-", "standard input"),
        ("check --json - <&- >/dev/null", "standard input"),
        ("run put.ws --reads - <&-", "standard input"),
        ("asm - -o out <&-", "standard input"),
        ("check /dev/stdin <&-", "/dev/stdin"),
        // Open, but not to be read.
        ("check - 0>out", "standard input"),
    ];
    for (call, name) in reading {
        let output = shell(&folder, &format!("$W {call}"));
        assert_eq!((status(&output), stdout(&output).as_str()), (2, ""));
        let message = format!("wennathig: {name} cannot be read: Bad file descriptor");
        assert!(stderr(&output).starts_with(&message), "{call}");
    }
}

#[test]
fn an_output_that_is_closed_is_an_error_where_it_is_needed() {
    let folder = folder("faults-closed-output");
    for call in [
        "check put.ws >&-",
        "run put.ws >&-",
        "run put.ws --words out >&-",
        "asm put.ws -o - >&-",
        "asm put.ws -o /dev/stdout >&-",
        "dis put.ws >&-",
        "help >&-",
        "--version >&-",
        "check put.ws 1<put.ws",
    ] {
        let output = shell(&folder, &format!("$W {call}"));
        assert_eq!(status(&output), 3, "{call}");
        let message = "wennathig: the output cannot be written: Bad file descriptor";
        assert!(stderr(&output).starts_with(message), "{call}");
    }
    // What needs no stream does without, and a device given is no closed one.
    for call in [
        "check -q put.ws <&- >&- 2>&-",
        "asm put.ws -o out <&- >&- 2>&-",
        "run -q put.ws --words /dev/null >&-",
        "run put.ws --reads - </dev/null >/dev/null",
    ] {
        assert_eq!(status(&shell(&folder, &format!("$W {call}"))), 0, "{call}");
    }
}

/// The command with sockets that do not wait for its streams, and ours.
fn unready(arguments: &[&str]) -> (Child, UnixStream, UnixStream) {
    let socket = || {
        let (ours, theirs) = UnixStream::pair().expect("two sockets");
        theirs.set_nonblocking(true).expect("a socket");
        (ours, Stdio::from(OwnedFd::from(theirs)))
    };
    let ((input, stdin), (output, stdout)) = (socket(), socket());
    let child = Command::new(env!("CARGO_BIN_EXE_wennathig"))
        .args(arguments)
        .stdin(stdin)
        .stdout(stdout)
        .spawn()
        .expect("the command starts");
    (child, input, output)
}

#[test]
fn a_stream_that_is_not_ready_is_waited_for() {
    // So much that an output without a reader is full.
    let bytes = b"\0VR\0\0".repeat(50_000);
    let expected = wennathig(&["dis", "-"], &bytes).stdout;
    let (mut child, mut input, mut output) = unready(&["dis", "-"]);
    for half in bytes.chunks(bytes.len() / 2) {
        thread::sleep(Duration::from_millis(50));
        input.write_all(half).expect("the command reads");
    }
    drop(input);
    thread::sleep(Duration::from_millis(200));
    let mut found = Vec::new();
    output.read_to_end(&mut found).expect("the command writes");
    assert!(found == expected, "{} bytes", found.len());
    assert_eq!(child.wait().expect("it ends").code(), Some(0));
}

#[test]
fn a_reader_that_is_gone_is_an_error_for_a_sheet_or_a_text_only() {
    let folder = folder("faults-gone");
    let put = written(&folder, "put.ws", PUT);
    let cases: [(&[&str], i32, &str); 6] = [
        (&["asm", &put, "-o", "-"], 3, "Broken pipe"),
        (&["asm", &put, "-o", "/dev/stdout"], 3, "Broken pipe"),
        (&["dis", &put], 3, "Broken pipe"),
        (&["check", &put], 0, ""),
        (&["run", &put], 0, ""),
        (&["help"], 0, ""),
    ];
    for (call, expected, cause) in cases {
        let (ours, theirs) = UnixStream::pair().expect("two sockets");
        drop(ours);
        let output = Command::new(env!("CARGO_BIN_EXE_wennathig"))
            .args(call)
            .stdout(OwnedFd::from(theirs))
            .stderr(Stdio::piped())
            .output()
            .expect("the command starts");
        assert_eq!(status(&output), expected, "{call:?}");
        let said = stderr(&output);
        assert_eq!(said.lines().count(), usize::from(expected != 0), "{said}");
        assert!(said.contains(cause), "{said}");
    }
}

#[test]
fn a_report_for_which_there_is_no_memory_is_misuse() {
    let folder = folder("faults-memory");
    let script = "ulimit -v 60000; $W run --report 16777216 put.ws --fuel 10";
    let output = shell(&folder, script);
    assert_eq!((status(&output), stdout(&output).as_str()), (2, ""));
    let expected = "wennathig: --report 16777216: there is not so much memory\n";
    assert_eq!(stderr(&output), expected);
}

#[test]
fn an_empty_name_is_misuse() {
    let folder = folder("faults-empty");
    let put = written(&folder, "put.ws", PUT);
    let calls: [&[&str]; 7] = [
        &["check", ""],
        &["run", &put, "--reads", ""],
        &["run", &put, "--words", ""],
        &["asm", "", "-o", "-"],
        &["asm", &put, "-o", ""],
        &["dis", ""],
        &["dis", &put, "-o", ""],
    ];
    for call in calls {
        let output = wennathig(call, &[]);
        assert_eq!((status(&output), stdout(&output).as_str()), (2, ""));
        let expected = "wennathig: the name of a file cannot be empty\n";
        assert_eq!(stderr(&output), expected, "{call:?}");
    }
}
