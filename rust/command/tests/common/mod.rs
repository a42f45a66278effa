//! The command as its users meet it.

#![allow(dead_code)] // each test file uses some of these

pub mod rules;

use std::fs;
use std::io::{ErrorKind, Write};
use std::path::{Path, PathBuf};
use std::process::{Command, Output, Stdio};

/// The smallest sheet.
pub const SMALLEST: &[u8] =
    b"HD\x01\x00\x00\x01PR\x00\x00\x00\xff\x01\x00IN\x11\xff\xff\xff\x00\x00";

/// Puts every word that it takes.
pub const ECHO: &str = "procedure main
    variable n, zero: integer
    set zero := 0
again:
    take n
    put n
    jumpzero zero, again
    return
";

/// Runs the command with the arguments and this standard input.
pub fn wennathig(arguments: &[&str], input: &[u8]) -> Output {
    let mut child = Command::new(env!("CARGO_BIN_EXE_wennathig"))
        .args(arguments)
        .stdin(Stdio::piped())
        .stdout(Stdio::piped())
        .stderr(Stdio::piped())
        .spawn()
        .expect("the command starts");
    let mut pipe = child.stdin.take().expect("standard input is a pipe");
    // A command that misses its arguments does not wait for its input.
    match pipe.write_all(input) {
        Err(cause) if cause.kind() == ErrorKind::BrokenPipe => {}
        outcome => outcome.expect("the command reads its input"),
    }
    drop(pipe);
    child.wait_with_output().expect("the command ends")
}

/// The exit status; a signal is none.
pub fn status(output: &Output) -> i32 {
    output.status.code().expect("an exit status")
}

pub fn stdout(output: &Output) -> String {
    String::from_utf8(output.stdout.clone()).expect("the output is text")
}

pub fn stderr(output: &Output) -> String {
    String::from_utf8(output.stderr.clone()).expect("the message is text")
}

/// A folder of its own for a test, empty.
pub fn folder(name: &str) -> PathBuf {
    let folder = PathBuf::from(env!("CARGO_TARGET_TMPDIR")).join(name);
    let _ = fs::remove_dir_all(&folder);
    fs::create_dir_all(&folder).expect("a folder for the test");
    folder
}

/// A file in a folder, and its path.
pub fn written(folder: &Path, name: &str, bytes: &[u8]) -> String {
    let path = folder.join(name);
    fs::write(&path, bytes).expect("a file for the test");
    path.to_str().expect("a plain path").to_owned()
}
