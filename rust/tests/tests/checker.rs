//! The checking program, fed through its standard input.

use generator::accepted::accepted;
use generator::breach::Flaw;
use generator::damage::{damaged, random_bytes};
use generator::handwritten::cases;
use generator::large::mostly_instructions;
use generator::Random;
use reference::Verdict;
use std::env;
use std::ffi::OsString;
use std::io::{ErrorKind, Write};
use std::process::{Child, Command, Stdio};
use std::thread::sleep;
use std::time::Duration;

fn start() -> Child {
    let beside = concat!(env!("CARGO_MANIFEST_DIR"), "/../../build/wennathig-check");
    let path = env::var_os("WENNATHIG_CHECKER").unwrap_or_else(|| OsString::from(beside));
    Command::new(&path)
        .stdin(Stdio::piped())
        .stdout(Stdio::piped())
        .spawn()
        .unwrap_or_else(|cause| panic!("{} does not start: {cause}", path.to_string_lossy()))
}

/// Writes the pieces one by one, with a pause between them, and gives all
/// that the program prints. It may close its input once that is too long.
fn printed(pieces: &[&[u8]], pause: Duration) -> String {
    let mut child = start();
    let mut input = child.stdin.take().expect("standard input is a pipe");
    for (number, piece) in pieces.iter().enumerate() {
        if number > 0 {
            sleep(pause);
        }
        match input.write_all(piece).and_then(|()| input.flush()) {
            Err(cause) if cause.kind() == ErrorKind::BrokenPipe => break,
            outcome => outcome.expect("the program reads its input"),
        }
    }
    drop(input);
    let output = child.wait_with_output().expect("the program ends");
    String::from_utf8(output.stdout).expect("the output is text")
}

fn checked(sheet: &[u8]) -> String {
    printed(&[sheet], Duration::ZERO)
}

fn line(verdict: Verdict) -> String {
    match verdict {
        Verdict::Accepted => String::from("accepted 0 0\n"),
        Verdict::Refused { number, place } => format!("refused {number} {place}\n"),
    }
}

const SMALLEST: &[u8] = b"HD\x01\x00\x00\x01PR\x00\x00\x00\xff\x01\x00IN\x11\xff\xff\xff\x00\x00";

#[test]
fn empty_input() {
    assert_eq!(checked(&[]), "refused 2 0\n");
}

#[test]
fn smallest_sheet() {
    assert_eq!(checked(SMALLEST), "accepted 0 0\n");
}

#[test]
fn overlong_input() {
    for length in [32_769, 32_770, 65_536, 1_000_000] {
        assert_eq!(checked(&vec![b'H'; length]), "refused 1 0\n", "{length}");
    }
    let mut sheet = SMALLEST.to_vec();
    sheet.resize(32_768, 0);
    assert_eq!(checked(&sheet), "refused 2 22\n");
    sheet.push(0);
    assert_eq!(checked(&sheet), "refused 1 0\n");
}

#[test]
fn slow_pieces() {
    let pause = Duration::from_millis(20);
    let (first, rest) = SMALLEST.split_at(1);
    let (second, rest) = rest.split_at(7);
    assert_eq!(printed(&[first, second, rest], pause), "accepted 0 0\n");
    assert_eq!(printed(&[first, second], pause), "refused 2 6\n");
    let bytes: Vec<&[u8]> = SMALLEST.chunks(1).collect();
    let short = Duration::from_millis(2);
    assert_eq!(printed(&bytes, short), "accepted 0 0\n");
}

#[test]
fn slow_pieces_of_large_input() {
    let pause = Duration::from_millis(5);
    let large = mostly_instructions(32_768).encode();
    let pieces: Vec<&[u8]> = large.chunks(3_001).collect();
    assert_eq!(printed(&pieces, pause), "accepted 0 0\n");
    let overlong = vec![0; 40_000];
    let pieces: Vec<&[u8]> = overlong.chunks(3_001).collect();
    assert_eq!(printed(&pieces, pause), "refused 1 0\n");
    let (most, last) = overlong[..32_769].split_at(32_768);
    assert_eq!(printed(&[most, last], pause), "refused 1 0\n");
}

#[test]
fn hand_written_sheets() {
    for case in cases() {
        assert_eq!(checked(&case.sheet), line(case.expected), "{}", case.name);
    }
}

#[test]
fn generated_sheets() {
    for seed in 0..100 {
        let mut random = Random::new(seed);
        let sound = accepted(&mut random);
        let flaws = Flaw::all();
        let flaw = flaws[random.below(flaws.len())].build(&mut random);
        for sheet in [
            sound.encode(),
            damaged(&mut random, &sound),
            random_bytes(&mut random),
            flaw.broken.encode(),
        ] {
            assert_eq!(checked(&sheet), line(reference::check(&sheet)), "{seed}");
        }
    }
}
