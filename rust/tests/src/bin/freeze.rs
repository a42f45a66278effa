//! Writes the file of frozen answers, from a seed. It does so once: a file that
//! there is stays as it is, unless it is said that it be lost.

use comparison::frozen::answers::{PROVED, SECOND};
use comparison::frozen::{draw, written, Entry, ENTRIES, FOLDER};
use std::path::PathBuf;
use std::process::ExitCode;
use std::{env, fs};

const USAGE: &str = "freeze SEED [--overwrite]";

/// The entry of a run, of which both engines say the same.
fn frozen((kind, run): draw::Drawn) -> Entry {
    let answers = PROVED.answers(&run);
    assert_eq!(answers, SECOND.answers(&run), "{kind}");
    Entry { kind, run, answers }
}

fn main() -> ExitCode {
    let arguments: Vec<String> = env::args().skip(1).collect();
    let (seed, overwrite) = match &arguments[..] {
        [seed] => (seed, false),
        [seed, flag] if flag == "--overwrite" => (seed, true),
        _ => return failed(USAGE),
    };
    let Ok(seed) = seed.parse() else {
        return failed(USAGE);
    };
    let path = PathBuf::from(FOLDER).join("answers.txt");
    if path.exists() && !overwrite {
        return failed("the answers are frozen: changed.txt is for those that a request changes");
    }
    let entries: Vec<Entry> = draw::all(seed).into_iter().map(frozen).collect();
    assert_eq!(entries.len(), ENTRIES);
    match fs::write(&path, written(&entries)) {
        Ok(()) => ExitCode::SUCCESS,
        Err(cause) => failed(&format!("{}: {cause}", path.display())),
    }
}

fn failed(why: &str) -> ExitCode {
    eprintln!("{why}");
    ExitCode::from(2)
}
