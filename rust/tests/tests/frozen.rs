//! Both engines on the frozen sheets: they say what they said when these were
//! frozen, but for what a request changed on purpose.

use comparison::frozen::answers::{fnv, number, shown, Answers, Engine, PROVED, SECOND};
use comparison::frozen::{changed, read, Entry, ENTRIES, FOLDER};
use comparison::hexadecimal;
use comparison::workers::on_all_processors;
use std::collections::BTreeMap;
use std::fs;

/// The hash of the file, which no request changes.
const FILE: u64 = 0x1eb7_5d60_d131_e0ba;

/// How often each number has to stand in the file at least.
const EACH: usize = 50;

fn text(name: &str) -> String {
    let path = format!("{FOLDER}/{name}");
    fs::read_to_string(&path).unwrap_or_else(|cause| panic!("{path}: {cause}"))
}

fn entries() -> Vec<Entry> {
    let entries = read(&text("answers.txt")).unwrap_or_else(|fault| panic!("{fault}"));
    assert_eq!(entries.len(), ENTRIES);
    entries
}

/// What an engine says instead of what is due, in the form of changed.txt.
fn fault(engine: &Engine, number: usize, entry: &Entry, due: &Answers) -> Option<String> {
    let answers = engine.answers(&entry.run);
    if answers == *due {
        return None;
    }
    let (name, found, due) = (engine.name, shown(&answers), shown(due));
    let (kind, sheet) = (&entry.kind, hexadecimal(&entry.run.sheet));
    Some(format!(
        "entry {number} ({kind}), {name}: {found}, not {due}, on {sheet}"
    ))
}

#[test]
fn the_proved_engine_gives_the_frozen_answers() {
    gives_the_frozen_answers(&PROVED);
}

#[test]
fn the_second_engine_gives_the_frozen_answers() {
    gives_the_frozen_answers(&SECOND);
}

fn gives_the_frozen_answers(engine: &Engine) {
    let entries = entries();
    let changes = changed::read(&text("changed.txt"));
    let due = changes.and_then(|changes| changed::due(&entries, &changes));
    let due = due.unwrap_or_else(|fault| panic!("changed.txt: {fault}"));
    let wrong = on_all_processors(ENTRIES as u64, |numbers| {
        let numbers = numbers.map(|number| number as usize);
        let all = numbers.filter_map(|at| fault(engine, at + 1, &entries[at], &due[at]));
        all.collect::<Vec<String>>()
    });
    let wrong = wrong.concat();
    assert!(wrong.is_empty(), "{}", wrong.join("\n"));
}

/// Check gives 1 to 9 or accepts, run gives 1 to 17, watch all but 6 to 9.
#[test]
fn every_number_is_frozen_often() {
    let mut counts = [(); 3].map(|()| BTreeMap::new());
    for Entry { answers, .. } in entries() {
        for (counts, answer) in counts.iter_mut().zip(&answers) {
            let number = number(answer).expect("the number of an answer");
            *counts.entry(number).or_insert(0) += 1;
        }
    }
    let [check, run, watch] = &counts;
    println!("check {check:?}, run {run:?}, watch {watch:?}");
    assert!(check.keys().copied().eq(0..=9));
    assert!(run.keys().copied().eq(1..=17));
    assert!(watch.keys().copied().eq((1..=5).chain(10..=19)));
    let least = counts.iter().flat_map(BTreeMap::values).min();
    assert!(least >= Some(&EACH), "{least:?}");
}

/// What edition 2 means was not for edition 1 to say: no sheet names it.
#[test]
fn no_frozen_sheet_is_of_edition_2() {
    let entries = entries();
    let mut sheets = entries.iter().map(|entry| &entry.run.sheet);
    assert!(!sheets.any(|sheet| sheet.starts_with(b"HD\x02")));
}

/// What a request changes stands in changed.txt; this file stays as it is.
#[test]
fn the_file_is_the_one_that_was_frozen() {
    let hash = fnv(text("answers.txt").bytes());
    assert_eq!(hash, FILE, "answers.txt has the hash {hash:#x}");
}
