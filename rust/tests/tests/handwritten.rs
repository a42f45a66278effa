//! The hand-written sheets and runs on both engines.

use comparison::{agreed, machines, proved};
use generator::handwritten::{cases, runs};
use generator::showcase::showcases;
use reference::Verdict;

#[test]
fn both_engines_give_the_written_verdicts() {
    let mut wrong = Vec::new();
    for case in cases() {
        for (engine, found) in [
            ("reference", reference::check(&case.sheet)),
            ("proved", proved(&case.sheet)),
        ] {
            if found != case.expected {
                let (name, sentence, expected) = (case.name, case.sentence, case.expected);
                wrong.push(format!(
                    "{name} ({sentence}): {engine} {found:?}, expected {expected:?}"
                ));
            }
        }
    }
    assert!(wrong.is_empty(), "{}", wrong.join("\n"));
}

#[test]
fn both_engines_give_the_written_outcomes() {
    let mut wrong = Vec::new();
    for case in runs::cases() {
        let (run, name, sentence) = (&case.run, case.name, case.sentence);
        let (by_run, by_watch) = (case.expected_run(), case.expected_watch());
        for (machine, found, expected) in [
            ("reference run", run.on(reference::run), &by_run),
            ("proved run", run.on(machines::run), &by_run),
            ("reference watch", run.on(reference::watch), &by_watch),
            ("proved watch", run.on(machines::watch), &by_watch),
        ] {
            if found != *expected {
                wrong.push(format!(
                    "{name} ({sentence}): {machine} {found:?}, expected {expected:?}"
                ));
            }
        }
    }
    assert!(wrong.is_empty(), "{}", wrong.join("\n"));
}

#[test]
fn showcases_are_accepted() {
    for sheet in showcases() {
        assert_eq!(agreed(&sheet.encode()), Ok(Verdict::Accepted));
    }
}
