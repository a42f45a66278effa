//! The hand-written runs on the second engine.

use generator::handwritten::runs::{cases, RunCase};
use reference::Outcome;
use std::collections::BTreeSet;

#[test]
fn second_engine_says_what_is_written() {
    let all = cases();
    assert!(all.len() >= 150, "{}", all.len());
    let mut wrong = Vec::new();
    for case in &all {
        let RunCase {
            name,
            sentence,
            run,
            ..
        } = case;
        for (machine, found, expected) in [
            ("run", run.on(reference::run), case.expected_run()),
            ("watch", run.on(reference::watch), case.expected_watch()),
        ] {
            if found != expected {
                wrong.push(format!(
                    "{name} ({sentence}): {machine} {found:?}, expected {expected:?}"
                ));
            }
        }
    }
    println!("{} hand-written runs", all.len());
    assert!(wrong.is_empty(), "{}", wrong.join("\n"));
}

#[test]
fn names_are_not_used_twice() {
    let all = cases();
    let names: BTreeSet<&str> = all.iter().map(|case| case.name).collect();
    assert_eq!(names.len(), all.len());
}

#[test]
fn replies_mean_what_they_come_from() {
    for case in cases() {
        for outcome in [case.expected.run, case.expected.watch] {
            let again = Outcome::from_reply(outcome.number(), outcome.reply());
            assert_eq!(again, Some(outcome));
        }
    }
    assert_eq!(Outcome::from_reply(0, [0; 5]), None);
    assert_eq!(Outcome::from_reply(22, [0; 5]), None);
    assert_eq!(Outcome::from_reply(11, [1, 0, 0, 0, 0]), None);
    assert_eq!(Outcome::from_reply(10, [0, 1, 0, 0, 0]), None);
}
