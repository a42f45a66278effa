//! The hand-written sheets on the second engine.

use generator::handwritten::{cases, Case};
use std::collections::BTreeSet;

#[test]
fn second_engine_gives_the_written_verdicts() {
    let all = cases();
    assert!(all.len() >= 80);
    let wrong: Vec<String> = all
        .iter()
        .filter(|case| reference::check(&case.sheet) != case.expected)
        .map(|case| {
            let found = reference::check(&case.sheet);
            let Case {
                name,
                sentence,
                expected,
                ..
            } = case;
            format!("{name} ({sentence}): {found:?}, expected {expected:?}")
        })
        .collect();
    assert!(wrong.is_empty(), "{}", wrong.join("\n"));
}

#[test]
fn names_are_not_used_twice() {
    let all = cases();
    let names: BTreeSet<&str> = all.iter().map(|case| case.name).collect();
    assert_eq!(names.len(), all.len());
}
