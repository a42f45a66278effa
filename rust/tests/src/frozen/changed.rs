//! The entries whose answers a later request changed on purpose.

use super::answers::{self, Answers};
use super::Entry;

pub struct Change {
    /// The number of the entry, from 1.
    pub entry: usize,
    pub request: String,
    pub reason: String,
    pub answers: Answers,
}

/// All changes of a list: a line has the number of the entry, the request, the
/// answers of check, run and watch, and the reason.
pub fn read(text: &str) -> Result<Vec<Change>, String> {
    let lines = text.lines().filter(|line| !line.starts_with('#'));
    let change = |line| change(line).ok_or_else(|| format!("no change: {line}"));
    lines.map(change).collect()
}

fn change(line: &str) -> Option<Change> {
    let fields: Vec<&str> = line.splitn(6, ' ').collect();
    let [entry, request, check, run, watch, reason] = fields[..] else {
        return None;
    };
    Some(Change {
        entry: entry.parse().ok()?,
        request: String::from(request),
        reason: String::from(reason),
        answers: answers::read([check, run, watch]),
    })
}

/// The answers that are due now: those of the entries, but for the changes.
/// Each of these is of another entry, and changes it.
pub fn due(entries: &[Entry], changes: &[Change]) -> Result<Vec<Answers>, String> {
    let mut due: Vec<Answers> = entries.iter().map(|entry| entry.answers.clone()).collect();
    for change in changes {
        let Change { entry, request, .. } = change;
        let fault = |what: &str| Err(format!("{request}: entry {entry} {what}"));
        let Some(number) = entry.checked_sub(1).filter(|&number| number < due.len()) else {
            return fault("is not in the file");
        };
        if change.reason.trim().is_empty() {
            return fault("is changed without a reason");
        }
        if due[number] != entries[number].answers {
            return fault("is listed twice");
        }
        if due[number] == change.answers {
            return fault("is listed with its frozen answers");
        }
        due[number] = change.answers.clone();
    }
    Ok(due)
}

#[cfg(test)]
mod tests {
    use super::{due, read};

    const FILE: &str = "smallest - 1 2 0 48 0 11@0.0+1 =\ntorn - 1 2 0 (0+1) 2@0 = =\n";

    fn due_by(changes: &str) -> Result<Vec<[String; 3]>, String> {
        due(&crate::frozen::read(FILE)?, &read(changes)?)
    }

    #[test]
    fn no_change_leaves_all_as_they_are() {
        let all = due_by("# entry request check run watch reason\n").expect("a list");
        assert_eq!(all[0], ["0", "11@0.0+1", "11@0.0+1"]);
        assert_eq!(all[1], ["2@0", "2@0", "2@0"]);
    }

    #[test]
    fn a_change_is_due_in_place_of_the_frozen_answers() {
        let all = due_by("2 S-1 0 11@0.0+1 = a byte is enough\n").expect("a list");
        assert_eq!(all[0], ["0", "11@0.0+1", "11@0.0+1"]);
        assert_eq!(all[1], ["0", "11@0.0+1", "11@0.0+1"]);
    }

    #[test]
    fn a_change_changes_one_entry_for_a_reason() {
        for (changes, fault) in [
            ("0 S-1 0 = = why", "S-1: entry 0 is not in the file"),
            ("3 S-1 0 = = why", "S-1: entry 3 is not in the file"),
            (
                "2 S-1 2@0 = = why",
                "S-1: entry 2 is listed with its frozen answers",
            ),
            (
                "2 S-1 3@0 = =  ",
                "S-1: entry 2 is changed without a reason",
            ),
            (
                "2 S-1 3@0 = = why\n2 S-2 4@0 = = why",
                "S-2: entry 2 is listed twice",
            ),
            ("2 S-1 3@0 = =", "no change: 2 S-1 3@0 = ="),
            ("two S-1 3@0 = = why", "no change: two S-1 3@0 = = why"),
        ] {
            assert_eq!(due_by(changes), Err(String::from(fault)));
        }
    }
}
