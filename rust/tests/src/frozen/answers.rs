//! What an engine says of a run, as text.

use crate::{machines, proved};
use generator::runs::Run;
use reference::{Outcome, Verdict};

/// What every word of the report holds before a run.
pub const OLD_WORD: u32 = 9;

/// Longer reports are kept as a hash.
const MOST_WORDS: usize = 8;

type Machine = fn(&[u8], &[u32], u64, usize, &mut [u32]) -> Outcome;

pub struct Engine {
    pub name: &'static str,
    check: fn(&[u8]) -> Verdict,
    run: Machine,
    watch: Machine,
}

pub const PROVED: Engine = Engine {
    name: "proved",
    check: proved,
    run: machines::run,
    watch: machines::watch,
};

pub const SECOND: Engine = Engine {
    name: "reference",
    check: reference::check,
    run: reference::run,
    watch: reference::watch,
};

/// The answers of check, run and watch.
pub type Answers = [String; 3];

/// Stands for what has just been said.
pub const SAME: &str = "=";

/// The text of a field after one that is known.
pub fn same_as<'a>(known: &str, field: &'a str) -> &'a str {
    match field == known {
        true => SAME,
        false => field,
    }
}

/// As the files have them: what run and watch say as the one before is not
/// said again.
pub fn shown([check, run, watch]: &Answers) -> String {
    format!("{check} {} {}", same_as(check, run), same_as(run, watch))
}

/// From the three fields of [`shown`].
pub fn read([check, run, watch]: [&str; 3]) -> Answers {
    let run = if run == SAME { check } else { run };
    let watch = if watch == SAME { run } else { watch };
    [check, run, watch].map(String::from)
}

impl Engine {
    pub fn answers(&self, lent: &Run) -> Answers {
        let check = match (self.check)(&lent.sheet) {
            Verdict::Accepted => String::from("0"),
            Verdict::Refused { number, place } => refused(number, place),
        };
        let said = |machine: Machine| {
            let (outcome, output) = lent.on(machine);
            said(outcome, &output)
        };
        [check, said(self.run), said(self.watch)]
    }
}

/// The number that an answer begins with, 0 for an accepted sheet.
pub fn number(answer: &str) -> Option<u8> {
    answer.split('@').next()?.parse().ok()
}

fn refused(number: u8, place: usize) -> String {
    format!("{number}@{place}")
}

/// The outcome with the words put; a report that is not as it was after them
/// is told, so that it is a difference.
fn said(outcome: Outcome, output: &[u32]) -> String {
    let (text, put) = match outcome {
        Outcome::Refused { number, place } => (refused(number, place), 0),
        Outcome::Stopped {
            stop,
            steps,
            words,
            place,
        } => {
            let (procedure, instruction) = (place.procedure, place.instruction);
            let text = format!("{}@{procedure}.{instruction}+{steps}", stop as u8);
            (text, words)
        }
    };
    let (put, rest) = output.split_at(put);
    match rest.iter().all(|&word| word == OLD_WORD) {
        true => text + &words_put(put),
        false => text + ", the report changed after the words put",
    }
}

fn words_put(put: &[u32]) -> String {
    if put.len() > MOST_WORDS {
        let bytes = put.iter().flat_map(|word| word.to_le_bytes());
        return format!(">{}#{:016x}", put.len(), fnv(bytes));
    }
    match put {
        [] => String::new(),
        _ => format!(">{}", listed(put)),
    }
}

/// Words with commas between them.
pub fn listed(words: &[u32]) -> String {
    let words: Vec<String> = words.iter().map(u32::to_string).collect();
    words.join(",")
}

/// The hash of Fowler, Noll and Vo, of 64 bits (FNV-1a).
pub fn fnv(bytes: impl Iterator<Item = u8>) -> u64 {
    bytes.fold(0xcbf2_9ce4_8422_2325, |hash, byte| {
        (hash ^ u64::from(byte)).wrapping_mul(0x0100_0000_01b3)
    })
}

#[cfg(test)]
mod tests {
    use super::{fnv, words_put};

    #[test]
    fn words_are_listed_or_hashed() {
        assert_eq!(words_put(&[]), "");
        assert_eq!(words_put(&[7, u32::MAX]), ">7,4294967295");
        let hash = fnv([0; 36].into_iter());
        assert_eq!(words_put(&[0; 9]), format!(">9#{hash:016x}"));
    }

    #[test]
    fn the_hash_is_that_of_its_authors() {
        assert_eq!(fnv([].into_iter()), 0xcbf2_9ce4_8422_2325);
        assert_eq!(fnv(b"foobar".iter().copied()), 0x8594_4171_f739_67e8);
    }
}
