//! What is asked of the engines.

use crate::Failure;
use reference::machine::MAX_MEMORY;
use reference::Outcome;
use std::fmt::Debug;
use wennathig::Machine;

/// A refusal of a sheet.
#[derive(Clone, Copy, Debug, PartialEq, Eq)]
pub struct Refusal {
    pub number: u64,
    pub place: usize,
}

/// The verdict of the proved checker: None where it accepts.
pub fn check(sheet: &[u8]) -> Result<Option<Refusal>, Failure> {
    let proved = match wennathig::check(sheet) {
        wennathig::Verdict::Accepted => None,
        wennathig::Verdict::Refused { number, place } => Some(Refusal {
            number,
            place: usize::try_from(place).unwrap_or(usize::MAX),
        }),
    };
    let second = match reference::check(sheet) {
        reference::Verdict::Accepted => None,
        reference::Verdict::Refused { number, place } => Some(Refusal {
            number: u64::from(number),
            place,
        }),
    };
    agreed(proved, second)
}

/// What both engines say, or that they disagree.
pub fn agreed<Answer: PartialEq + Debug>(
    proved: Answer,
    second: Answer,
) -> Result<Answer, Failure> {
    match proved == second {
        true => Ok(proved),
        false => Err(disagree(&proved, &second)),
    }
}

pub fn disagree(proved: &impl Debug, second: &impl Debug) -> Failure {
    Failure::Failed(format!(
        "the two engines disagree: the proved one says {proved:?}, the second one {second:?}"
    ))
}

/// What a run is lent.
pub struct Lent<'a> {
    pub sheet: &'a [u8],
    pub reads: &'a [u32],
    pub fuel: u64,
    pub memory_words: usize,
}

/// The run on the proved plain machine.
pub fn run(lent: &Lent, report: &mut [u32]) -> Result<Outcome, Failure> {
    answer(wennathig::run_into, lent, report)
}

/// The run on the proved watched machine.
pub fn watch(lent: &Lent, report: &mut [u32]) -> Result<Outcome, Failure> {
    answer(wennathig::watch_into, lent, report)
}

fn answer(machine: Machine, lent: &Lent, report: &mut [u32]) -> Result<Outcome, Failure> {
    // One word too many is refused as any more are.
    let mut memory = zeros("--memory", lent.memory_words.min(MAX_MEMORY + 1))?;
    let mut reply = [0; 5];
    let number = machine(
        lent.sheet,
        lent.reads,
        lent.fuel,
        &mut memory,
        report,
        &mut reply,
    );
    meant(number, reply)
}

/// So many words as an option asks for. `vec!` would end the program where
/// there are not so many.
pub fn zeros<Word: Copy + Default>(option: &str, count: usize) -> Result<Vec<Word>, Failure> {
    let mut words = Vec::new();
    words
        .try_reserve_exact(count)
        .map_err(|_| Failure::Misuse(format!("{option} {count}: there is not so much memory")))?;
    words.resize(count, Word::default());
    Ok(words)
}

fn meant(number: u64, reply: [u64; 5]) -> Result<Outcome, Failure> {
    let outcome = Outcome::from_reply(number, reply);
    outcome.ok_or_else(|| {
        Failure::Failed(format!(
            "the engine says {number}, {reply:?}, which means nothing"
        ))
    })
}

#[cfg(test)]
mod tests {
    use super::{agreed, Failure, Refusal};

    #[test]
    fn engines_that_disagree_are_a_failure_that_names_both_verdicts() {
        let refusal = |number, place| Some(Refusal { number, place });
        assert!(matches!(agreed(None::<Refusal>, None), Ok(None)));
        assert!(agreed(refusal(8, 84), refusal(8, 84)).is_ok_and(|found| found == refusal(8, 84)));
        for second in [None, refusal(9, 84), refusal(8, 92)] {
            let Err(Failure::Failed(said)) = agreed(refusal(8, 84), second) else {
                panic!("no failure for {second:?}");
            };
            assert!(
                said.contains("disagree") && said.contains("place: 84"),
                "{said}"
            );
            assert!(said.contains(&format!("{second:?}")), "{said}");
        }
    }
}
