//! The words of the reply: of check the first gets the place, of run and watch
//! the first five get place, steps, words put, procedure and instruction; no
//! other is touched.

use generator::handwritten::runs::{cases, RunCase};
use generator::showcase::showcase;
use reference::Outcome;
use wennathig::{check_into, run_into, watch_into, Machine};

const UNTOUCHED: u64 = 0xDEAD_BEEF_0BAD_CAFE;

/// Checks with a reply of so many words out of five, and gives the number and
/// all five.
fn replied(sheet: &[u8], words: usize) -> (u64, [u64; 5]) {
    let mut memory = [UNTOUCHED; 5];
    let number = check_into(sheet, &mut memory[..words]);
    (number, memory)
}

/// Expects the number and place for replies of 0 to 5 words.
fn expect(sheet: &[u8], number: u64, place: u64) {
    for words in 0..=5 {
        let mut memory = [UNTOUCHED; 5];
        if words > 0 {
            memory[0] = place;
        }
        assert_eq!(replied(sheet, words), (number, memory), "{words} words");
    }
}

#[test]
fn refused_sheets() {
    let mut sheet = showcase().encode();
    let end = sheet.len() as u64;
    sheet.push(0);
    expect(&sheet, 2, end);
    expect(&[], 2, 0);
    expect(&vec![0; 32_769], 1, 0);
    expect(&sheet[..30], 2, 30);
}

#[test]
fn accepted_sheets() {
    expect(&showcase().encode(), 0, 0);
}

/// A machine says the outcome in replies of 0 to 7 words out of seven.
fn expect_outcome(machine: Machine, case: &RunCase, outcome: Outcome) {
    let due = outcome.reply();
    for words in 0..=7 {
        let mut expected = [UNTOUCHED; 7];
        let written = words.min(due.len());
        expected[..written].copy_from_slice(&due[..written]);
        let mut reply = [UNTOUCHED; 7];
        let mut memory = vec![UNTOUCHED; case.run.memory_words];
        let mut output = case.run.output.clone();
        let number = machine(
            &case.run.sheet,
            &case.run.input,
            case.run.fuel,
            &mut memory,
            &mut output,
            &mut reply[..words],
        );
        assert_eq!(number, outcome.number(), "{}", case.name);
        assert_eq!(reply, expected, "{}, {words} words", case.name);
    }
}

/// Every hand-written run, on both machines.
#[test]
fn replies_of_runs() {
    for case in cases() {
        expect_outcome(run_into, &case, case.expected.run);
        expect_outcome(watch_into, &case, case.expected.watch);
    }
}
