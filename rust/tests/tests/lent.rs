//! Lengths of more than 16, 24, 31 and 32 bits: of the sheet, the input, the
//! memory and the output. Both engines are lent so many zeros, of which they
//! may touch only the first few.

use comparison::zeros::Zeros;
use generator::handwritten::SMALLEST;
use generator::operations::{leave, put, set, take};
use generator::{Procedure, SheetBuilder};
use reference::machine::MAX_MEMORY;
use reference::{Outcome, Stop, Verdict};
use wennathig::{run_into, watch_into, Machine};

/// A power of two, and a few more, so that what is cut short seems small.
fn lengths(more: usize) -> impl Iterator<Item = usize> {
    let powers = [16, 17, 20, 24, 30, 31, 32, 33].into_iter();
    powers.flat_map(move |bits| [1 << bits, (1 << bits) + more])
}

type Second = fn(&[u8], &[u32], u64, usize, &mut [u32]) -> Outcome;

const MACHINES: [(&str, Second, Machine); 2] = [
    ("run", reference::run, run_into),
    ("watch", reference::watch, watch_into),
];

/// Both engines' run or watch, which say the same and put the same words.
fn agreed(
    (name, second, proved): (&str, Second, Machine),
    sheet: &[u8],
    input: &[u32],
    memory: &mut [u64],
    output: &mut [u32],
) -> (Outcome, Vec<u32>) {
    let first_words = |output: &[u32]| output.iter().copied().take(4).collect::<Vec<u32>>();
    let expected = second(sheet, input, 100, memory.len(), output);
    let put = first_words(output);
    output.iter_mut().take(4).for_each(|word| *word = 0);
    let mut reply = [u64::MAX; 5];
    let number = proved(sheet, input, 100, memory, output, &mut reply);
    let found = Outcome::from_reply(number, reply);
    assert_eq!(found, Some(expected), "{name}");
    assert_eq!(first_words(output), put, "{name}");
    (expected, put)
}

/// Two words are taken, and two are put.
fn taking_and_putting() -> Vec<u8> {
    let body = [take(0), take(0), set(0, 7), put(0), put(0), leave()];
    let main = Procedure::main().variable(0).body(&body);
    let sheet = SheetBuilder::new().integer().procedure(main);
    sheet.build().encode()
}

/// "15 reads ended: none left to take".
#[test]
fn input_of_any_length() {
    for count in lengths(1) {
        let mut input = Zeros::new(count);
        for machine in MACHINES {
            let sheet = taking_and_putting();
            let answer = agreed(machine, &sheet, input.lent(), &mut [0; 9], &mut [0; 2]);
            assert_eq!(answer.0.number(), Stop::Done as u64, "{count}");
        }
    }
}

/// "16 report full: no word free".
#[test]
fn output_of_any_length() {
    for count in lengths(1) {
        let mut output = Zeros::new(count);
        for machine in MACHINES {
            let sheet = taking_and_putting();
            let (outcome, put) = agreed(machine, &sheet, &[1, 2], &mut [0; 9], output.lent());
            assert_eq!(outcome.number(), Stop::Done as u64, "{count}");
            assert_eq!(put, [7, 7, 0, 0]);
        }
    }
}

/// "10 big bench: over 65,536 words".
#[test]
fn memory_of_any_length() {
    for count in lengths(9) {
        let mut memory = Zeros::new(count);
        for machine in MACHINES {
            let answer = agreed(machine, &SMALLEST, &[], memory.lent(), &mut []);
            let due = if count > MAX_MEMORY { 10 } else { 11 };
            assert_eq!(answer.0.number(), due, "{count}");
        }
    }
}

/// "1 overlong: more than 32,768 bytes".
#[test]
fn sheet_of_any_length() {
    for count in lengths(SMALLEST.len()) {
        let mut bytes = Zeros::new(count);
        let sheet = bytes.lent();
        sheet[..SMALLEST.len()].copy_from_slice(&SMALLEST);
        let refused = Verdict::Refused {
            number: 1,
            place: 0,
        };
        assert_eq!(comparison::proved(sheet), refused, "{count}");
        assert_eq!(reference::check(sheet), refused, "{count}");
        for machine in MACHINES {
            let answer = agreed(machine, sheet, &[], &mut [0; 9], &mut []);
            assert_eq!(answer.0.number(), 1, "{count}");
        }
    }
}
