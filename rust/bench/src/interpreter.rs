//! A safe call of the plain C interpreter.

use reference::machine::MAX_MEMORY;
use reference::{check, parse, Edition, Verdict};

/// The interpreter in C.
pub type Interpreter = unsafe extern "C" fn(
    sheet: *const u8,
    reads: *const u32,
    reads_len: usize,
    fuel: u64,
    memory: *mut u64,
    memory_len: usize,
    report: *mut u32,
    report_len: usize,
    reply: *mut u64,
) -> u64;

/// Declares it under a name.
macro_rules! interpreter {
    ($function:ident) => {
        extern "C" {
            pub fn $function(
                sheet: *const u8,
                reads: *const u32,
                reads_len: usize,
                fuel: u64,
                memory: *mut u64,
                memory_len: usize,
                report: *mut u32,
                report_len: usize,
                reply: *mut u64,
            ) -> u64;
        }
    };
}
pub(crate) use interpreter;

/// A sheet that the interpreter may be given: accepted, of edition 1 and without a rights name. It knows document 01's layout
/// alone, for to look for a GN record at every jump would make it a slower yardstick.
pub struct Accepted<'a>(&'a [u8]);

impl<'a> Accepted<'a> {
    pub fn new(sheet: &'a [u8]) -> Option<Self> {
        let program = parse(sheet).ok()?;
        let first = Edition::numbered(sheet[2]) == Some(Edition::First);
        let known = first && program.procedures.iter().all(|p| p.bound.is_none());
        (known && check(sheet) == Verdict::Accepted).then_some(Accepted(sheet))
    }

    /// Like [`wennathig::run_into`].
    pub fn run_into(
        &self,
        interpreter: Interpreter,
        input: &[u32],
        fuel: u64,
        memory: &mut [u64],
        output: &mut [u32],
        reply: &mut [u64; 5],
    ) -> u64 {
        assert!(memory.len() <= MAX_MEMORY);
        // SAFETY: the sheet is accepted, which is what the interpreter relies
        // on; the pointers are those of live slices with the lengths given,
        // and those written to are lent exclusively.
        unsafe {
            interpreter(
                self.0.as_ptr(),
                input.as_ptr(),
                input.len(),
                fuel,
                memory.as_mut_ptr(),
                memory.len(),
                output.as_mut_ptr(),
                output.len(),
                reply.as_mut_ptr(),
            )
        }
    }
}

#[cfg(test)]
mod tests {
    use super::Accepted;
    use crate::places::PLACES;
    use generator::handwritten::runs::cases;
    use reference::Outcome;

    /// It is worth timing only if it is right.
    #[test]
    fn the_interpreter_says_what_is_written() {
        let mut made = 0;
        for case in cases() {
            let (run, (expected, due)) = (&case.run, case.expected_run());
            let Outcome::Stopped { .. } = expected else {
                continue;
            };
            let Some(sheet) = Accepted::new(&run.sheet) else {
                continue;
            };
            let (mut memory, mut output) = (vec![7; run.memory_words], run.output.clone());
            let mut reply = [7; 5];
            let (input, fuel) = (&run.input, run.fuel);
            let plain = PLACES[made % PLACES.len()].plain;
            let number = sheet.run_into(plain, input, fuel, &mut memory, &mut output, &mut reply);
            let found = (Outcome::from_reply(number, reply), output);
            assert_eq!(found, (Some(expected), due), "{}", case.name);
            assert!(memory.iter().all(|&word| word == 0), "{}", case.name);
            made += 1;
        }
        assert!(made >= 50, "{made}");
    }
}
