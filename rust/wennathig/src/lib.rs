//! Safe calls of the proved check, run and watch through their C interface.
//!
//! A call whose name ends in `_into` is the one that the host makes. The
//! buffers hold afterwards what include/wennathig.h says.

/// The version that include/wennathig.h has, as MAJOR.MINOR.PATCH.
pub const VERSION: &str = env!("WENNATHIG_VERSION");

/// What the proved checker says about a sheet.
#[derive(Clone, Copy, Debug, PartialEq, Eq)]
pub enum Verdict {
    Accepted,
    Refused { number: u64, place: u64 },
}

/// Accepts a sheet, or refuses it with a number and the place.
pub fn check(sheet: &[u8]) -> Verdict {
    let mut reply = [0];
    match check_into(sheet, &mut reply) {
        0 => Verdict::Accepted,
        number => Verdict::Refused {
            number,
            place: reply[0],
        },
    }
}

/// Declares a function of C that checks, and its safe call.
#[macro_export]
macro_rules! checker {
    ($(#[$about:meta])* $call:ident, $function:ident) => {
        extern "C" {
            fn $function(
                sheet: *const u8,
                sheet_len: usize,
                reply: *mut u64,
                reply_len: usize,
            ) -> u64;
        }

        $(#[$about])*
        pub fn $call(sheet: &[u8], reply: &mut [u64]) -> u64 {
            // SAFETY: both pointers are those of live slices with the lengths
            // given, and only the reply, which is lent exclusively, is written
            // to.
            unsafe { $function(sheet.as_ptr(), sheet.len(), reply.as_mut_ptr(), reply.len()) }
        }
    };
}

checker! {
    /// Gives the number, 0 for an accepted sheet, and writes the place to the
    /// first word of the reply, if it has one.
    check_into, wn_check
}

/// [`run_into`] or [`watch_into`]: sheet, input, fuel, memory, output, reply.
pub type Machine = fn(&[u8], &[u32], u64, &mut [u64], &mut [u32], &mut [u64]) -> u64;

/// Declares a function of C that runs, and its safe call; those of the two
/// machines have the same parameters.
#[macro_export]
macro_rules! machine {
    ($(#[$about:meta])* $call:ident, $function:ident) => {
        extern "C" {
            fn $function(
                sheet: *const u8,
                sheet_len: usize,
                reads: *const u32,
                reads_len: usize,
                fuel: u64,
                bench: *mut u64,
                bench_len: usize,
                report: *mut u32,
                report_len: usize,
                reply: *mut u64,
                reply_len: usize,
            ) -> u64;
        }

        $(#[$about])*
        pub fn $call(
            sheet: &[u8],
            input: &[u32],
            fuel: u64,
            memory: &mut [u64],
            output: &mut [u32],
            reply: &mut [u64],
        ) -> u64 {
            // SAFETY: all pointers are those of live slices with the lengths
            // given, and only the last three, which are lent exclusively, are
            // written to.
            unsafe {
                $function(
                    sheet.as_ptr(),
                    sheet.len(),
                    input.as_ptr(),
                    input.len(),
                    fuel,
                    memory.as_mut_ptr(),
                    memory.len(),
                    output.as_mut_ptr(),
                    output.len(),
                    reply.as_mut_ptr(),
                    reply.len(),
                )
            }
        }
    };
}

machine! {
    /// Runs an accepted sheet on the plain machine: gives the number, and
    /// writes place, steps, words put, procedure and instruction to the reply,
    /// as far as it has words.
    run_into, wn_run
}

machine! {
    /// Runs a well-formed sheet on the watched machine; otherwise like
    /// [`run_into`].
    watch_into, wn_watch
}
