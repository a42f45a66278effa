//! The time for which this thread has had a processor.

use std::ffi::{c_int, c_long};
use std::time::Duration;

/// What C calls a `timespec` (Linux on x86-64).
#[repr(C)]
#[derive(Default)]
struct Time {
    seconds: c_long,
    nanoseconds: c_long,
}

extern "C" {
    fn clock_gettime(clock: c_int, time: *mut Time) -> c_int;
}

/// CLOCK_THREAD_CPUTIME_ID
const OWN: c_int = 3;

/// # Panics
/// If the system has no such clock.
pub fn own_time() -> Duration {
    let mut time = Time::default();
    // SAFETY: the time is live, lent exclusively, and of the form that the
    // function writes.
    let status = unsafe { clock_gettime(OWN, &mut time) };
    assert_eq!(status, 0, "no clock of the thread's own time");
    Duration::new(time.seconds as u64, time.nanoseconds as u32)
}
