//! Zeros in any number, to be lent without being touched: more than the
//! machine has memory for.

use std::ffi::{c_int, c_void};
use std::ptr::null_mut;
use std::slice::from_raw_parts_mut;

extern "C" {
    fn mmap(
        address: *mut c_void,
        length: usize,
        protection: c_int,
        flags: c_int,
        file: c_int,
        offset: i64,
    ) -> *mut c_void;
    fn munmap(address: *mut c_void, length: usize) -> c_int;
}

const READ_AND_WRITE: c_int = 1 | 2;
/// Private, of no file, and with no memory set aside (Linux on x86-64).
const FLAGS: c_int = 0x02 | 0x20 | 0x4000;

/// The numbers that may be lent.
pub trait Number {}
impl Number for u8 {}
impl Number for u32 {}
impl Number for u64 {}

pub struct Zeros<T: Number> {
    start: *mut T,
    count: usize,
}

impl<T: Number> Zeros<T> {
    /// # Panics
    /// If the system does not give so many addresses.
    pub fn new(count: usize) -> Self {
        let length = count * size_of::<T>();
        // SAFETY: a new mapping of no file touches nothing that there is.
        let start = unsafe { mmap(null_mut(), length, READ_AND_WRITE, FLAGS, -1, 0) };
        assert!(start as isize != -1, "no {length} bytes of addresses");
        Zeros {
            start: start.cast(),
            count,
        }
    }

    pub fn lent(&mut self) -> &mut [T] {
        // SAFETY: the mapping is this value's alone, aligned to a page, and
        // zeros are numbers.
        unsafe { from_raw_parts_mut(self.start, self.count) }
    }
}

impl<T: Number> Drop for Zeros<T> {
    fn drop(&mut self) {
        // SAFETY: the mapping is this value's alone, and nobody has it now.
        unsafe { munmap(self.start.cast(), self.count * size_of::<T>()) };
    }
}
