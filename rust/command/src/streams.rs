//! The descriptors that the command is started with.
//!
//! Rust's runtime opens /dev/null in the place of a standard stream that is
//! closed, and its streams take one that cannot be read or written for one at
//! its end: a verdict would be on nothing, and what is printed would be lost.

use std::ffi::OsStr;
use std::fs::{self, File, Metadata};
use std::io::{self, ErrorKind, Read, Write};
use std::mem::ManuallyDrop;
use std::os::fd::FromRawFd;
use std::path::{Path, PathBuf};
use std::sync::atomic::{AtomicBool, Ordering};
use std::thread;
use std::time::Duration;

/// The standard streams.
pub const INPUT: i32 = 0;
pub const OUTPUT: i32 = 1;
pub const ERRORS: i32 = 2;

/// What the kernel says of a descriptor that is not open.
const EBADF: i32 = 9;
const F_GETFD: i32 = 1;
/// More links than the kernel follows.
const MAX_LINKS: usize = 64;
/// For a stream that is not ready and does not wait by itself.
const WAIT: Duration = Duration::from_millis(1);

extern "C" {
    fn fcntl(descriptor: i32, command: i32, ...) -> i32;
}

/// The standard streams that were closed at the start.
static CLOSED: [AtomicBool; 3] = [const { AtomicBool::new(false) }; 3];

/// The functions of this section are called before the runtime opens anything.
#[used]
#[link_section = ".init_array"]
static LOOK: extern "C" fn() = look;

extern "C" fn look() {
    for (number, closed) in (INPUT..).zip(&CLOSED) {
        closed.store(!has_descriptor(number), Ordering::Relaxed);
    }
}

fn has_descriptor(number: i32) -> bool {
    // SAFETY: it asks for flags and changes nothing, whatever the number is.
    unsafe { fcntl(number, F_GETFD) != -1 }
}

/// A descriptor that is lent: it is not closed. It is waited for where it does
/// not wait by itself.
pub struct Stream {
    /// None where it is not open.
    file: Option<ManuallyDrop<File>>,
}

impl Stream {
    pub fn of(number: i32) -> Stream {
        let closed = usize::try_from(number).ok().and_then(|at| CLOSED.get(at));
        let was_closed = closed.is_some_and(|closed| closed.load(Ordering::Relaxed));
        let is_open = !was_closed && has_descriptor(number);
        // SAFETY: the descriptor is open, and nothing here closes it.
        let file = is_open.then(|| ManuallyDrop::new(unsafe { File::from_raw_fd(number) }));
        Stream { file }
    }

    pub fn metadata(&self) -> io::Result<Metadata> {
        self.file()?.metadata()
    }

    fn file(&self) -> io::Result<&File> {
        let file = self.file.as_deref();
        file.ok_or_else(|| io::Error::from_raw_os_error(EBADF))
    }
}

impl Read for Stream {
    fn read(&mut self, bytes: &mut [u8]) -> io::Result<usize> {
        let mut file = self.file()?;
        patiently(|| file.read(bytes))
    }
}

impl Write for Stream {
    fn write(&mut self, bytes: &[u8]) -> io::Result<usize> {
        let mut file = self.file()?;
        patiently(|| file.write(bytes))
    }

    fn flush(&mut self) -> io::Result<()> {
        Ok(())
    }
}

fn patiently<T>(mut call: impl FnMut() -> io::Result<T>) -> io::Result<T> {
    loop {
        match call() {
            Err(cause) if cause.kind() == ErrorKind::WouldBlock => thread::sleep(WAIT),
            outcome => return outcome,
        }
    }
}

/// The number of the descriptor that a path names, by links or not, as
/// /dev/stdout and /dev/fd/3 do.
pub fn number_of(path: &OsStr) -> Option<i32> {
    let own = fs::canonicalize("/proc/self/fd").ok()?;
    let mut path = PathBuf::from(path);
    for _ in 0..MAX_LINKS {
        let folder = match path.parent()? {
            here if here == Path::new("") => Path::new("."),
            folder => folder,
        };
        let folder = fs::canonicalize(folder).ok()?;
        let name = path.file_name()?;
        if folder == own {
            return name.to_str()?.parse().ok();
        }
        path = folder.join(fs::read_link(folder.join(name)).ok()?);
    }
    None
}
