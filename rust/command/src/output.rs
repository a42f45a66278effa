//! Standard output, which its reader may close at any time.

use crate::streams::{Stream, OUTPUT};
use std::io::{self, BufWriter, ErrorKind, Write};

pub struct Output {
    writer: BufWriter<Stream>,
    /// Why the reader is gone: what is written from now on is dropped, so that
    /// the exit status stays that of the task.
    gone: Option<io::Error>,
}

impl Output {
    pub fn standard() -> Self {
        Output {
            writer: BufWriter::new(Stream::of(OUTPUT)),
            gone: None,
        }
    }

    pub fn is_closed(&self) -> bool {
        self.gone.is_some()
    }

    /// Sees that all of it was taken, for what is of no use in part.
    pub fn arrive(&mut self) -> io::Result<()> {
        self.flush()?;
        self.gone.take().map_or(Ok(()), Err)
    }

    fn unless_gone<T>(&mut self, outcome: io::Result<T>, dropped: T) -> io::Result<T> {
        match outcome {
            Err(cause) if cause.kind() == ErrorKind::BrokenPipe => {
                self.gone = Some(cause);
                Ok(dropped)
            }
            outcome => outcome,
        }
    }
}

impl Write for Output {
    fn write(&mut self, bytes: &[u8]) -> io::Result<usize> {
        if self.is_closed() {
            return Ok(bytes.len());
        }
        let outcome = self.writer.write(bytes);
        self.unless_gone(outcome, bytes.len())
    }

    fn flush(&mut self) -> io::Result<()> {
        if self.is_closed() {
            return Ok(());
        }
        let outcome = self.writer.flush();
        self.unless_gone(outcome, ())
    }
}
