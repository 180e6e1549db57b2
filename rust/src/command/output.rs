//! Output that whoever reads it may stop reading.

use std::io::{self, BufWriter, ErrorKind, Write};

/// A buffered output. Once its reader has gone, what is still written is dropped, so that the work goes on and the exit status
/// is that of the whole.
pub struct Output<W: Write> {
    inner: BufWriter<W>,
    is_closed: bool,
}

impl<W: Write> Output<W> {
    pub fn new(inner: W) -> Output<W> {
        Output {
            inner: BufWriter::new(inner),
            is_closed: false,
        }
    }

    /// What came of writing; a reader that has gone is nothing that went wrong.
    fn kept<T>(&mut self, written: io::Result<T>, dropped: T) -> io::Result<T> {
        match written {
            Err(error) if error.kind() == ErrorKind::BrokenPipe => {
                self.is_closed = true;
                Ok(dropped)
            }
            written => written,
        }
    }
}

impl<W: Write> Write for Output<W> {
    fn write(&mut self, bytes: &[u8]) -> io::Result<usize> {
        if self.is_closed {
            return Ok(bytes.len());
        }
        let written = self.inner.write(bytes);
        self.kept(written, bytes.len())
    }

    fn flush(&mut self) -> io::Result<()> {
        if self.is_closed {
            return Ok(());
        }
        let written = self.inner.flush();
        self.kept(written, ())
    }
}
