//! The history of a service.
use crate::{Error, Service};
use std::io::{self, ErrorKind, Write};

const FRONT: &[u8] = b"dummynet-history,3\n";
const MOST_WAITING: usize = 1 << 16; // bytes that are written by one call of the writer

/// The history of a [`Service`], which is written while its callers call. It ends with [`end`](Self::end): dropped before, it is
/// one that was cut, which an audit refuses.
///
/// An [`Audit`](crate::Audit) is a writer, which audits the history while it is written.
///
/// What a writer refuses, as on a full disk, isn't lost: the next [`take`](Self::take) or [`end`](Self::end) writes it.
#[derive(Debug)]
pub struct History<W: Write> {
    service: Service,
    to: W,
    waiting: Vec<u8>,
    entries: u64,
    is_ended: bool,
}

impl From<Error> for io::Error {
    fn from(error: Error) -> Self {
        io::Error::new(if error == Error::Memory { ErrorKind::OutOfMemory } else { ErrorKind::Other }, error)
    }
}

impl<W: Write> History<W> {
    pub(crate) fn begin(service: Service, to: W) -> io::Result<Self> {
        let mut it = Self { service, to, waiting: FRONT.to_vec(), entries: 0, is_ended: false };
        it.write()?;
        Ok(it)
    }

    /// Writes the calls so far, frees their memory, and returns how many have been written in all. After the end it writes nothing.
    ///
    /// # Errors
    /// Those of the writer, and out of memory.
    pub fn take(&mut self) -> io::Result<u64> {
        if !self.is_ended {
            self.write()?; // what an earlier call had to leave
            let (start, count) = self.service.take()?;
            self.entries = start + count;
        }
        self.write()?;
        self.to.flush()?;
        Ok(self.entries)
    }

    /// Writes the calls so far, and the end. Calls that come later are in no history.
    ///
    /// # Errors
    /// Those of [`take`](Self::take).
    pub fn end(&mut self) -> io::Result<u64> {
        self.take()?;
        if !self.is_ended {
            self.is_ended = true;
            self.waiting.extend(format!("end,{}\n", self.entries).bytes());
        }
        self.take()
    }

    /// The writer. What waits to be written is lost.
    pub fn into_inner(self) -> W {
        self.to
    }

    /// Writes what waits, here and in the service.
    fn write(&mut self) -> io::Result<()> {
        loop {
            while self.waiting.len() < MOST_WAITING && !self.is_ended {
                match self.service.text()? {
                    Some(text) => self.waiting.extend_from_slice(text),
                    None => break,
                }
            }
            if self.waiting.is_empty() {
                return Ok(());
            }
            match self.to.write(&self.waiting) {
                Ok(0) => return Err(ErrorKind::WriteZero.into()),
                Ok(count) => drop(self.waiting.drain(..count)),
                Err(error) if error.kind() == ErrorKind::Interrupted => {}
                Err(error) => return Err(error),
            }
        }
    }
}
