//! Audits of histories.
use crate::shaper::{answered, secret};
use crate::{raw, Error, Result};
use std::io::{self, Write};
use std::ptr;

/// The most bytes of a history that [`Audit::new`] takes, as `dummynet audit` does: 256 MiB.
pub const HISTORY_LIMIT: usize = 268_435_456;

/// What an audit finds of a history.
#[derive(Debug, Clone, Copy, PartialEq, Eq, Hash)]
#[non_exhaustive]
pub struct Verdict {
    /// How many entries the history has, each a call and its reply.
    pub entries: u64,
    /// The first entry whose reply isn't the emulator's after the calls before it, from 0, if there is one.
    pub differs: Option<u64>,
}

impl Verdict {
    /// Whether each reply is the emulator's.
    #[must_use]
    pub fn is_lawful(&self) -> bool {
        self.differs.is_none()
    }
}

/// The audit of a history, whose text comes in parts of any length, or of the transcript of a live session.
///
/// It makes the calls of the history again, and compares each reply with the one in the text. Of a text that is written
/// as the library writes it, it keeps nothing. An error ends it.
///
/// ```
/// use hingetulip::{Audit, Packet, Service, Target};
///
/// let (service, mut callers) = Service::open(1)?;
/// let mut history = service.history(Audit::new()?)?;
/// callers[0].configure("pipe 1 config bw 8Mbit/s delay 20ms")?;
/// callers[0].submit(&Packet::new(0, Target::Pipe(1), 1000))?;
/// history.end()?;
/// let verdict = history.into_inner().finish()?;
/// assert!(verdict.is_lawful());
/// assert_eq!(verdict.entries, 2);
/// # Ok::<(), Box<dyn std::error::Error>>(())
/// ```
pub struct Audit {
    handle: Box<raw::Audit>, // the library asks that it stays where it is
}

// SAFETY: one thread at a time uses a handle, as the header asks, since all calls take `&mut` or the audit. It may pass
// to another thread: the library keeps nothing for a thread, and its memory is malloc's.
unsafe impl Send for Audit {}

impl Audit {
    /// An audit of a history of at most [`HISTORY_LIMIT`] bytes, of which nothing has come.
    ///
    /// # Errors
    /// [`Error::Memory`].
    pub fn new() -> Result<Self> {
        Self::within(HISTORY_LIMIT)
    }

    /// The same of at most `limit` bytes.
    ///
    /// Its table of flows has a secret of its own, drawn anew: no verdict depends on it.
    ///
    /// # Errors
    /// [`Error::Memory`].
    pub fn within(limit: usize) -> Result<Self> {
        let mut handle = Box::new(raw::Audit { at: ptr::null_mut(), open: false });
        // SAFETY: the handle is closed and lies on the heap, where it stays.
        answered(unsafe { raw::dn_audit_open_with_key(&mut *handle, limit, secret(), secret()) })?;
        Ok(Self { handle })
    }

    /// Takes the next part of the text.
    ///
    /// ```
    /// use hingetulip::{Audit, Error};
    ///
    /// let mut audit = Audit::within(24)?;
    /// audit.feed(b"dummynet-history,3\n")?;
    /// assert_eq!(audit.feed(b"end,0\n"), Err(Error::TooLong));
    /// # Ok::<(), Error>(())
    /// ```
    ///
    /// # Errors
    /// [`Error::TooLong`] and [`Error::Memory`], after which the audit has ended: [`Error::Closed`].
    pub fn feed(&mut self, part: &[u8]) -> Result<()> {
        // SAFETY: the handle is open or was closed by the library, and the part has so many bytes.
        answered(unsafe { raw::dn_audit_feed(&mut *self.handle, part.as_ptr(), part.len()) })
    }

    /// The verdict on the history, whose text has ended.
    ///
    /// ```
    /// use hingetulip::{Audit, Error};
    ///
    /// let mut audit = Audit::new()?;
    /// audit.feed(b"dummynet-history,3\nc,0,advance,5\nr,advanced,6\nend,1\n")?;
    /// assert_eq!(audit.finish()?.differs, Some(0));
    /// assert_eq!(Audit::new()?.finish(), Err(Error::Record(1)));
    /// # Ok::<(), Error>(())
    /// ```
    ///
    /// # Errors
    /// [`Error::Record`], which comes before a verdict, [`Error::Memory`], and [`Error::Closed`] after an error of
    /// [`feed`](Self::feed).
    pub fn finish(mut self) -> Result<Verdict> {
        let (mut found, mut record) = (raw::Verdict::default(), 0);
        // SAFETY: the handle is open or was closed by the library, and the verdict and the number are written at most.
        let status = unsafe { raw::dn_audit_finish(&mut *self.handle, &mut found, &mut record) };
        if status == raw::BAD_RECORD {
            return Err(Error::Record(record));
        }
        answered(status)?;
        Ok(Verdict { entries: found.entries, differs: (found.finding != 0).then_some(found.first) })
    }
}

impl Write for Audit {
    fn write(&mut self, part: &[u8]) -> io::Result<usize> {
        self.feed(part)?;
        Ok(part.len())
    }

    fn flush(&mut self) -> io::Result<()> {
        Ok(())
    }
}

impl Drop for Audit {
    fn drop(&mut self) {
        // SAFETY: the handle is open or was closed by the library, and is used no more.
        unsafe { raw::dn_audit_close(&mut *self.handle) };
    }
}

opaque!(Audit);
