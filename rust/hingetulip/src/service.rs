//! An emulator that threads share.
use crate::raw_service as raw;
use crate::shaper::{answered, secret};
use crate::{Caller, Error, History, Result};
use std::io::Write;
use std::{hint, io, ptr, thread, time::Duration};

/// The most callers of a [`Service`].
pub const MOST_CALLERS: usize = 15;

const FIRST_SPIN: u32 = 256; // turns, twice as many each time
const SPINS: u32 = 4;
const REST: Duration = Duration::from_micros(20);

/// An emulator that threads share, each by a [`Caller`]. Its calls are one sequence, and it keeps them with their replies until
/// they are taken out, by [`history`](Self::history) or [`discard`](Self::discard).
///
/// A service and its callers may pass to other threads, and are dropped in any order.
///
/// ```
/// use hingetulip::{Packet, Service, Target};
///
/// let (service, mut callers) = Service::open(2)?;
/// callers[0].configure("pipe 1 config bw 8Mbit/s delay 20ms")?;
/// let threads = callers.into_iter().map(|mut caller| {
///     std::thread::spawn(move || caller.submit(&Packet::new(0, Target::Pipe(1), 1000)).map(|fate| fate.outcome))
/// });
/// for thread in threads.collect::<Vec<_>>() {
///     println!("{:?}", thread.join().unwrap()?);
/// }
/// let mut history = service.history(Vec::new())?;
/// assert_eq!(history.end()?, 3);
/// # Ok::<(), Box<dyn std::error::Error>>(())
/// ```
pub struct Service {
    handle: Box<raw::Service>, // the library asks that it stays where it is
    room: Vec<u8>,
}

// SAFETY: one thread at a time uses a handle of a service, and it may pass to another one. The library keeps nothing for a thread.
unsafe impl Send for Service {}

/// Calls until no other caller is in a call: it spins between two tries, and sleeps after some.
pub(crate) fn until_answered(mut call: impl FnMut(&mut u64) -> u32) -> u32 {
    let mut holder = 0;
    loop {
        for spin in 0..=SPINS {
            let status = call(&mut holder);
            if status != raw::BUSY {
                return status;
            }
            if spin < SPINS {
                (0..FIRST_SPIN << spin).for_each(|_| hint::spin_loop());
            }
        }
        thread::sleep(REST);
    }
}

impl Service {
    /// A service without any pipe, and its callers, from 1 to [`MOST_CALLERS`].
    ///
    /// # Errors
    /// [`Error::Count`] and [`Error::Memory`].
    pub fn open(count: usize) -> Result<(Self, Vec<Caller>)> {
        if count > MOST_CALLERS {
            return Err(Error::Count);
        }
        let mut handle = Box::new(raw::Service { at: ptr::null_mut(), open: false });
        let callers = Caller::closed(count);
        // SAFETY: the handles are closed and lie on the heap, where they stay, and nobody else has them.
        answered(unsafe { raw::dn_service_open_with_key(&mut *handle, callers.first(), count, secret(), secret()) })?;
        Ok((Self { handle, room: vec![0; 4096] }, callers.each()))
    }

    /// Writes what the callers call as a history, which `dummynet audit` reads.
    ///
    /// # Errors
    /// Those of the writer.
    pub fn history<W: Write>(self, to: W) -> io::Result<History<W>> {
        History::begin(self, to)
    }

    /// Takes out the calls so far, frees their memory, and returns how many they were.
    ///
    /// # Errors
    /// [`Error::Memory`].
    pub fn discard(&mut self) -> Result<u64> {
        while self.text()?.is_some() {}
        let (_, count) = self.take()?;
        while self.text()?.is_some() {}
        Ok(count)
    }

    /// Takes out the calls so far: how many were taken out before, and how many they are. None may wait to be written.
    pub(crate) fn take(&mut self) -> Result<(u64, u64)> {
        let (mut start, mut count) = (0, 0);
        // SAFETY: the handle is open, and the numbers are written at most.
        answered(until_answered(|holder| unsafe { raw::dn_service_take(&mut *self.handle, &mut start, &mut count, holder) }))?;
        Ok((start, count))
    }

    /// The texts of calls that wait to be written, in order and as many as have room, which then wait no more.
    pub(crate) fn text(&mut self) -> Result<Option<&[u8]>> {
        let (mut length, mut count) = (0, 0);
        loop {
            // SAFETY: the handle is open, and the text has as many bytes as it is said to have.
            let status = unsafe { raw::dn_service_texts(&mut *self.handle, self.room.as_mut_ptr(), self.room.len(), &mut length, &mut count) };
            match status {
                raw::NO_ENTRY => return Ok(None),
                crate::raw::ROOM => self.room.resize(length as usize, 0),
                other => return answered(other).map(|()| Some(&self.room[..length as usize])),
            }
        }
    }
}

impl Drop for Service {
    fn drop(&mut self) {
        // SAFETY: the handle is open, and is used no more.
        unsafe { raw::dn_service_close(&mut *self.handle) };
    }
}

opaque!(Service);
