//! A thread's part of a service.
use crate::raw_service as raw;
use crate::service::until_answered;
use crate::shaper::answered;
use crate::{Delivery, Error, Fate, Flow, Packet, Result};
use std::{cell::UnsafeCell, fmt, ptr, sync::Arc};

/// The handles of all callers, in the places where the library has opened them.
pub(crate) struct Handles(Box<[UnsafeCell<raw::Caller>]>);

// SAFETY: each handle belongs to one `Caller`, whose calls take it by `&mut`.
unsafe impl Send for Handles {}
unsafe impl Sync for Handles {}

impl Handles {
    /// The first of them, for the call that opens all.
    pub(crate) fn first(&self) -> *mut raw::Caller {
        self.0.as_ptr() as *mut raw::Caller
    }

    /// A caller for each, once they are open.
    pub(crate) fn each(self) -> Vec<Caller> {
        let all = Arc::new(self);
        (0..all.0.len()).map(|number| Caller { all: Arc::clone(&all), number }).collect()
    }
}

/// A thread's part of a [`Service`](crate::Service). Its calls are those of a [`Shaper`](crate::Shaper). They wait while another
/// caller is in a call.
///
/// One thread at a time uses a caller, which may pass to another thread.
pub struct Caller {
    all: Arc<Handles>,
    number: usize,
}

impl Caller {
    /// So many handles that are closed.
    pub(crate) fn closed(count: usize) -> Handles {
        Handles((0..count).map(|_| UnsafeCell::new(raw::Caller { at: ptr::null_mut(), open: false })).collect())
    }

    fn handle(&mut self) -> *mut raw::Caller {
        self.all.0[self.number].get()
    }

    /// Its number in the history, from 0.
    #[must_use]
    pub fn number(&self) -> usize {
        self.number
    }

    /// Obeys a line of a configuration. A line without words changes nothing.
    ///
    /// # Errors
    /// Those of [`Shaper::configure`](crate::Shaper::configure).
    pub fn configure(&mut self, line: &str) -> Result<()> {
        let (handle, mut fault) = (self.handle(), crate::raw::Fault::default());
        // SAFETY: the handle is open, the line has so many bytes, and the fault is written at most.
        let status = until_answered(|holder| unsafe { raw::dn_caller_configure(handle, line.as_ptr(), line.len(), &mut fault, holder) });
        if status == crate::raw::LINE { Err(Error::of_line(fault.kind, fault.word)) } else { answered(status) }
    }

    /// A packet arrives, and this is what becomes of it.
    ///
    /// # Errors
    /// Those of [`Shaper::submit`](crate::Shaper::submit).
    pub fn submit(&mut self, packet: &Packet) -> Result<Fate> {
        let (handle, packet, mut fate) = (self.handle(), packet.raw(), crate::raw::Fate::default());
        // SAFETY: the handle is open, and both structs are those of the header.
        answered(until_answered(|holder| unsafe { raw::dn_caller_submit(handle, &packet, &mut fate, holder) }))?;
        Ok(Fate::of(&fate))
    }

    /// Moves the clock, and returns the moment to which it has come, ns.
    ///
    /// # Errors
    /// [`Error::Moment`], [`Error::Memory`] and [`Error::Exhausted`].
    pub fn advance(&mut self, moment: u64) -> Result<u64> {
        let (handle, mut at) = (self.handle(), 0);
        // SAFETY: the handle is open, and the moment is written at most.
        answered(until_answered(|holder| unsafe { raw::dn_caller_advance(handle, moment, &mut at, holder) }))?;
        Ok(at)
    }

    /// Moves the clock, and takes out the packets that are due, in the order in which they are due.
    ///
    /// # Errors
    /// [`Error::Moment`], [`Error::Memory`] and [`Error::Exhausted`].
    pub fn collect(&mut self, moment: u64) -> Result<Vec<Delivery>> {
        let (handle, mut count) = (self.handle(), 0);
        // SAFETY: the handle is open, and the count is written at most.
        answered(until_answered(|holder| unsafe { raw::dn_caller_collect(handle, moment, &mut count, holder) }))?;
        let mut list = vec![crate::raw::Delivery::default(); count as usize];
        // SAFETY: the list has as many places as it is said to have.
        answered(unsafe { raw::dn_caller_deliveries(handle, 0, list.as_mut_ptr(), list.len(), &mut count) })?;
        Ok(list.iter().map(Delivery::of).collect())
    }

    /// The state of all flows, in the order of their numbers.
    ///
    /// # Errors
    /// [`Error::Memory`] and [`Error::Exhausted`].
    pub fn flows(&mut self) -> Result<Vec<Flow>> {
        let (handle, mut count) = (self.handle(), 0);
        // SAFETY: the handle is open, and the count is written at most.
        answered(until_answered(|holder| unsafe { raw::dn_caller_show(handle, &mut count, holder) }))?;
        let mut list = vec![crate::raw::Flow::default(); count as usize];
        // SAFETY: the list has as many places as it is said to have.
        answered(unsafe { raw::dn_caller_flows(handle, 0, list.as_mut_ptr(), list.len(), &mut count) })?;
        Ok(list.iter().map(Flow::of).collect())
    }

    /// When to collect, as [`Shaper::wake`](crate::Shaper::wake), after all calls so far. Another caller's call can come before it.
    ///
    /// # Errors
    /// [`Error::Exhausted`].
    pub fn wake(&mut self) -> Result<Option<u64>> {
        let (handle, mut moment) = (self.handle(), 0);
        // SAFETY: the handle is open, and the moment is written at most.
        answered(until_answered(|holder| unsafe { raw::dn_caller_wake(handle, &mut moment, holder) }))?;
        Ok((moment != crate::raw::NEVER).then_some(moment))
    }
}

impl Drop for Caller {
    fn drop(&mut self) {
        // SAFETY: the handle is open, and is used no more.
        unsafe { raw::dn_caller_close(self.handle()) };
    }
}

impl fmt::Debug for Caller {
    fn fmt(&self, to: &mut fmt::Formatter<'_>) -> fmt::Result {
        to.debug_struct("Caller").field("number", &self.number).finish_non_exhaustive()
    }
}
