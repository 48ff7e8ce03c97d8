//! The emulator.
use crate::{raw, Deliveries, Delivery, Error, Fate, Flow, Packet, Result};
use std::collections::{hash_map::RandomState, VecDeque};
use std::hash::{BuildHasher, Hasher};
use std::ptr;

/// How the due moments of the packets on one link follow one another.
#[derive(Debug, Clone, Copy, PartialEq, Eq, Hash, Default)]
#[non_exhaustive]
pub enum Rule {
    /// A packet is due no sooner than the one before it.
    #[default]
    Ordered,
    /// A packet is due when its bits and the pipe's delay have passed, whatever is before it.
    Free,
}

/// An emulator of its own. One thread at a time uses it, and it may pass to another thread.
pub struct Shaper {
    handle: Box<raw::Handle>, // the library asks that it stays where it is
    room: Vec<raw::Delivery>,
    pub(crate) taken: VecDeque<Delivery>, // out of the library, and not asked for yet
}

// SAFETY: one thread at a time uses a handle, as the header asks, since all calls take `&mut`. It may pass to another thread: the library
// keeps nothing for a thread, and its memory is malloc's.
unsafe impl Send for Shaper {}

/// A secret that is drawn anew.
pub(crate) fn secret() -> u64 {
    RandomState::new().build_hasher().finish()
}

/// The result of a call by its status.
pub(crate) fn answered(status: u32) -> Result<()> {
    if status == raw::OK { Ok(()) } else { Err(Error::of(status)) }
}

impl Shaper {
    /// A shaper without any pipe, under the rule [`Rule::Ordered`].
    ///
    /// # Errors
    /// [`Error::Memory`].
    pub fn new() -> Result<Self> {
        Self::with_rule(Rule::Ordered)
    }

    /// A shaper under a rule.
    ///
    /// Its table of flows has a secret of its own, drawn anew: no reply depends on it.
    ///
    /// # Errors
    /// [`Error::Memory`].
    pub fn with_rule(rule: Rule) -> Result<Self> {
        let mut handle = Box::new(raw::Handle { at: ptr::null_mut(), open: false });
        // SAFETY: the handle is closed and lies on the heap, where it stays.
        answered(unsafe { raw::dn_open_with_key(&mut *handle, rule as u32, secret(), secret()) })?;
        Ok(Self { handle, room: Vec::new(), taken: VecDeque::new() })
    }

    /// Obeys a line of a configuration. A line without words changes nothing.
    ///
    /// ```
    /// use hingetulip::{Error, FaultKind, Shaper};
    ///
    /// let mut shaper = Shaper::new()?;
    /// shaper.configure("pipe 1 config bw 8Mbit/s delay 20")?;
    /// assert_eq!(shaper.configure("pipe 1 config bw 8Mbps"), Err(Error::Line(FaultKind::NotANumber, 5)));
    /// # Ok::<(), Error>(())
    /// ```
    ///
    /// # Errors
    /// [`Error::Line`] for a line that is no command, [`Error::NoSuchPipe`], [`Error::PipeHasQueues`], [`Error::NoSuchQueue`],
    /// [`Error::Memory`] and [`Error::Exhausted`].
    pub fn configure(&mut self, line: &str) -> Result<()> {
        let mut fault = raw::Fault::default();
        // SAFETY: the handle is open, the line has so many bytes, and the fault is written at most.
        let status = unsafe { raw::dn_configure(&mut *self.handle, line.as_ptr(), line.len(), &mut fault) };
        if status == raw::LINE { Err(Error::of_line(fault.kind, fault.word)) } else { answered(status) }
    }

    /// A packet arrives, and this is what becomes of it.
    ///
    /// # Errors
    /// [`Error::Moment`], [`Error::Number`] and [`Error::Length`] for a field out of its range, [`Error::Memory`], [`Error::Exhausted`].
    pub fn submit(&mut self, packet: &Packet) -> Result<Fate> {
        let mut fate = raw::Fate::default();
        // SAFETY: the handle is open, and both structs are those of the header.
        answered(unsafe { raw::dn_submit(&mut *self.handle, &packet.raw(), &mut fate) })?;
        Ok(Fate::of(&fate))
    }

    /// Packets arrive one after the other, and their fates are appended to a list.
    ///
    /// Where one is refused, those before it have arrived, and their fates are appended; it and those behind it have not.
    ///
    /// ```
    /// use hingetulip::{Error, Outcome, Packet, Shaper, Target};
    ///
    /// let mut shaper = Shaper::new()?;
    /// shaper.configure("pipe 1 config bw 8Mbit/s queue 1")?;
    /// let mut packets = [Packet::new(0, Target::Pipe(1), 1000); 4];
    /// packets[3].length = 0;
    /// let mut fates = Vec::new();
    /// assert_eq!(shaper.submit_many(&packets, &mut fates), Err(Error::Length));
    /// assert_eq!(fates.len(), 3);
    /// assert_eq!(fates[2].outcome, Outcome::Full);
    /// # Ok::<(), Error>(())
    /// ```
    ///
    /// # Errors
    /// Those of [`submit`](Self::submit), of the first packet that is refused.
    pub fn submit_many(&mut self, packets: &[Packet], fates: &mut Vec<Fate>) -> Result<()> {
        let given: Vec<raw::Packet> = packets.iter().map(Packet::raw).collect();
        let mut room = vec![raw::Fate::default(); given.len()];
        let mut done = 0;
        // SAFETY: the handle is open, both lists have so many structs of the header, and the count is written.
        let status = unsafe {
            raw::dn_submit_many(&mut *self.handle, given.as_ptr(), given.len(), room.as_mut_ptr(), room.len(), &mut done)
        };
        fates.extend(room[..done as usize].iter().map(Fate::of));
        answered(status)
    }

    /// Makes room for a packet to come, and returns whether it is there: it isn't before the first packet of a flow.
    ///
    /// The library then takes no memory for [`submit`](Self::submit) of a packet to the same pipe or queue with the same addresses,
    /// ports and protocol, if at most `advance`, `collect`, `flows`, `wake`, `reserve` and, for packets of other flows, `submit` are
    /// called before it. The call changes nothing else.
    ///
    /// ```
    /// use hingetulip::{Packet, Shaper, Target};
    ///
    /// let mut shaper = Shaper::new()?;
    /// shaper.configure("pipe 1 config bw 8Mbit/s")?;
    /// let packet = Packet::new(0, Target::Pipe(1), 1000);
    /// assert!(!shaper.reserve(&packet)?);
    /// shaper.submit(&packet)?;
    /// assert!(shaper.reserve(&packet)?);
    /// # Ok::<(), hingetulip::Error>(())
    /// ```
    ///
    /// # Errors
    /// Those of [`submit`](Self::submit).
    pub fn reserve(&mut self, packet: &Packet) -> Result<bool> {
        // SAFETY: the handle is open, and the packet is the header's.
        let status = unsafe { raw::dn_reserve(&mut *self.handle, &packet.raw()) };
        if status == raw::NEW_FLOW { Ok(false) } else { answered(status).map(|()| true) }
    }

    /// Moves the clock, and returns the moment to which it has come, ns.
    ///
    /// # Errors
    /// [`Error::Moment`] and [`Error::Exhausted`].
    pub fn advance(&mut self, moment: u64) -> Result<u64> {
        let mut at = 0;
        // SAFETY: the handle is open, and the moment is written at most.
        answered(unsafe { raw::dn_advance(&mut *self.handle, moment, &mut at) })?;
        Ok(at)
    }

    /// Moves the clock, and takes out the packets that are due, in the order in which they are due.
    ///
    /// # Errors
    /// [`Error::Moment`], [`Error::Memory`] and [`Error::Exhausted`].
    pub fn collect(&mut self, moment: u64) -> Result<Vec<Delivery>> {
        self.take_out(moment)?;
        Ok(self.taken.drain(..).collect())
    }

    /// Moves the clock, and puts the packets that are due behind those that were taken out before.
    pub(crate) fn take_out(&mut self, moment: u64) -> Result<()> {
        let mut count = 0;
        loop {
            // SAFETY: the handle is open, and the list has as many places as it is said to have.
            let status = unsafe { raw::dn_collect(&mut *self.handle, moment, self.room.as_mut_ptr(), self.room.len(), &mut count) };
            if status != raw::ROOM {
                answered(status)?;
                self.taken.extend(self.room[..count as usize].iter().map(Delivery::of));
                return Ok(());
            }
            self.room.resize((count as usize).max(64), raw::Delivery::default());
        }
    }

    /// The packets that are due up to a moment, one by one.
    ///
    /// The clock goes from one to the next, and a packet that isn't asked for stays in the shaper. After an error there is nothing more.
    ///
    /// ```
    /// use hingetulip::{Packet, Shaper, Target};
    ///
    /// let mut shaper = Shaper::new()?;
    /// shaper.configure("pipe 1 config bw 8Mbit/s")?;
    /// let fate = shaper.submit(&Packet::new(0, Target::Pipe(1), 1000))?;
    /// assert_eq!(fate.flow, Some(0));
    /// assert_eq!(shaper.deliveries(999_999).count(), 0);
    /// assert_eq!(shaper.deliveries(1_000_000).count(), 1);
    /// # Ok::<(), hingetulip::Error>(())
    /// ```
    pub fn deliveries(&mut self, until: u64) -> Deliveries<'_> {
        Deliveries::new(self, until)
    }

    /// The state of all flows, in the order of their numbers.
    ///
    /// # Errors
    /// [`Error::Memory`] and [`Error::Exhausted`].
    pub fn flows(&mut self) -> Result<Vec<Flow>> {
        let (mut list, mut count) = (vec![raw::Flow::default(); 16], 0);
        loop {
            // SAFETY: the handle is open, and the list has as many places as it is said to have.
            let status = unsafe { raw::dn_show(&mut *self.handle, list.as_mut_ptr(), list.len(), &mut count) };
            if status != raw::ROOM {
                answered(status)?;
                return Ok(list[..count as usize].iter().map(Flow::of).collect());
            }
            list.resize(count as usize, raw::Flow::default());
        }
    }

    /// When to collect: the first moment at which a packet is due or its transmission begins, if no other call comes; none where
    /// nothing waits and nothing is under way.
    ///
    /// # Errors
    /// None of an open shaper but [`Error::Exhausted`].
    pub fn wake(&mut self) -> Result<Option<u64>> {
        let mut moment = 0;
        // SAFETY: the handle is open, and the moment is written at most.
        answered(unsafe { raw::dn_wake(&mut *self.handle, &mut moment) })?;
        Ok((moment != raw::NEVER).then_some(moment))
    }
}

impl Drop for Shaper {
    fn drop(&mut self) {
        // SAFETY: the handle is open, and is used no more.
        unsafe { raw::dn_close(&mut *self.handle) };
    }
}

opaque!(Shaper);
