//! Packets that leave.
use crate::{raw, Result, Shaper};

/// A packet that leaves.
#[derive(Debug, Clone, Copy, PartialEq, Eq, Hash)]
#[non_exhaustive]
pub struct Delivery {
    /// When it leaves, ns.
    pub due: u64,
    /// Its number, as [`Outcome::Queued`](crate::Outcome::Queued) has it.
    pub packet: u64,
    /// Its flow.
    pub flow: u64,
    /// When its transmission began, ns.
    pub start: u64,
}

impl Delivery {
    pub(crate) fn of(it: &raw::Delivery) -> Self {
        Self { due: it.due, packet: it.packet, flow: it.flow, start: it.start }
    }
}

/// The packets of [`Shaper::deliveries`], in the order in which they are due.
#[derive(Debug)]
#[must_use = "nothing is taken out until it is asked for"]
pub struct Deliveries<'a> {
    shaper: &'a mut Shaper,
    until: u64,
    is_at_end: bool,
}

impl<'a> Deliveries<'a> {
    pub(crate) fn new(shaper: &'a mut Shaper, until: u64) -> Self {
        Self { shaper, until, is_at_end: false }
    }

    /// Moves the clock to the next moment at which something happens, or to the end.
    fn step(&mut self) -> Result<()> {
        match self.shaper.wake()? {
            Some(moment) if moment <= self.until => self.shaper.take_out(moment),
            _ => {
                self.is_at_end = true;
                self.shaper.take_out(self.until)
            }
        }
    }
}

impl Iterator for Deliveries<'_> {
    type Item = Result<Delivery>;

    fn next(&mut self) -> Option<Self::Item> {
        loop {
            if let Some(delivery) = self.shaper.taken.pop_front() {
                return Some(Ok(delivery));
            }
            if self.is_at_end {
                return None;
            }
            if let Err(error) = self.step() {
                self.is_at_end = true;
                return Some(Err(error));
            }
        }
    }
}
