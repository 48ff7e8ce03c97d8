//! What becomes of packets.
use crate::raw;

/// What became of a packet.
#[derive(Debug, Clone, Copy, PartialEq, Eq, Hash)]
#[must_use]
#[non_exhaustive]
pub enum Outcome {
    /// It was accepted under this number, which counts those before it, and will be delivered.
    Queued(u64),
    /// It was lost by the loss rate.
    Lost,
    /// It found the queue full.
    Full,
    /// Its pipe or queue isn't configured.
    NoTarget,
}

/// The reply to a packet.
#[derive(Debug, Clone, Copy, PartialEq, Eq, Hash)]
#[non_exhaustive]
pub struct Fate {
    /// The moment that counted, ns.
    pub at: u64,
    /// The packet's flow, from 0 in order of first sight; none where it had no target.
    pub flow: Option<u64>,
    /// What became of it.
    pub outcome: Outcome,
}

impl Fate {
    pub(crate) fn of(it: &raw::Fate) -> Self {
        let outcome = match it.outcome {
            0 => Outcome::Queued(it.packet),
            1 => Outcome::Lost,
            2 => Outcome::Full,
            _ => Outcome::NoTarget,
        };
        Self { at: it.at, flow: (outcome != Outcome::NoTarget).then_some(it.flow), outcome }
    }
}
