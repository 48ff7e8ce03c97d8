//! The state of flows.
use crate::{raw, Target};
use std::net::Ipv4Addr;

/// The state of a flow.
#[derive(Debug, Clone, Copy, PartialEq, Eq, Hash)]
#[non_exhaustive]
pub struct Flow {
    /// Its number.
    pub flow: u64,
    /// To what its packets are sent.
    pub target: Target,
    /// The pipe that carries them.
    pub pipe: u16,
    /// Packets in its queue.
    pub queued: u64,
    /// Bytes in its queue.
    pub bytes: u64,
    /// Packets lost by the loss rate.
    pub lost: u64,
    /// Packets that found the queue full.
    pub full: u64,
    /// Packets whose transmission has begun.
    pub started: u64,
    /// Packets that a delete took out of the queue.
    pub discarded: u64,
    /// The source's address and port, as the mask keeps them.
    pub src: (Ipv4Addr, u16),
    /// The destination's address and port, as the mask keeps them.
    pub dst: (Ipv4Addr, u16),
    /// The protocol, as the mask keeps it.
    pub proto: u8,
}

impl Flow {
    pub(crate) fn of(it: &raw::Flow) -> Self {
        Self {
            flow: it.flow, target: Target::of(it.kind, it.number), pipe: it.pipe, queued: it.queued, bytes: it.bytes, lost: it.lost,
            full: it.full, started: it.started, discarded: it.discarded, src: (it.src.into(), it.sport), dst: (it.dst.into(), it.dport),
            proto: it.proto,
        }
    }
}
