//! What a net did.
use super::acts::Disturbance;
use super::state::{headers, Datagram};
use super::traffic::Inner;
use crate::Outcome;

const MOST_DROPPED: usize = 20; // that a report lists
const NS: f64 = 1e9;

/// What became of the packets of a link.
#[derive(Debug, Clone, Copy, PartialEq, Eq, Hash, Default)]
#[non_exhaustive]
pub struct Counts {
    /// All of them.
    pub sent: u64,
    /// Those that it lost by its loss rate.
    pub lost: u64,
    /// Those that found its queue full.
    pub full: u64,
}

impl Counts {
    pub(super) fn count(&mut self, outcome: Outcome) {
        self.sent += 1;
        self.lost += u64::from(outcome == Outcome::Lost);
        self.full += u64::from(outcome == Outcome::Full);
    }
}

/// A line about a datagram that a link didn't take, whose packet has this number in the history, from 1.
pub(super) fn dropped(row: u64, moment: u64, it: &Datagram, outcome: Outcome) -> String {
    let (what, bytes) = (if outcome == Outcome::Lost { "lost" } else { "full" }, it.data.len() + headers(it.target));
    format!("\n  row {row:>5}, {:.9} s, {} > {}, {bytes} bytes: {what}", moment as f64 / NS, it.source, it.target)
}

/// The report of `hingetulip.aio` on the same net.
pub(super) fn report(net: &Inner) -> String {
    let mut text = String::new();
    for (number, link) in net.links.iter().enumerate() {
        let (name, counts) = (net.name(number), link.counts);
        text += &format!("\n{name}: {} sent, {} lost, {} met a full queue", counts.sent, counts.lost, counts.full);
    }
    text.extend(net.unheard.iter().map(|(place, count)| format!("\n{place}: {count} without a socket")));
    text.extend(net.dropped.iter().take(MOST_DROPPED).map(String::as_str));
    if net.dropped.len() > MOST_DROPPED {
        text += &format!("\n  and {} more", net.dropped.len() - MOST_DROPPED);
    }
    text.extend(net.disturbances.iter().take(MOST_DROPPED).map(|it: &Disturbance| format!("\n{}", it.report())));
    text += &format!("\nsimulated time {:.9} s", net.now as f64 / NS);
    text.split_off(1)
}
