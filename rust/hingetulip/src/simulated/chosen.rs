//! What happens to a packet: by the faults that are chosen, or else by what the seed draws.
use super::faults::{Fault, What};
use super::traffic::Inner;
use crate::Words;

const OF_JITTER: u32 = 1 << 20; // streams of random words apart from those of losses
const OF_COPIES: u32 = 2 << 20;

impl Inner {
    /// Whether a fault of a packet is chosen.
    pub(super) fn is_chosen(&self, link: usize, what: What) -> bool {
        self.chosen.as_ref().map_or(false, |chosen| chosen.0.contains(&Fault { of: self.name(link), what }))
    }

    /// Notes what happened to a packet.
    pub(super) fn note(&mut self, link: usize, what: What) {
        let of = self.name(link);
        self.happened.push(Fault { of, what });
    }

    /// Whether a packet comes twice: by the faults, or else by what the seed draws.
    pub(super) fn is_doubled(&self, number: usize, packet: u64) -> bool {
        let link = &self.links[number];
        let is_drawn = || Words::of_packet(self.seed, OF_COPIES + u32::from(link.pipe), packet) < link.options.duplicate;
        if self.chosen.is_some() { self.is_chosen(number, What::Twice(packet)) } else { link.options.duplicate > 0 && is_drawn() }
    }

    /// By how many ms a packet is late: by the faults, or else by what the seed draws.
    pub(super) fn lateness(&mut self, number: usize, packet: u64) -> u64 {
        let (link, of) = (&self.links[number], self.name(number));
        if let Some(ms) = link.late.get(&packet) {
            return *ms;
        }
        let ms = match &self.chosen {
            Some(chosen) => chosen.0.iter().find_map(|it| match it.what {
                What::Late(of_packet, ms) if of_packet == packet && it.of == of => Some(ms),
                _ => None,
            }).unwrap_or(0),
            None if link.options.jitter == 0 => 0,
            None => u64::from(Words::of_packet(self.seed, OF_JITTER + u32::from(link.pipe), packet) % (link.options.jitter + 1)),
        };
        if ms > 0 {
            self.links[number].late.insert(packet, ms);
            self.note(number, What::Late(packet, ms));
        }
        ms
    }
}
