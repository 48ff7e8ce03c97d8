//! The history of a net: the calls of its shaper, as `dummynet audit` reads them.
use crate::shaper::answered;
use crate::{raw, Delivery, Fate, Outcome, Packet, Result};

/// The text of the entries of calls, and their count.
#[derive(Default)]
pub(super) struct Record {
    text: Vec<u8>,
    count: u64,
}

impl Record {
    /// The whole history.
    pub(super) fn history(&self) -> Vec<u8> {
        [b"dummynet-history,3\n", &*self.text, format!("end,{}\n", self.count).as_bytes()].concat()
    }

    /// A line was obeyed.
    pub(super) fn configure(&mut self, line: &str) -> Result<()> {
        let (line, length, mut fault) = (line.as_ptr(), line.len(), raw::Fault::default());
        // SAFETY: the line has so many bytes, and the text as many places as it is said to have.
        self.add(|text, room, written| unsafe { raw::dn_configure_text(0, line, length, raw::OK, &mut fault, text, room, written) })
    }

    /// The clock moved to a moment.
    pub(super) fn advance(&mut self, moment: u64, at: u64) -> Result<()> {
        // SAFETY: the text has as many places as it is said to have.
        self.add(|text, room, written| unsafe { raw::dn_advance_text(0, moment, at, text, room, written) })
    }

    /// A packet arrived.
    pub(super) fn submit(&mut self, packet: &Packet, fate: &Fate) -> Result<()> {
        let (outcome, number) = match fate.outcome {
            Outcome::Queued(number) => (0, number),
            Outcome::Lost => (1, 0),
            Outcome::Full => (2, 0),
            Outcome::NoTarget => (3, 0),
        };
        let fate = raw::Fate { at: fate.at, flow: fate.flow.unwrap_or(0), packet: number, outcome, reserved: 0 };
        let packet = packet.raw();
        // SAFETY: both structs are those of the header, and the text has as many places as it is said to have.
        self.add(|text, room, written| unsafe { raw::dn_submit_text(0, &packet, &fate, text, room, written) })
    }

    /// Packets were taken out at a moment.
    pub(super) fn collect(&mut self, moment: u64, list: &[Delivery]) -> Result<()> {
        let of = |it: &Delivery| raw::Delivery { due: it.due, packet: it.packet, flow: it.flow, start: it.start, reserved: 0 };
        let list: Vec<raw::Delivery> = list.iter().map(of).collect();
        // SAFETY: the list has so many structs of the header, and the text as many places as it is said to have.
        self.add(|text, room, written| unsafe { raw::dn_collect_text(0, moment, moment, list.as_ptr(), list.len(), text, room, written) })
    }

    /// Adds the text that a call of the library writes, and makes room for it.
    fn add(&mut self, mut call: impl FnMut(*mut u8, usize, *mut u64) -> u32) -> Result<()> {
        let (before, mut room, mut length) = (self.text.len(), 256, 0);
        loop {
            self.text.resize(before + room, 0);
            let status = call(self.text[before..].as_mut_ptr(), room, &mut length);
            if status != raw::ROOM {
                self.text.truncate(before + if status == raw::OK { length as usize } else { 0 });
                self.count += u64::from(status == raw::OK);
                return answered(status);
            }
            room = length as usize;
        }
    }
}
