//! Packets that arrive.
use crate::shaper::answered;
use crate::{raw, Error, Result};
use std::net::Ipv4Addr;

const HEADER: [&[u8]; 10] = [b"moment", b"target", b"number", b"src", b"dst", b"proto", b"sport", b"dport", b"len", b"word"];
const MARK: &[u8] = b"\xef\xbb\xbf"; // a byte order mark, which the program skips too

/// Whether a field of the header has this name, of which all or the front may be in quotes. The end of a file closes them too.
fn is_named(field: &[u8], name: &[u8], is_end: bool) -> bool {
    let quotes = field.iter().filter(|byte| **byte == b'"').count();
    let is_quoted = field.first() == Some(&b'"') && (quotes == 2 || is_end && quotes == 1);
    field == name || is_quoted && field.iter().filter(|byte| **byte != b'"').eq(name)
}

/// What follows the header of a packet file.
fn rows_of(text: &[u8]) -> Result<&[u8]> {
    let text = text.strip_prefix(MARK).unwrap_or(text);
    let text = &text[text.iter().take_while(|byte| b"\r\n".contains(byte)).count()..];
    let (header, rows) = text.split_at(text.iter().position(|byte| b"\r\n".contains(byte)).unwrap_or(text.len()));
    let fields: Vec<_> = header.split(|byte| *byte == b',').collect();
    let is_end = |place| rows.is_empty() && place + 1 == HEADER.len();
    let is_header = fields.len() == HEADER.len() && (0..HEADER.len()).all(|place| is_named(fields[place], HEADER[place], is_end(place)));
    if is_header || header.is_empty() { Ok(rows) } else { Err(Error::Row(0, 0)) }
}

/// What a packet is sent to, by its number, from 1.
#[derive(Debug, Clone, Copy, PartialEq, Eq, Hash)]
pub enum Target {
    /// A pipe.
    Pipe(u16),
    /// A queue.
    Queue(u16),
}

impl Target {
    pub(crate) fn of(kind: u8, number: u16) -> Self {
        if kind == 0 { Self::Pipe(number) } else { Self::Queue(number) }
    }

    fn raw(self) -> (u8, u16) {
        match self {
            Self::Pipe(number) => (0, number),
            Self::Queue(number) => (1, number),
        }
    }
}

/// A packet that arrives.
///
/// ```
/// use hingetulip::{Packet, Target};
/// use std::net::Ipv4Addr;
///
/// let ping = Packet { src: Ipv4Addr::new(10, 0, 0, 1), proto: 1, ..Packet::new(1_000_000, Target::Pipe(1), 84) };
/// assert_eq!((ping.length, ping.dst), (84, Ipv4Addr::UNSPECIFIED));
/// ```
#[derive(Debug, Clone, Copy, PartialEq, Eq, Hash)]
pub struct Packet {
    /// When it arrives, ns.
    pub moment: u64,
    /// What it is sent to.
    pub target: Target,
    /// Its source.
    pub src: Ipv4Addr,
    /// Its destination.
    pub dst: Ipv4Addr,
    /// The protocol, as in the IP header: 6 TCP, 17 UDP.
    pub proto: u8,
    /// The source's port.
    pub sport: u16,
    /// The destination's port.
    pub dport: u16,
    /// Bytes, from 1.
    pub length: u16,
    /// A random word: the packet is lost where its low 31 bits are below the loss rate times 2^31.
    pub word: u32,
}

impl Packet {
    /// A packet of so many bytes that arrives at a moment, without addresses.
    ///
    /// No loss rate below 1 loses it: draw its `word` anew for each packet of a link with a loss rate.
    #[must_use]
    pub fn new(moment: u64, target: Target, length: u16) -> Self {
        let none = Ipv4Addr::UNSPECIFIED;
        Self { moment, target, src: none, dst: none, proto: 0, sport: 0, dport: 0, length, word: u32::MAX }
    }

    /// The packets of a packet file, which `dummynet replay` takes, in the order of its rows.
    ///
    /// ```
    /// use hingetulip::{Error, Packet, Target};
    ///
    /// let text = b"moment,target,number,src,dst,proto,sport,dport,len,word\n5,pipe,1,10.0.0.1,10.0.0.2,17,3,4,1000,9\n";
    /// let packets = Packet::read(text)?;
    /// assert_eq!((packets.len(), packets[0].target, packets[0].length, packets[0].word), (1, Target::Pipe(1), 1000, 9));
    /// assert_eq!(Packet::read(&text[56..]), Err(Error::Row(0, 0)));
    /// # Ok::<(), Error>(())
    /// ```
    ///
    /// # Errors
    /// [`Error::Row`] and [`Error::Memory`].
    pub fn read(text: &[u8]) -> Result<Vec<Self>> {
        const PART: usize = 4096; // rows that one call reads at most, if they are plain
        let (mut rows, mut packets, mut room) = (rows_of(text)?, Vec::new(), vec![raw::Packet::default(); PART]);
        let (mut count, mut used, mut row, mut field) = (0, 0, 0, 0);
        while !rows.is_empty() {
            // SAFETY: the rows and the room are as long as they say, and the other numbers are written at most.
            let status = unsafe {
                raw::dn_read_packets(rows.as_ptr(), rows.len(), room.as_mut_ptr(), room.len(), &mut count, &mut used, &mut row, &mut field)
            };
            match status {
                raw::ROOM => room.resize(count as usize, raw::Packet::default()),
                raw::BAD_ROW => return Err(Error::Row(packets.len() as u64 + row, field)),
                _ => {
                    answered(status)?;
                    packets.extend(room[..count as usize].iter().map(Self::of));
                    rows = &rows[used as usize..];
                }
            }
        }
        Ok(packets)
    }

    pub(crate) fn of(raw: &raw::Packet) -> Self {
        Self {
            moment: raw.moment, target: Target::of(raw.kind, raw.number), src: raw.src.into(), dst: raw.dst.into(), proto: raw.proto,
            sport: raw.sport, dport: raw.dport, length: raw.length, word: raw.word,
        }
    }

    pub(crate) fn raw(&self) -> raw::Packet {
        let (kind, number) = self.target.raw();
        raw::Packet {
            moment: self.moment, src: self.src.into(), dst: self.dst.into(), word: self.word, sport: self.sport, dport: self.dport,
            length: self.length, number, kind, proto: self.proto, reserved: 0,
        }
    }
}
