//! Why calls are not obeyed.
use crate::raw;
use core::fmt;

/// What is wrong with a line.
#[derive(Debug, Clone, Copy, PartialEq, Eq, Hash)]
#[non_exhaustive]
pub enum FaultKind {
    /// The line is no UTF-8.
    NotUtf8,
    /// The word is no keyword here.
    UnknownWord,
    /// The line ends behind the word.
    MissingValue,
    /// The word isn't written as the number that is asked for.
    NotANumber,
    /// The word is a number outside its range.
    OutOfRange,
    /// ipfw(8) has the word, and this library leaves it out.
    LeftOut,
    /// The line of a queue doesn't name its pipe.
    NeedsPipe,
}

/// A word of a simulated link that isn't one: the word as it was typed, up to its first 30 bytes, and what to write.
#[derive(Clone, Copy, PartialEq, Eq, Hash)]
pub struct Refused {
    bytes: [u8; 30],
    length: u8,
    advice: &'static str,
}

impl Refused {
    pub(crate) fn new(word: &str, advice: &'static str) -> Self {
        let length = (0..=word.len().min(30)).rev().find(|it| word.is_char_boundary(*it)).unwrap_or(0);
        let mut bytes = [0; 30];
        bytes[..length].copy_from_slice(&word.as_bytes()[..length]);
        Self { bytes, length: length as u8, advice }
    }

    /// The word.
    #[must_use]
    pub fn word(&self) -> &str {
        core::str::from_utf8(&self.bytes[..self.length.into()]).unwrap_or_default()
    }
}

impl fmt::Display for Refused {
    fn fmt(&self, to: &mut fmt::Formatter<'_>) -> fmt::Result {
        write!(to, "'{}': {}", self.word(), self.advice)
    }
}

impl fmt::Debug for Refused {
    fn fmt(&self, to: &mut fmt::Formatter<'_>) -> fmt::Result {
        write!(to, "{self}")
    }
}

/// Why a call wasn't obeyed. It changed nothing, except that an [`Audit`](crate::Audit) has ended.
#[derive(Debug, Clone, Copy, PartialEq, Eq, Hash)]
#[non_exhaustive]
pub enum Error {
    /// A line is no command: what is wrong, and the word at which that shows, from 1.
    Line(FaultKind, u64),
    /// A word of a simulated link isn't one.
    Word(Refused),
    /// The queue's pipe isn't configured, or there is no such pipe to delete.
    NoSuchPipe,
    /// A configured queue names the pipe that is to be deleted.
    PipeHasQueues,
    /// There is no such queue to delete.
    NoSuchQueue,
    /// A moment above [`LAST_MOMENT`](crate::LAST_MOMENT).
    Moment,
    /// A pipe or a queue numbered 0.
    Number,
    /// A packet of 0 bytes.
    Length,
    /// The number of a service's callers isn't in 1 to [`MOST_CALLERS`](crate::MOST_CALLERS).
    Count,
    /// A history is longer than the limit of its audit.
    TooLong,
    /// A record of a history is none or is missing: its number, from 1.
    Record(u64),
    /// A row of a packet file isn't of the packet form: its number, from 1, or 0 for the header, and its first bad field, or 0 if it hasn't ten.
    Row(u64, u64),
    /// The audit has ended by an earlier error.
    Closed,
    /// Memory was refused; the same call may be made again, except that of an audit.
    Memory,
    /// The shaper has replied to 2^62 calls.
    Exhausted,
    /// A status that this crate doesn't know.
    Status(u32),
}

/// The errors that say no more than their status.
const PLAIN: [(u32, Error); 11] = [
    (1, Error::Exhausted),
    (2, Error::NoSuchPipe),
    (3, Error::PipeHasQueues),
    (4, Error::NoSuchQueue),
    (5, Error::Closed),
    (6, Error::Memory),
    (9, Error::Moment),
    (12, Error::Number),
    (13, Error::Length),
    (16, Error::Count),
    (23, Error::TooLong),
];

impl Error {
    pub(crate) fn of(status: u32) -> Self {
        PLAIN.iter().find(|it| it.0 == status).map_or(Self::Status(status), |it| it.1)
    }

    pub(crate) fn of_line(kind: u32, word: u64) -> Self {
        const KINDS: [FaultKind; 7] = [FaultKind::NotUtf8, FaultKind::UnknownWord, FaultKind::MissingValue, FaultKind::NotANumber,
            FaultKind::OutOfRange, FaultKind::LeftOut, FaultKind::NeedsPipe];
        KINDS.get(kind as usize).map_or(Self::Status(raw::LINE), |kind| Self::Line(*kind, word))
    }
}

/// Writes the library's words for a status, under LINE for a fault.
fn write_reason(to: &mut fmt::Formatter<'_>, status: u32, word: u64, kind: u32) -> fmt::Result {
    let (fault, mut text, mut length) = (raw::Fault { word, kind, reserved: 0 }, [0; raw::REASON_ROOM], 0);
    // SAFETY: the fault is read, and the text, of that length, and its length are written.
    unsafe { raw::dn_reason(status, &fault, text.as_mut_ptr(), text.len(), &mut length) };
    to.write_str(core::str::from_utf8(&text[..length as usize]).unwrap_or_default())
}

impl fmt::Display for FaultKind {
    fn fmt(&self, to: &mut fmt::Formatter<'_>) -> fmt::Result {
        write_reason(to, raw::LINE, 0, *self as u32)
    }
}

impl fmt::Display for Error {
    fn fmt(&self, to: &mut fmt::Formatter<'_>) -> fmt::Result {
        match self {
            Self::Word(word) => word.fmt(to),
            Self::Line(kind, word) => write_reason(to, raw::LINE, *word, *kind as u32),
            Self::Record(number) => write!(to, "history record {number}: bad"),
            Self::Row(row, field) => write!(to, "packet row {row}, field {field}: bad"),
            Self::Closed => to.write_str("the audit has ended"),
            Self::Status(status) => write!(to, "status {status}"),
            plain => PLAIN.iter().filter(|it| it.1 == *plain).try_for_each(|it| write_reason(to, it.0, 0, 0)),
        }
    }
}

impl std::error::Error for Error {}
