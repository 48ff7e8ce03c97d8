//! The entries of histories.
use crate::shaper::answered;
use crate::{raw, Delivery, Error, Fate, Flow, Packet, Result, Rule};

/// A call of a history.
#[derive(Debug, Clone, PartialEq, Eq, Hash)]
#[non_exhaustive]
pub enum Call {
    /// [`Shaper::configure`](crate::Shaper::configure) of this line, in its canonical form.
    Configure(String),
    /// A packet arrives.
    Submit(Packet),
    /// The clock moves to this moment, ns.
    Advance(u64),
    /// The clock moves to this moment, ns, and the packets that are due leave.
    Collect(u64),
    /// The state of all flows is asked for.
    Show,
}

/// The reply to a call. One of a history that isn't lawful can be of a kind that no such call has.
#[derive(Debug, Clone, PartialEq, Eq, Hash)]
#[non_exhaustive]
pub enum Reply {
    /// The call wasn't obeyed: [`Error::NoSuchPipe`], [`Error::PipeHasQueues`], [`Error::NoSuchQueue`] or [`Error::Exhausted`].
    Refused(Error),
    /// A configuration was obeyed.
    Configured,
    /// A delete was obeyed.
    Deleted,
    /// What became of a packet.
    Fate(Fate),
    /// Where the clock stands, ns.
    Clock(u64),
    /// Where the clock stands, ns, and the packets that are due.
    Deliveries(u64, Vec<Delivery>),
    /// The state of all flows.
    Flows(Vec<Flow>),
}

/// A call by a caller of a history, and the reply to it.
#[derive(Debug, Clone, PartialEq, Eq, Hash)]
#[non_exhaustive]
pub struct Entry {
    /// The caller, from 0 to 15.
    pub caller: u64,
    /// The call.
    pub call: Call,
    /// The reply.
    pub reply: Reply,
}

/// The lists into which the library reads a history.
struct Lists {
    entries: Vec<raw::Entry>,
    lines: Vec<u8>,
    deliveries: Vec<raw::Delivery>,
    flows: Vec<raw::Flow>,
}

impl Entry {
    /// The entries of a history's text in order, or of the transcript of a live session, and the rule by which an audit makes the calls again.
    ///
    /// An [`Audit`](crate::Audit) tells whether the replies are the emulator's.
    ///
    /// ```
    /// use hingetulip::{Call, Entry, Error, Reply, Rule};
    ///
    /// let text = b"dummynet-history,3\nc,0,configure,pipe 1 config bw 8Mbit/s\nr,configured\nc,2,advance,5\nr,advanced,7\nend,2\n";
    /// let (rule, entries) = Entry::read(text)?;
    /// assert_eq!((rule, entries.len(), entries[1].caller), (Rule::Ordered, 2, 2));
    /// assert_eq!(entries[0].call, Call::Configure("pipe 1 config bw 8000000bit/s".to_owned()));
    /// assert_eq!((&entries[1].call, &entries[1].reply), (&Call::Advance(5), &Reply::Clock(7)));
    /// assert_eq!(Entry::read(&text[..19]), Err(Error::Record(2)));
    /// # Ok::<(), Error>(())
    /// ```
    ///
    /// # Errors
    /// [`Error::Record`] and [`Error::Memory`].
    pub fn read(text: &[u8]) -> Result<(Rule, Vec<Self>)> {
        let mut sizes = raw::History::default();
        let mut lists = Lists::with_room(&sizes);
        while !lists.read(text, &mut sizes)? {
            lists = Lists::with_room(&sizes); // the library has told how much is enough
        }
        let rule = if sizes.rule == 0 { Rule::Ordered } else { Rule::Free };
        Ok((rule, lists.entries.iter().map(|it| lists.entry(it)).collect()))
    }
}

impl Lists {
    fn with_room(sizes: &raw::History) -> Self {
        Self {
            entries: vec![raw::Entry::default(); sizes.entries as usize], lines: vec![0; sizes.bytes as usize],
            deliveries: vec![raw::Delivery::default(); sizes.deliveries as usize], flows: vec![raw::Flow::default(); sizes.flows as usize],
        }
    }

    /// Reads a history into the lists, and returns whether they have room for it. Only the sizes are written if they haven't.
    fn read(&mut self, text: &[u8], sizes: &mut raw::History) -> Result<bool> {
        let mut record = 0;
        // SAFETY: the text and the lists are as long as they say, and the sizes and the number are written at most.
        let status = unsafe {
            raw::dn_read_history(text.as_ptr(), text.len(), self.entries.as_mut_ptr(), self.entries.len(), self.lines.as_mut_ptr(),
                self.lines.len(), self.deliveries.as_mut_ptr(), self.deliveries.len(), self.flows.as_mut_ptr(), self.flows.len(), sizes, &mut record)
        };
        match status {
            raw::ROOM => Ok(false),
            raw::BAD_RECORD => Err(Error::Record(record)),
            _ => answered(status).map(|()| true),
        }
    }

    fn entry(&self, it: &raw::Entry) -> Entry {
        let (line, first, count) = (it.line as usize, it.first as usize, it.count as usize);
        let call = match it.call {
            0 => Call::Configure(String::from_utf8_lossy(&self.lines[line..][..it.size as usize]).into_owned()),
            1 => Call::Submit(Packet::of(&it.packet)),
            2 => Call::Advance(it.packet.moment),
            3 => Call::Collect(it.packet.moment),
            _ => Call::Show,
        };
        let reply = match it.reply {
            0 => Reply::Refused(Error::of(it.status)),
            1 => Reply::Configured,
            2 => Reply::Deleted,
            3 => Reply::Fate(Fate::of(&it.fate)),
            4 => Reply::Clock(it.fate.at),
            5 => Reply::Deliveries(it.fate.at, self.deliveries[first..][..count].iter().map(Delivery::of).collect()),
            _ => Reply::Flows(self.flows[first..][..count].iter().map(Flow::of).collect()),
        };
        Entry { caller: it.caller, call, reply }
    }
}
