//! Hosts and the links between them.
use super::acts::Step;
use super::faults::{Faults, What};
use super::options::Options;
use super::report::{report, Counts};
use super::state::{number, HostState, LinkState};
use super::traffic::Inner;
use super::UdpSocket;
use crate::{Audit, Result, Verdict, Words};
use std::cell::RefCell;
use std::collections::{HashMap, VecDeque};
use std::future::Future;
use std::io;
use std::net::{IpAddr, Ipv4Addr};
use std::pin::Pin;
use std::sync::{Arc, Mutex, MutexGuard, PoisonError};
use std::task::{Context, Poll};
use std::time::Duration;
use std::mem;

/// Hosts and the links between them, with a clock of their own. Clones are the same net.
#[derive(Clone)]
pub struct Net(Arc<Mutex<Inner>>);

impl Net {
    /// A net without hosts at moment 0, whose losses follow from a seed.
    pub fn new(seed: u64) -> Result<Self> {
        Ok(Self(Arc::new(Mutex::new(Inner::new(seed)?))))
    }

    /// The same, whose links lose, double and delay what these faults say, in the place of what their words draw.
    ///
    /// # Panics
    /// The end of the net panics, unless the thread does already or [`unmet`](Self::unmet) was called, if a cut, a hold or a fault met
    /// nothing.
    pub fn with_faults(seed: u64, faults: &Faults) -> Result<Self> {
        let net = Self::tried(seed, Some(faults))?;
        net.inner().is_judged = false;
        Ok(net)
    }

    /// A net whose faults may meet nothing.
    pub(super) fn tried(seed: u64, faults: Option<&Faults>) -> Result<Self> {
        let net = Self::new(seed)?;
        let mut inner = net.inner();
        for fault in faults.iter().flat_map(|it| &it.0) {
            if let What::Cut(moment, _) | What::Hold(moment, _) = fault.what {
                inner.at(moment, Step::Begin(fault.clone()));
            }
        }
        inner.chosen = faults.cloned();
        inner.is_judged = true;
        drop(inner);
        Ok(net)
    }

    /// What happened to packets so far that is no fault of queues, as faults that repeat it.
    #[must_use]
    pub fn faults(&self) -> Faults {
        Faults(self.inner().happened.clone())
    }

    /// The cuts, holds and faults that met no packet, host or link so far, a line each.
    #[must_use]
    pub fn unmet(&self) -> Vec<String> {
        let mut inner = self.inner();
        inner.is_judged = true;
        inner.unmet()
    }

    /// The links of a host by its name or address, or one as `client > server`, lose all packets that come to them, for so long.
    ///
    /// # Panics
    /// Panics if no link has such a host or name, and at the end of the net as with [`with_faults`](Self::with_faults).
    pub fn cut(&self, of: &str, lasting: Duration) -> Result<()> {
        self.disturb(of, true, lasting)
    }

    /// What comes to those links waits there for so long.
    ///
    /// # Panics
    /// As [`cut`](Self::cut).
    pub fn hold(&self, of: &str, lasting: Duration) -> Result<()> {
        self.disturb(of, false, lasting)
    }

    fn disturb(&self, of: &str, is_cut: bool, lasting: Duration) -> Result<()> {
        let found = self.inner().disturb(of, is_cut, u64::try_from(lasting.as_nanos()).unwrap_or(u64::MAX))?;
        found.unwrap_or_else(|text| panic!("{text}"));
        Ok(())
    }

    pub(super) fn inner(&self) -> MutexGuard<'_, Inner> {
        self.0.lock().unwrap_or_else(PoisonError::into_inner)
    }

    /// The history of the net so far, which `dummynet audit` reads. It has some 200 bytes for each datagram and link.
    #[must_use]
    pub fn history(&self) -> Vec<u8> {
        self.inner().record.history()
    }

    /// The verdict on the history so far.
    pub fn audit(&self) -> Result<Verdict> {
        let (mut audit, history) = (Audit::within(usize::MAX)?, self.history());
        audit.feed(&history)?;
        audit.finish()
    }

    /// The host with an address of IPv4 or IPv6, which is made if there is none yet.
    ///
    /// # Panics
    /// Panics if the text is none, or if another host has its last 32 bits, by which a history knows an address of IPv6.
    #[must_use]
    pub fn host(&self, address: &str) -> Host {
        let address: IpAddr = address.parse().unwrap_or_else(|_| panic!("{address:?} is no address; write 10.0.0.1 or fd00::1"));
        let mut inner = self.inner();
        let found = inner.host_at(address);
        let other = inner.hosts.iter().find(|it| found.is_none() && number(it.address) == number(address)).map(|it| it.address);
        if let Some(other) = other {
            drop(inner);
            panic!("a history can't tell {address} from {other}");
        }
        let number = found.unwrap_or_else(|| {
            inner.hosts.push(HostState::new(address));
            inner.hosts.len() - 1
        });
        Host { net: self.clone(), number }
    }

    /// One direction between two hosts, with the words of a link: `8Mbit/s 20ms loss 5% jitter 10ms duplicate 1%`, or the options of
    /// ipfw's line. Jitter delays each packet by up to so many ms more, so that packets overtake each other.
    ///
    /// # Errors
    /// [`Error::Word`](crate::Error::Word), which has the word that isn't one of a link.
    ///
    /// # Panics
    /// Panics if there is a link from the one host to the other, or are 65,535 links and delays of late packets.
    pub fn link(&self, near: &Host, far: &Host, words: &str) -> Result<Link> {
        let mut inner = self.inner();
        let (near, far, number) = (near.number, far.number, inner.links.len());
        assert!(near != far && inner.links.iter().all(|it| (it.near, it.far) != (near, far)), "there is a link already");
        let mut options = Options::read(words, false)?;
        if inner.chosen.is_some() && options.loses_none() {
            options = options.losing("0.5"); // under which the words of faults decide
        }
        let pipe = inner.new_pipe();
        inner.obey(&options.line(pipe))?;
        let (words, counts) = (Words::new(inner.seed, pipe.into()), Counts::default());
        let (cuts, holds, held, late) = (Vec::new(), Vec::new(), VecDeque::new(), HashMap::new());
        inner.links.push(LinkState { near, far, pipe, options, words, counts, came: 0, cuts, holds, held, late });
        Ok(Link { net: self.clone(), number })
    }

    /// A link each way between two hosts, alike.
    pub fn path(&self, one: &Host, other: &Host, words: &str) -> Result<(Link, Link)> {
        Ok((self.link(one, other, words)?, self.link(other, one, words)?))
    }

    /// The present moment.
    #[must_use]
    pub fn now(&self) -> Duration {
        Duration::from_nanos(self.inner().now())
    }

    /// What each link did, and the first of the datagrams that links dropped.
    #[must_use]
    pub fn report(&self) -> String {
        report(&self.inner())
    }

    /// From now on the present moment is that of another clock, which begins at 0 and doesn't go back. Whoever moves that clock calls
    /// [`deliver`](Self::deliver) at each [`poll_next`](Self::poll_next).
    pub fn follow(&self, clock: impl Fn() -> Duration + Send + 'static) {
        self.inner().clock = Some(Box::new(move || clock().as_nanos() as u64));
    }

    /// The next moment at which a link does something, if any. The task is woken where another one may have become the next.
    pub fn poll_next(&self, context: &mut Context<'_>) -> Option<Duration> {
        let mut inner = self.inner();
        inner.driver = Some(context.waker().clone());
        inner.wake().map(Duration::from_nanos)
    }

    /// Gives the datagrams that are due to their sockets.
    pub fn deliver(&self) -> Result<()> {
        self.inner().deliver()
    }
}

opaque!(Net);

thread_local! {
    static HERE: RefCell<Option<Host>> = const { RefCell::new(None) };
}

/// A host of a net. Clones are the same host.
#[derive(Debug, Clone)]
pub struct Host {
    pub(super) net: Net,
    pub(super) number: usize,
}

impl Host {
    /// The host on which the present task runs.
    pub(super) fn here() -> Option<Self> {
        HERE.with(|here| here.borrow().clone())
    }

    /// Its address of IPv4, or the last 32 bits of that of IPv6, as a history has it.
    #[must_use]
    pub fn address(&self) -> Ipv4Addr {
        number(self.ip())
    }

    /// Its address.
    #[must_use]
    pub fn ip(&self) -> IpAddr {
        self.net.inner().hosts[self.number].address
    }

    /// The same host, which reports and faults call so.
    #[must_use]
    pub fn named(self, name: &str) -> Self {
        self.net.inner().hosts[self.number].name = name.into();
        self
    }

    /// A socket of this host at a port, or at a free one (0).
    pub fn bind(&self, port: u16) -> io::Result<UdpSocket> {
        UdpSocket::at(self.clone(), port)
    }

    /// A future that runs on this host, so that it binds its sockets there.
    pub fn within<F: Future>(&self, future: F) -> impl Future<Output = F::Output> {
        Within { host: self.clone(), future: Box::pin(future) }
    }
}

struct Within<F> {
    host: Host,
    future: Pin<Box<F>>,
}

impl<F: Future> Future for Within<F> {
    type Output = F::Output;

    fn poll(mut self: Pin<&mut Self>, context: &mut Context<'_>) -> Poll<F::Output> {
        let before = HERE.with(|here| here.replace(Some(self.host.clone())));
        let polled = self.future.as_mut().poll(context);
        drop(HERE.with(|here| mem::replace(&mut *here.borrow_mut(), before)));
        polled
    }
}

/// One direction between two hosts. Clones are the same link.
#[derive(Debug, Clone)]
pub struct Link {
    net: Net,
    number: usize,
}

impl Link {
    /// Gives the whole link anew: an option that is left out has its default. Where the words are refused, the link stays as it was.
    pub fn change(&self, words: &str) -> Result<()> {
        let mut inner = self.net.inner();
        let mut options = Options::read(words, true)?;
        if inner.chosen.is_some() && options.loses_none() {
            options = options.losing("0.5");
        }
        let before = mem::replace(&mut inner.links[self.number].options, options);
        let line = inner.links[self.number].line();
        let (jitter, duplicate) = (before.jitter, before.duplicate);
        let link = &mut inner.links[self.number];
        (link.options.jitter, link.options.duplicate) = (jitter, duplicate);
        let obeyed = inner.obey(&line);
        if obeyed.is_err() {
            inner.links[self.number].options = before;
        }
        obeyed
    }

    /// What became of its packets.
    #[must_use]
    pub fn counts(&self) -> Counts {
        self.net.inner().links[self.number].counts
    }
}
