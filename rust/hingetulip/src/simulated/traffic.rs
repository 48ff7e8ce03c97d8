//! Datagrams under way: over which link each goes, what the link does to it, and who gets it.
use super::acts::{Disturbance, Step};
use super::faults::{Fault, Faults, What};
use super::record::Record;
use super::report::dropped;
use super::state::{self, headers, Datagram, HostState, LinkState};
use crate::{Outcome, Packet, Result, Shaper, Target};
use std::collections::{BTreeMap, HashMap, VecDeque};
use std::net::{IpAddr, SocketAddr};
use std::task::Waker;
use std::{io, mem};

const MOST_REFUSAL: usize = 576; // bytes of a closed port's answer, which quotes what fits
const MOST_REFUSAL_OF_6: usize = 1280;
const LOST: u32 = 0; // words under a loss rate of 0.5
const KEPT: u32 = (1 << 31) - 1;
const ENETUNREACH: i32 = 101;
const EMSGSIZE: i32 = 90;
const EAFNOSUPPORT: i32 = 97;
pub(super) const ECONNREFUSED: i32 = 111;

/// What a net has.
pub(super) struct Inner {
    pub shaper: Shaper,
    pub record: Record,
    pub seed: u64,
    pub now: u64,
    pub clock: Option<Box<dyn Fn() -> u64 + Send>>,
    pub timers: BTreeMap<(u64, u64), Waker>, // by their moments and numbers
    pub count: u64, // of timers
    pub hosts: Vec<HostState>,
    pub links: Vec<LinkState>,
    pub dropped: Vec<String>, // as a report has them
    pub unheard: BTreeMap<SocketAddr, u64>, // datagrams to a port without a socket
    pub rows: u64,
    pub driver: Option<Waker>,
    pub pipes: u16,
    pub chosen: Option<Faults>,
    pub happened: Vec<Fault>,
    pub disturbances: Vec<Disturbance>,
    pub steps: BTreeMap<(u64, u64), Step>, // by their moments and numbers
    pub is_judged: bool, // by who asked for what met nothing, or who tries faults
    held: HashMap<u64, (usize, u64, Datagram)>, // with the numbers of links and of packets, 0 in a second pass
    late_pipes: HashMap<(usize, u64), u16>,
    next: Option<u64>,
    changed: bool, // whether the shaper was called since it was asked for `next`
}

impl Inner {
    pub(super) fn new(seed: u64) -> Result<Self> {
        Ok(Self {
            shaper: Shaper::new()?, record: Record::default(), seed, now: 0, clock: None, timers: BTreeMap::new(), count: 0,
            hosts: Vec::new(), links: Vec::new(), dropped: Vec::new(), unheard: BTreeMap::new(), rows: 0, driver: None,
            pipes: 0, chosen: None, happened: Vec::new(), disturbances: Vec::new(), steps: BTreeMap::new(), is_judged: false,
            held: HashMap::new(), late_pipes: HashMap::new(), next: None, changed: false,
        })
    }

    /// The present moment, by another clock where the net follows one.
    pub(super) fn now(&mut self) -> u64 {
        self.now = self.clock.as_ref().map_or(self.now, |clock| clock().max(self.now));
        self.now
    }

    pub(super) fn change(&mut self) {
        self.changed = true;
        if let Some(driver) = self.driver.take() {
            driver.wake();
        }
    }

    /// A configuration line counts from now on.
    pub(super) fn obey(&mut self, line: &str) -> Result<()> {
        let moment = self.now();
        if moment > 0 {
            let at = self.shaper.advance(moment)?;
            self.record.advance(moment, at)?;
        }
        self.shaper.configure(line)?;
        self.change();
        self.record.configure(line)
    }

    /// The number of a new pipe.
    pub(super) fn new_pipe(&mut self) -> u16 {
        self.pipes = self.pipes.checked_add(1).expect("a net has at most 65535 pipes");
        self.pipes
    }

    /// The hosts of a link, as faults name it.
    pub(super) fn name(&self, link: usize) -> String {
        let LinkState { near, far, .. } = self.links[link];
        format!("{} > {}", self.hosts[near].name, self.hosts[far].name)
    }

    /// The host with an address.
    pub(super) fn host_at(&self, address: IpAddr) -> Option<usize> {
        self.hosts.iter().position(|it| it.address == address)
    }

    /// The first link of a way over the fewest links, of equals over those that were made first.
    fn way(&self, near: usize, target: usize) -> Option<usize> {
        let mut reached = vec![near];
        let mut ways: VecDeque<(Option<usize>, usize)> = VecDeque::from([(None, near)]);
        while let Some((first, host)) = ways.pop_front() {
            for (number, link) in self.links.iter().enumerate().filter(|(_, link)| link.near == host) {
                let first = first.or(Some(number));
                if link.far == target {
                    return first;
                }
                if !reached.contains(&link.far) {
                    reached.push(link.far);
                    ways.push_back((first, link.far));
                }
            }
        }
        None
    }

    /// A host sends a datagram, or passes it on.
    pub(super) fn send(&mut self, near: usize, it: Datagram) -> io::Result<()> {
        let refusal = |number| Err(io::Error::from_raw_os_error(number));
        if it.data.len() + headers(it.target) > usize::from(u16::MAX) {
            return refusal(EMSGSIZE);
        } else if it.source.is_ipv4() != it.target.is_ipv4() {
            return refusal(EAFNOSUPPORT);
        }
        let target = self.host_at(it.target.ip());
        if target == Some(near) {
            self.give(near, it);
            return Ok(());
        }
        let link = target.and_then(|target| self.way(near, target));
        link.map_or_else(|| refusal(ENETUNREACH), |link| Ok(self.take(link, it)?))
    }

    /// A datagram comes to a link.
    pub(super) fn take(&mut self, number: usize, it: Datagram) -> Result<()> {
        let link = &mut self.links[number];
        for disturbance in link.cuts.iter().chain(&link.holds) {
            self.disturbances[*disturbance].met += 1;
        }
        if !link.holds.is_empty() {
            link.held.push_back(it);
            return Ok(());
        }
        link.came += 1;
        let packet = link.came;
        let is_doubled = !it.is_refusal && self.is_doubled(number, packet);
        let word = match self.chosen {
            Some(_) if self.is_chosen(number, What::Lost(packet)) => LOST,
            Some(_) => KEPT,
            None => self.links[number].words.next().unwrap_or(0),
        };
        if is_doubled {
            self.note(number, What::Twice(packet));
            self.enter(number, packet, word, it.clone())?;
        }
        self.enter(number, packet, if is_doubled { KEPT } else { word }, it)
    }

    /// A packet enters a link.
    fn enter(&mut self, number: usize, packet: u64, word: u32, it: Datagram) -> Result<()> {
        let link = &self.links[number];
        if self.next.map_or(true, |next| self.now + link.options.delay() < next) {
            self.change();
        }
        let outcome = self.submit(number, self.links[number].pipe, packet, word, it)?;
        self.links[number].counts.count(outcome);
        if outcome == Outcome::Lost {
            self.note(number, What::Lost(packet));
        }
        Ok(())
    }

    /// A packet that is late takes a second way, through a pipe that delays it.
    fn enter_again(&mut self, number: usize, ms: u64, it: Datagram) -> Result<()> {
        let pipe = match self.late_pipes.get(&(number, ms)) {
            Some(pipe) => *pipe,
            None => {
                let pipe = self.new_pipe();
                self.obey(&format!("pipe {pipe} config delay {ms}"))?;
                self.late_pipes.insert((number, ms), pipe);
                pipe
            }
        };
        self.change();
        self.submit(number, pipe, 0, KEPT, it).map(drop)
    }

    fn submit(&mut self, link: usize, pipe: u16, number: u64, word: u32, it: Datagram) -> Result<Outcome> {
        let now = self.now();
        let (proto, sport, dport) = if it.is_refusal { (1, 0, 0) } else { (17, it.source.port(), it.target.port()) };
        let length = (it.data.len() + headers(it.target)) as u16;
        let packet = Packet {
            src: state::number(it.source.ip()), dst: state::number(it.target.ip()), proto, sport, dport, word,
            ..Packet::new(now, Target::Pipe(pipe), length)
        };
        self.rows += 1;
        let fate = self.shaper.submit(&packet)?;
        self.record.submit(&packet, &fate)?;
        match fate.outcome {
            Outcome::Queued(packet) => drop(self.held.insert(packet, (link, number, it))),
            outcome => self.dropped.push(dropped(self.rows, now, &it, outcome)),
        }
        Ok(fate.outcome)
    }

    /// The next moment of a link.
    fn wake_of_links(&mut self) -> Option<u64> {
        if mem::take(&mut self.changed) {
            // No other error than one after 2^62 calls is there.
            self.next = if self.held.is_empty() { None } else { self.shaper.wake().expect("calls are left") };
        }
        self.next
    }

    /// The next moment of a link, a cut or a hold.
    pub(super) fn wake(&mut self) -> Option<u64> {
        let step = self.steps.keys().next().map(|it| it.0);
        self.wake_of_links().into_iter().chain(step).min()
    }

    /// Datagrams whose moment has come leave their links, and cuts and holds begin and end.
    pub(super) fn deliver(&mut self) -> Result<()> {
        let now = self.now();
        if self.wake_of_links().map_or(false, |wake| wake <= now) {
            self.changed = true;
            let list = self.shaper.collect(now)?;
            self.record.collect(now, &list)?;
            for delivery in list {
                let (link, packet, it) = self.held.remove(&delivery.packet).expect("what is queued is held");
                self.leave(link, packet, it)?;
            }
        }
        self.act(now)
    }

    /// A datagram leaves a link, or goes on by a second way.
    fn leave(&mut self, link: usize, packet: u64, it: Datagram) -> Result<()> {
        let ms = if packet == 0 || it.is_refusal { 0 } else { self.lateness(link, packet) };
        let far = self.links[link].far;
        if ms > 0 {
            return self.enter_again(link, ms, it);
        } else if self.hosts[far].address == it.target.ip() {
            self.give(far, it);
        } else {
            let _ = self.send(far, it); // whose way may have gone
        }
        Ok(())
    }

    /// A datagram has come to its host. A closed port answers that it is closed.
    fn give(&mut self, host: usize, it: Datagram) {
        let inbox = self.hosts[host].sockets.get_mut(&it.target.port());
        let inbox = inbox.filter(|inbox| inbox.remote.map_or(!it.is_refusal, |remote| remote == it.source));
        match inbox {
            Some(inbox) if it.is_refusal => inbox.put(Err(io::Error::from_raw_os_error(ECONNREFUSED))),
            Some(inbox) => inbox.put(Ok((it.data, it.source))),
            None if it.is_refusal => {}
            None => {
                *self.unheard.entry(it.target).or_default() += 1;
                let before = headers(it.target);
                let mut data = vec![0; before];
                data.extend(it.data);
                data.truncate(if it.target.is_ipv4() { MOST_REFUSAL } else { MOST_REFUSAL_OF_6 } - before);
                let _ = self.send(host, Datagram { source: it.target, target: it.source, data, is_refusal: true });
            }
        }
    }

    /// The wakers of the timers that are due.
    pub(super) fn due_timers(&mut self) -> Vec<Waker> {
        let later = self.timers.split_off(&(self.now + 1, 0));
        mem::replace(&mut self.timers, later).into_values().collect()
    }
}
