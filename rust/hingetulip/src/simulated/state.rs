//! The hosts, links and datagrams of a net.
use super::options::Options;
use super::report::Counts;
use crate::Words;
use std::collections::{HashMap, VecDeque};
use std::io;
use std::net::{IpAddr, Ipv4Addr, SocketAddr};
use std::task::Waker;

const FIRST_FREE_PORT: u16 = 49152;

/// The bytes before the data of a datagram to an address, which a link carries too.
pub(super) fn headers(target: SocketAddr) -> usize {
    if target.is_ipv4() { 28 } else { 48 }
}

/// An address as a history has it: that of IPv4, or the last 32 bits of that of IPv6.
pub(super) fn number(address: IpAddr) -> Ipv4Addr {
    match address {
        IpAddr::V4(address) => address,
        IpAddr::V6(address) => Ipv4Addr::from(u128::from(address) as u32),
    }
}

/// A datagram on its way, or a closed port's answer to one, as ICMP brings it.
#[derive(Debug, Clone)]
pub(super) struct Datagram {
    pub source: SocketAddr,
    pub target: SocketAddr,
    pub data: Vec<u8>,
    pub is_refusal: bool,
}

/// What has come to a socket.
#[derive(Default)]
pub(super) struct Inbox {
    pub remote: Option<SocketAddr>,
    pub came: VecDeque<io::Result<(Vec<u8>, SocketAddr)>>,
    pub wakers: Vec<Waker>,
}

impl Inbox {
    pub(super) fn put(&mut self, it: io::Result<(Vec<u8>, SocketAddr)>) {
        self.came.push_back(it);
        self.wakers.drain(..).for_each(Waker::wake);
    }
}

pub(super) struct HostState {
    pub address: IpAddr,
    pub name: String,
    pub sockets: HashMap<u16, Inbox>,
    next_port: u16,
}

impl HostState {
    pub(super) fn new(address: IpAddr) -> Self {
        Self { address, name: address.to_string(), sockets: HashMap::new(), next_port: FIRST_FREE_PORT }
    }

    /// A port without a socket, as systems give them: the next one, and after the last the first.
    pub(super) fn free_port(&mut self) -> Option<u16> {
        for _ in FIRST_FREE_PORT..=u16::MAX {
            let port = self.next_port;
            self.next_port = port.checked_add(1).unwrap_or(FIRST_FREE_PORT);
            if !self.sockets.contains_key(&port) {
                return Some(port);
            }
        }
        None
    }
}

pub(super) struct LinkState {
    pub near: usize,
    pub far: usize,
    pub pipe: u16,
    pub options: Options,
    pub words: Words,
    pub counts: Counts,
    /// The packets that came, of which a second one isn't counted.
    pub came: u64,
    /// The numbers of the cuts and holds that last.
    pub cuts: Vec<usize>,
    pub holds: Vec<usize>,
    pub held: VecDeque<Datagram>,
    pub late: HashMap<u64, u64>, // by packets, ms
}

impl LinkState {
    pub(super) fn line(&self) -> String {
        if self.cuts.is_empty() { self.options.line(self.pipe) } else { self.options.losing("1").line(self.pipe) }
    }
}
