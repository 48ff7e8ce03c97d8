//! Datagram sockets.
use super::net::Host;
use super::run::net;
use super::time::poll_by;
use super::state::{Datagram, Inbox};
use std::io::{self, ErrorKind};
use std::net::{SocketAddr, ToSocketAddrs};
use std::task::{Context, Poll};

/// A datagram socket of a host, with the calls and errors of tokio's. It never waits to send. A datagram to a closed port comes back over
/// the links, and a connected socket's next call that receives is refused.
#[derive(Debug)]
pub struct UdpSocket {
    host: Host,
    port: u16,
}

/// The first of some addresses.
fn first(addresses: impl ToSocketAddrs) -> io::Result<SocketAddr> {
    addresses.to_socket_addrs()?.next().ok_or_else(|| ErrorKind::InvalidInput.into())
}

impl UdpSocket {
    pub(super) fn at(host: Host, port: u16) -> io::Result<Self> {
        let mut inner = host.net.inner();
        let state = &mut inner.hosts[host.number];
        let port = if port == 0 { state.free_port().ok_or(ErrorKind::AddrInUse)? } else { port };
        if state.sockets.contains_key(&port) {
            return Err(ErrorKind::AddrInUse.into());
        }
        state.sockets.insert(port, Inbox::default());
        drop(inner);
        Ok(Self { host, port })
    }

    /// A socket at a port, or at a free one (0): of the present task's host at 0.0.0.0 or `::`, else of the host with the address. It isn't
    /// available to tasks of other hosts.
    pub async fn bind(address: impl ToSocketAddrs) -> io::Result<Self> {
        let (address, here) = (first(address)?, Host::here());
        let net = here.as_ref().map(|host| host.net.clone()).or_else(net).ok_or(ErrorKind::NotConnected)?;
        let named = net.inner().host_at(address.ip()).map(|number| Host { net: net.clone(), number });
        match (named, here) {
            (None, Some(here)) if address.ip().is_unspecified() && address.is_ipv4() == here.ip().is_ipv4() => Self::at(here, address.port()),
            (Some(named), here) if here.as_ref().map_or(true, |here| here.number == named.number) => Self::at(named, address.port()),
            _ => Err(ErrorKind::AddrNotAvailable.into()),
        }
    }

    /// Calls with what has come to the socket.
    fn with<T>(&self, call: impl FnOnce(&mut Inbox) -> T) -> T {
        call(self.host.net.inner().hosts[self.host.number].sockets.get_mut(&self.port).expect("an open socket has its port"))
    }

    /// Takes datagrams of one address alone from now on, to which [`send`](Self::send) sends.
    pub async fn connect(&self, address: impl ToSocketAddrs) -> io::Result<()> {
        let remote = first(address)?;
        self.with(|inbox| inbox.remote = Some(remote));
        Ok(())
    }

    /// Its own address.
    pub fn local_addr(&self) -> io::Result<SocketAddr> {
        Ok(SocketAddr::new(self.host.ip(), self.port))
    }

    /// The address to which it is connected.
    pub fn peer_addr(&self) -> io::Result<SocketAddr> {
        self.with(|inbox| inbox.remote).ok_or_else(|| ErrorKind::NotConnected.into())
    }

    /// Sends a datagram of at most 65,507 bytes, and returns how many it has.
    pub fn try_send_to(&self, data: &[u8], target: SocketAddr) -> io::Result<usize> {
        let it = Datagram { source: self.local_addr()?, target, data: data.to_vec(), is_refusal: false };
        self.host.net.inner().send(self.host.number, it)?;
        Ok(data.len())
    }

    /// The same, to an address in any form.
    pub async fn send_to(&self, data: &[u8], target: impl ToSocketAddrs) -> io::Result<usize> {
        self.try_send_to(data, first(target)?)
    }

    /// The same, to the address to which it is connected.
    pub async fn send(&self, data: &[u8]) -> io::Result<usize> {
        self.try_send_to(data, self.peer_addr()?)
    }

    /// A datagram that has come: how many of its bytes had room in the buffer, and where it comes from. `WouldBlock`: none has come.
    pub fn try_recv_from(&self, buffer: &mut [u8]) -> io::Result<(usize, SocketAddr)> {
        let (data, source) = self.with(|inbox| inbox.came.pop_front()).unwrap_or_else(|| Err(ErrorKind::WouldBlock.into()))?;
        let count = data.len().min(buffer.len());
        buffer[..count].copy_from_slice(&data[..count]);
        Ok((count, source))
    }

    /// The same. Where none has come, the task is woken by the next one.
    pub fn poll_recv_from(&self, context: &mut Context<'_>, buffer: &mut [u8]) -> Poll<io::Result<(usize, SocketAddr)>> {
        match self.try_recv_from(buffer) {
            Err(error) if error.kind() == ErrorKind::WouldBlock => {
                self.with(|inbox| {
                    inbox.wakers.retain(|it| !it.will_wake(context.waker()));
                    inbox.wakers.push(context.waker().clone());
                });
                Poll::Pending
            }
            other => Poll::Ready(other),
        }
    }

    /// The same, and waits for one.
    pub async fn recv_from(&self, buffer: &mut [u8]) -> io::Result<(usize, SocketAddr)> {
        poll_by(|context| self.poll_recv_from(context, buffer)).await
    }

    /// The same, and returns the count alone.
    pub async fn recv(&self, buffer: &mut [u8]) -> io::Result<usize> {
        Ok(self.recv_from(buffer).await?.0)
    }
}

impl Drop for UdpSocket {
    fn drop(&mut self) {
        self.host.net.inner().hosts[self.host.number].sockets.remove(&self.port);
    }
}
