//! Endpoints of quinn.
use hingetulip::simulated::{moment, sleep_until, spawn, Sleep, UdpSocket};
use quinn::{AsyncTimer, AsyncUdpSocket, Endpoint, EndpointConfig, ServerConfig, Transmit};
use quinn_udp::{RecvMeta, UdpState};
use std::future::Future;
use std::io::{self, ErrorKind, IoSliceMut};
use std::net::SocketAddr;
use std::pin::Pin;
use std::task::{Context, Poll};
use std::time::{Duration, Instant};

/// An endpoint of quinn over a simulated socket, in a net that [`Net::run`](hingetulip::simulated::Net::run) runs.
///
/// # Errors
/// None but quinn's.
pub fn endpoint(socket: UdpSocket, server: Option<ServerConfig>) -> io::Result<Endpoint> {
    Endpoint::new_with_abstract_socket(EndpointConfig::default(), server, Socket(socket), Runtime)
}

/// Tasks and timers of the net that runs on this thread.
#[derive(Debug, Clone, Copy)]
pub struct Runtime;

/// A simulated socket.
#[derive(Debug)]
pub struct Socket(pub UdpSocket);

/// A moment of std's clock as a time since the beginning of the net.
fn since_the_beginning(moment_of_std: Instant) -> Duration {
    let now = Duration::from_nanos(moment().expect("a net runs on this thread"));
    (now + moment_of_std.saturating_duration_since(Instant::now())).saturating_sub(Instant::now().saturating_duration_since(moment_of_std))
}

#[derive(Debug)]
struct Timer(Sleep);

impl AsyncTimer for Timer {
    fn reset(mut self: Pin<&mut Self>, moment: Instant) {
        self.0.reset(since_the_beginning(moment));
    }

    fn poll(mut self: Pin<&mut Self>, context: &mut Context<'_>) -> Poll<()> {
        Pin::new(&mut self.0).poll(context)
    }
}

impl quinn::Runtime for Runtime {
    fn new_timer(&self, moment: Instant) -> Pin<Box<dyn AsyncTimer>> {
        Box::pin(Timer(sleep_until(since_the_beginning(moment))))
    }

    fn spawn(&self, future: Pin<Box<dyn Future<Output = ()> + Send>>) {
        drop(spawn(future));
    }

    fn wrap_udp_socket(&self, _: std::net::UdpSocket) -> io::Result<Box<dyn AsyncUdpSocket>> {
        Err(io::Error::new(ErrorKind::Unsupported, "a socket of the system has no simulated host: hingetulip_tokio::endpoint takes one"))
    }
}

impl AsyncUdpSocket for Socket {
    fn poll_send(&mut self, _: &UdpState, _: &mut Context<'_>, list: &[Transmit]) -> Poll<io::Result<usize>> {
        for it in list {
            for part in it.contents.chunks(it.segment_size.unwrap_or(it.contents.len()).max(1)) {
                let _ = self.0.try_send_to(part, it.destination); // what has no way is lost, as on quinn's own sockets
            }
        }
        Poll::Ready(Ok(list.len()))
    }

    fn poll_recv(&self, context: &mut Context<'_>, bufs: &mut [IoSliceMut<'_>], meta: &mut [RecvMeta]) -> Poll<io::Result<usize>> {
        self.0.poll_recv_from(context, &mut bufs[0]).map_ok(|(len, addr)| {
            meta[0] = RecvMeta { addr, len, stride: len, ecn: None, dst_ip: None };
            1
        })
    }

    fn local_addr(&self) -> io::Result<SocketAddr> {
        self.0.local_addr()
    }
}
