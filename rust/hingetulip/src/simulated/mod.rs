//! Programs in simulated time: hosts whose datagrams go over emulated links, and a clock that jumps to what happens next.
//!
//! [`spawn`], [`sleep`] and the other functions are those of the net that [`Net::run`] runs on the thread, and panic outside of a run.

mod acts;
mod chosen;
mod faults;
mod net;
mod options;
mod record;
mod report;
mod run;
mod socket;
mod state;
mod time;
mod traffic;

pub use faults::{least, search, Fault, Faults, NoFault};
pub use net::{Host, Link, Net};
pub use report::Counts;
pub use run::{moment, spawn, JoinHandle};
pub use socket::UdpSocket;
pub use time::{now, sleep, sleep_until, timeout, Elapsed, Sleep};
