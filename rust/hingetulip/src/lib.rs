#![doc = include_str!("../README.md")]
#![deny(missing_docs, unsafe_op_in_unsafe_fn)]

/// Shows no more than the name of a type whose content is the library's.
macro_rules! opaque {
    ($name:ident) => {
        impl std::fmt::Debug for $name {
            fn fmt(&self, to: &mut std::fmt::Formatter<'_>) -> std::fmt::Result {
                to.debug_struct(stringify!($name)).finish_non_exhaustive()
            }
        }
    };
}

mod audit;
mod caller;
mod delivery;
mod entry;
mod error;
mod fate;
mod flow;
mod history;
mod packet;
mod raw;
mod raw_service;
mod service;
mod shaper;
pub mod simulated;
mod words;

pub use audit::{Audit, Verdict, HISTORY_LIMIT};
pub use caller::Caller;
pub use delivery::{Deliveries, Delivery};
pub use entry::{Call, Entry, Reply};
pub use error::{Error, FaultKind, Refused};
pub use fate::{Fate, Outcome};
pub use flow::Flow;
pub use history::History;
pub use packet::{Packet, Target};
pub use service::{Service, MOST_CALLERS};
pub use shaper::{Rule, Shaper};
pub use words::Words;

/// The last moment of a call: 2^62 ns.
pub const LAST_MOMENT: u64 = 1 << 62;

/// What a call returns: its value, or why it wasn't obeyed.
pub type Result<T> = std::result::Result<T, Error>;

/// The version of the library that is linked, as `1.7.0`.
///
/// ```
/// assert_eq!(hingetulip::version().split('.').count(), 3);
/// ```
#[must_use]
pub fn version() -> String {
    // SAFETY: the call takes nothing and returns a number.
    let version = unsafe { raw::dn_version() };
    format!("{}.{}.{}", version / 1_000_000, version / 1_000 % 1_000, version % 1_000)
}
