//! The clock that std asks.
use hingetulip::simulated::moment;
use std::cell::Cell;
use std::os::raw::{c_int, c_long};
use std::time::Instant;

const CLOCK_MONOTONIC: c_int = 1;
const SYS_CLOCK_GETTIME: c_long = 228; // of x86-64 Linux
const BEGINNING: u64 = 1 << 30; // s: programs take times off the present one
const NS: u64 = 1_000_000_000;

thread_local! {
    static SHOWN: Cell<Option<Shown>> = const { Cell::new(None) };
}

/// What std's clock shows where tokio's is paused: where that began, and the ns of then and of now.
#[derive(Clone, Copy)]
struct Shown {
    begin: tokio::time::Instant,
    zero: u64,
    now: u64,
}

/// Std's clock of this thread is tokio's while this lives.
pub(crate) struct Following;

impl Following {
    pub(crate) fn new(begin: tokio::time::Instant) -> Self {
        let zero = BEGINNING * NS;
        SHOWN.with(|it| it.set(Some(Shown { begin, zero, now: zero })));
        let (known, begin_of_std) = (Instant::now(), begin.into_std()); // std shows no ns, so an instant whose ns are known measures the other
        let (ahead, behind) = (begin_of_std.saturating_duration_since(known), known.saturating_duration_since(begin_of_std));
        let zero = zero + ahead.as_nanos() as u64 - behind.as_nanos() as u64;
        SHOWN.with(|it| it.set(Some(Shown { begin, zero, now: zero })));
        Self
    }
}

impl Drop for Following {
    fn drop(&mut self) {
        SHOWN.with(|it| it.set(None));
    }
}

/// Tokio's clock may have moved.
pub(crate) fn refresh() {
    if let Some(Shown { begin, zero, .. }) = SHOWN.with(Cell::get) {
        SHOWN.with(|it| it.set(Some(Shown { begin, zero, now: zero + begin.elapsed().as_nanos() as u64 })));
    }
}

/// The `timespec` of x86-64 Linux.
#[repr(C)]
pub struct Timespec {
    seconds: i64,
    ns: i64,
}

extern "C" {
    fn syscall(number: c_long, ...) -> c_long;
}

/// In the place of the C library's, which std calls: the simulated time on a thread on which a net or [`run`](crate::run) runs, else what the system says.
///
/// # Safety
/// As of the C library's: `time` can be written.
#[no_mangle]
pub unsafe extern "C" fn clock_gettime(clock: c_int, time: *mut Timespec) -> c_int {
    let shown = || SHOWN.try_with(Cell::get).ok().flatten().map(|it| it.now);
    match moment().map(|it| BEGINNING * NS + it).or_else(shown) {
        Some(shown) if clock == CLOCK_MONOTONIC => {
            // SAFETY: the caller gives a place for the time.
            unsafe { *time = Timespec { seconds: (shown / NS) as i64, ns: (shown % NS) as i64 } };
            0
        }
        // SAFETY: the system's call has these arguments.
        _ => unsafe { syscall(SYS_CLOCK_GETTIME, c_long::from(clock), time) as c_int },
    }
}
