//! Timers.
use super::net::Net;
use super::run::present;
use std::fmt;
use std::future::Future;
use std::pin::Pin;
use std::task::{Context, Poll};
use std::time::Duration;

/// The time since the beginning of the net that runs on this thread.
#[must_use]
pub fn now() -> Duration {
    present().net.now()
}

/// A timer, which is due at its ns.
#[derive(Debug)]
#[must_use = "a timer does nothing until it is awaited"]
pub struct Sleep {
    net: Net,
    moment: u64,
    key: Option<(u64, u64)>, // of the waker
}

impl Sleep {
    /// Sets it to another time since the beginning.
    pub fn reset(&mut self, until: Duration) {
        self.forget();
        self.moment = u64::try_from(until.as_nanos()).unwrap_or(u64::MAX);
    }

    fn forget(&mut self) {
        if let Some(key) = self.key.take() {
            self.net.inner().timers.remove(&key);
        }
    }
}

impl Future for Sleep {
    type Output = ();

    fn poll(mut self: Pin<&mut Self>, context: &mut Context<'_>) -> Poll<()> {
        self.forget();
        let mut inner = self.net.inner();
        if inner.now >= self.moment {
            return Poll::Ready(());
        }
        inner.count += 1;
        let key = (self.moment, inner.count);
        inner.timers.insert(key, context.waker().clone());
        drop(inner);
        self.key = Some(key);
        Poll::Pending
    }
}

impl Drop for Sleep {
    fn drop(&mut self) {
        self.forget();
    }
}

/// Waits until a time since the beginning of the net that runs on this thread.
pub fn sleep_until(until: Duration) -> Sleep {
    let mut made = Sleep { net: present().net.clone(), moment: 0, key: None };
    made.reset(until);
    made
}

/// Waits for so long in simulated time.
pub fn sleep(duration: Duration) -> Sleep {
    sleep_until(now().saturating_add(duration))
}

/// A future hadn't ended in its time.
#[derive(Debug, Clone, Copy, PartialEq, Eq)]
pub struct Elapsed;

impl fmt::Display for Elapsed {
    fn fmt(&self, to: &mut fmt::Formatter<'_>) -> fmt::Result {
        to.write_str("deadline has elapsed")
    }
}

impl std::error::Error for Elapsed {}

/// What a future returns, if it ends in this time.
///
/// # Errors
/// [`Elapsed`], and the future is dropped.
pub async fn timeout<F: Future>(duration: Duration, future: F) -> Result<F::Output, Elapsed> {
    let (mut future, mut timer) = (Box::pin(future), sleep(duration));
    poll_by(|context| match future.as_mut().poll(context) {
        Poll::Ready(value) => Poll::Ready(Ok(value)),
        Poll::Pending => Pin::new(&mut timer).poll(context).map(|()| Err(Elapsed)),
    })
    .await
}

/// A future by its `poll`: std's `poll_fn` is of Rust 1.64.
pub(super) struct PollBy<F>(F);

pub(super) fn poll_by<T, F: FnMut(&mut Context<'_>) -> Poll<T> + Unpin>(poll: F) -> PollBy<F> {
    PollBy(poll)
}

impl<T, F: FnMut(&mut Context<'_>) -> Poll<T> + Unpin> Future for PollBy<F> {
    type Output = T;

    fn poll(mut self: Pin<&mut Self>, context: &mut Context<'_>) -> Poll<T> {
        (self.0)(context)
    }
}
