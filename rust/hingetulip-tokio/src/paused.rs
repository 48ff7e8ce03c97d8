//! A net under tokio's paused clock.
use crate::clock::{refresh, Following};
use hingetulip::simulated::Net;
use std::future::Future;
use std::mem;
use std::pin::Pin;
use std::sync::{Arc, Mutex, PoisonError};
use std::task::{Context, Poll, Waker};
use tokio::runtime::Builder;
use tokio::task::LocalSet;
use tokio::time::{advance, sleep_until, Duration, Instant, Sleep};

const MS: u32 = 1_000_000; // in ns

/// Whether the runtime has nothing to do, and who waits for that.
#[derive(Default)]
struct Idle {
    is_now: bool,
    waker: Option<Waker>,
}

type SharedIdle = Arc<Mutex<Idle>>;

/// Tokio moves its clock by whole ms, from one timer to the next. Within a ms this task moves it, once all others wait.
struct Driver {
    net: Net,
    begin: (Instant, Duration), // by tokio's clock and by the net's
    idle: SharedIdle,
    timer: Pin<Box<Sleep>>,
}

impl Driver {
    /// Whether all other tasks wait. If not, the task is woken when they do.
    fn is_idle(&self, context: &Context<'_>) -> bool {
        let mut idle = self.idle.lock().unwrap_or_else(PoisonError::into_inner);
        idle.waker = Some(context.waker().clone());
        mem::take(&mut idle.is_now)
    }
}

/// The part of a time behind its last whole ms.
fn within_ms(time: Duration) -> Duration {
    Duration::from_nanos((time.subsec_nanos() % MS).into())
}

impl Future for Driver {
    type Output = ();

    fn poll(mut self: Pin<&mut Self>, context: &mut Context<'_>) -> Poll<()> {
        let begin = self.begin;
        loop {
            let next = self.net.poll_next(context).map(|it| it - begin.1);
            let now = self.net.now() - begin.1;
            if next.map_or(false, |next| next <= now) {
                self.net.deliver().expect("memory for what is under way");
                continue;
            }
            let tick = now - within_ms(now);
            let last_tick = next.map(|next| next - within_ms(next));
            if now == tick && last_tick != Some(tick) {
                let sets_timer = last_tick.map(|last_tick| self.timer.as_mut().reset(begin.0 + last_tick)).is_some();
                if !sets_timer || self.timer.as_mut().poll(context).is_pending() {
                    return Poll::Pending;
                }
            } else if self.is_idle(context) {
                let next_tick = tick + Duration::from_millis(1);
                let to = next.map_or(next_tick, |next| next.min(next_tick));
                let _ = Box::pin(advance(to - now)).as_mut().poll(context); // it moves the clock when it is polled first
                refresh();
            } else {
                return Poll::Pending;
            }
        }
    }
}

/// Runs a future to its end in a runtime of one thread on tokio's paused clock, with the net's links, and returns what it returns.
///
/// `spawn`, `spawn_local` and `tokio::time` are tokio's, and so is `std::time::Instant` meanwhile on this thread. As with tokio's clock alone, a program in which nothing can happen any more waits
/// for ever.
///
/// # Panics
/// Panics within a runtime, if the system refuses one, and if memory is refused.
pub fn run<T>(net: &Net, main: impl Future<Output = T>) -> T {
    let idle = SharedIdle::default();
    let parked = idle.clone();
    let on_park = move || {
        let mut idle = parked.lock().unwrap_or_else(PoisonError::into_inner);
        let waker = idle.waker.take();
        idle.is_now = waker.is_some();
        drop(idle);
        waker.into_iter().for_each(Waker::wake);
    };
    let mut builder = Builder::new_current_thread();
    let runtime = builder.enable_time().start_paused(true).on_thread_park(on_park).on_thread_unpark(refresh).build().expect("a runtime");
    let value = LocalSet::new().block_on(&runtime, async {
        let begin = (Instant::now(), net.now());
        let _following = Following::new(begin.0);
        net.follow(move || {
            refresh();
            begin.1 + begin.0.elapsed()
        });
        tokio::spawn(Driver { net: net.clone(), begin, idle, timer: Box::pin(sleep_until(begin.0)) });
        let value = main.await;
        let end = net.now();
        net.follow(move || end);
        value
    });
    drop(runtime);
    value
}
