//! Tasks, and the clock that jumps to what happens next.
use super::net::{Host, Net};
use crate::LAST_MOMENT;
use std::cell::{Cell, RefCell};
use std::collections::{HashMap, VecDeque};
use std::future::Future;
use std::mem;
use std::pin::Pin;
use std::rc::Rc;
use std::sync::atomic::{AtomicBool, Ordering};
use std::sync::{Arc, Mutex, MutexGuard, PoisonError};
use std::task::{Context, Poll, Wake, Waker};

const MOST_STEPS: u32 = 100_000; // while the clock stays where it is
const MAIN: u64 = 0;

type Queue = Arc<Mutex<VecDeque<Arc<Woken>>>>;
type Task = Pin<Box<dyn Future<Output = ()>>>;

/// A task's waker: it puts the task behind those that run next.
struct Woken {
    task: u64,
    waits: AtomicBool, // in the queue
    queue: Queue,
}

impl Wake for Woken {
    fn wake(self: Arc<Self>) {
        if !self.waits.swap(true, Ordering::Relaxed) {
            let queue = self.queue.clone();
            queue.lock().unwrap_or_else(PoisonError::into_inner).push_back(self);
        }
    }
}

/// What runs on this thread.
pub(super) struct Run {
    pub net: Net,
    queue: Queue,
    tasks: RefCell<HashMap<u64, Task>>,
    count: Cell<u64>,
}

thread_local! {
    static RUN: RefCell<Option<Rc<Run>>> = const { RefCell::new(None) };
    static NOW: Cell<Option<u64>> = const { Cell::new(None) };
}

/// Takes the run off the thread, also where a task panics.
struct Guard;

impl Drop for Guard {
    fn drop(&mut self) {
        NOW.with(|now| now.set(None));
        drop(RUN.with(|run| run.borrow_mut().take()));
    }
}

pub(super) fn present() -> Rc<Run> {
    RUN.with(|run| run.borrow().clone()).expect("no net runs on this thread: Net::run runs one")
}

/// The net that runs on this thread.
pub(super) fn net() -> Option<Net> {
    RUN.with(|run| run.borrow().as_ref().map(|run| run.net.clone()))
}

/// The moment of the net that runs on this thread, ns; none outside of a run.
#[must_use]
pub fn moment() -> Option<u64> {
    NOW.try_with(Cell::get).ok().flatten()
}

impl Run {
    fn add(&self, future: Task) {
        self.count.set(self.count.get() + 1);
        self.tasks.borrow_mut().insert(self.count.get(), future);
        self.wake(self.count.get());
    }

    fn wake(&self, task: u64) {
        Arc::new(Woken { task, waits: AtomicBool::new(false), queue: self.queue.clone() }).wake();
    }

    fn ready(&self) -> MutexGuard<'_, VecDeque<Arc<Woken>>> {
        self.queue.lock().unwrap_or_else(PoisonError::into_inner)
    }

    /// Moves the clock to the next moment, unless tasks are ready, gives datagrams to sockets, and wakes what waits for timers. Returns
    /// whether the clock has moved.
    fn turn(&self, is_idle: bool) -> bool {
        let mut inner = self.net.inner();
        let (wake, timer) = (inner.wake(), inner.timers.keys().next().map(|it| it.0));
        let before = inner.now;
        if is_idle {
            let next = wake.into_iter().chain(timer).min().filter(|next| *next <= LAST_MOMENT);
            let stuck = || panic!("at {before} ns nothing can happen any more: no timer runs, and no packet is under way");
            inner.now = next.unwrap_or_else(stuck).max(before);
            NOW.with(|now| now.set(Some(inner.now)));
        }
        if wake.map_or(false, |wake| wake <= inner.now) {
            inner.deliver().expect("memory for what is under way");
        }
        inner.due_timers().into_iter().for_each(Waker::wake);
        inner.now > before
    }

    /// A step of all: the tasks that were ready before it run once. Those that the clock wakes run in the next step, as in asyncio.
    fn step<T>(&self, main: &mut Pin<Box<impl Future<Output = T>>>, value: &mut Option<T>) -> bool {
        let ready = mem::take(&mut *self.ready());
        let has_moved = self.turn(ready.is_empty() && value.is_none());
        for woken in ready {
            woken.waits.store(false, Ordering::Relaxed);
            let (task, waker) = (woken.task, Waker::from(woken));
            let mut context = Context::from_waker(&waker);
            let future = self.tasks.borrow_mut().remove(&task);
            if let Some(mut future) = future {
                if future.as_mut().poll(&mut context).is_pending() {
                    self.tasks.borrow_mut().insert(task, future);
                }
            } else if task == MAIN && value.is_none() {
                if let Poll::Ready(found) = main.as_mut().poll(&mut context) {
                    *value = Some(found);
                }
            }
        }
        has_moved
    }
}

impl Net {
    /// Runs a future to its end, and returns what it returns. Tasks that haven't ended then are dropped.
    ///
    /// # Panics
    /// Panics where a task does, if nothing can happen any more, if tasks run again and again while the clock stays where it is, if memory
    /// is refused, and if a net runs on this thread already.
    pub fn run<T>(&self, main: impl Future<Output = T>) -> T {
        assert!(net().is_none(), "a net runs on this thread already");
        let run = Rc::new(Run { net: self.clone(), queue: Queue::default(), tasks: RefCell::default(), count: Cell::new(MAIN) });
        RUN.with(|it| it.replace(Some(run.clone())));
        let _guard = Guard;
        NOW.with(|now| now.set(Some(self.inner().now)));
        let (mut main, mut value, mut steps) = (Box::pin(main), None, 0);
        run.wake(MAIN);
        while value.is_none() {
            steps = if run.step(&mut main, &mut value) { 0 } else { steps + 1 };
            assert!(steps < MOST_STEPS, "{MOST_STEPS} steps at one moment: a task asks again and again without a timer");
        }
        run.step(&mut main, &mut value); // as asyncio's loop makes one after it is stopped
        drop(run.tasks.take());
        value.expect("the loop ends by a value")
    }
}

/// A task that was spawned. It gives the value of the task's future, and its task goes on where it is dropped.
#[derive(Debug)]
pub struct JoinHandle<T>(Arc<Mutex<(Option<T>, Option<Waker>)>>);

impl<T> Future for JoinHandle<T> {
    type Output = T;

    fn poll(self: Pin<&mut Self>, context: &mut Context<'_>) -> Poll<T> {
        let mut state = self.0.lock().unwrap_or_else(PoisonError::into_inner);
        state.1 = Some(context.waker().clone());
        state.0.take().map_or(Poll::Pending, Poll::Ready)
    }
}

/// A task of the net that runs on this thread, on the host of the task that spawns it.
pub fn spawn<T: 'static>(future: impl Future<Output = T> + 'static) -> JoinHandle<T> {
    let state = Arc::new(Mutex::new((None, None::<Waker>)));
    let end = state.clone();
    let all = async move {
        let value = future.await;
        let mut state = end.lock().unwrap_or_else(PoisonError::into_inner);
        state.0 = Some(value);
        state.1.take().into_iter().for_each(Waker::wake);
    };
    present().add(match Host::here() {
        Some(host) => Box::pin(host.within(all)),
        None => Box::pin(all),
    });
    JoinHandle(state)
}

impl Host {
    /// A task on this host of the net that runs on this thread.
    pub fn spawn<T: 'static>(&self, future: impl Future<Output = T> + 'static) -> JoinHandle<T> {
        spawn(self.within(future))
    }
}
