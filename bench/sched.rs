//! The scheduler of dn_wf2q beside a twin in plain Rust, in one process, in turn: nanoseconds of the thread's own time
//! for a pick and an arrival at the picked flow. Both pick in the same order, which is compared.
//! `bench/sched.sh` builds and runs it.
use std::cmp::Reverse;
use std::collections::{BinaryHeap, VecDeque};

struct Packet {
    start: u128,
    finish: u128,
    len: u16,
    weight: u8,
}

#[derive(Default)]
struct Flow {
    packets: VecDeque<Packet>,
    last: u128,
}

/// WF2Q+ as one writes it in plain Rust: u128 tags, two heaps of (tag, slot), a running sum of weights.
#[derive(Default)]
struct Twin {
    flows: Vec<Flow>,
    eligible: BinaryHeap<Reverse<(u128, usize)>>,
    waiting: BinaryHeap<Reverse<(u128, usize)>>,
    virtual_time: u128,
    weights: u64,
}

impl Twin {
    fn enter(&mut self, slot: usize, start: u128, finish: u128) {
        if start <= self.virtual_time {
            self.eligible.push(Reverse((finish, slot)));
        } else {
            self.waiting.push(Reverse((start, slot)));
        }
    }

    fn arrive(&mut self, slot: usize, len: u16, weight: u8) {
        if self.flows.len() <= slot {
            self.flows.resize_with(slot + 1, Flow::default);
        }
        let flow = &mut self.flows[slot];
        let is_head = flow.packets.is_empty();
        let start = if is_head { flow.last.max(self.virtual_time) } else { flow.last };
        let finish = start + (len as u64 * 65536 / weight as u64) as u128;
        flow.packets.push_back(Packet { start, finish, len, weight });
        flow.last = finish;
        if is_head {
            self.weights += weight as u64;
            self.enter(slot, start, finish);
        }
    }

    fn pick(&mut self) -> Option<usize> {
        if self.eligible.is_empty() {
            let Reverse((start, _)) = self.waiting.peek()?;
            self.virtual_time = self.virtual_time.max(*start);
        }
        while let Some(&Reverse((start, slot))) = self.waiting.peek() {
            if start > self.virtual_time {
                break;
            }
            self.waiting.pop();
            self.eligible.push(Reverse((self.flows[slot].packets[0].finish, slot)));
        }
        let Reverse((_, slot)) = self.eligible.pop()?;
        let sent = self.flows[slot].packets.pop_front()?;
        self.virtual_time += (sent.len as u64 * 65536 / self.weights) as u128;
        self.weights -= sent.weight as u64;
        if let Some(head) = self.flows[slot].packets.front() {
            let (start, finish) = (head.start, head.finish);
            self.weights += head.weight as u64;
            self.enter(slot, start, finish);
        }
        Some(slot)
    }
}

fn next(seed: u64) -> u64 {
    seed.wrapping_mul(6364136223846793005).wrapping_add(1442695040888963407)
}

fn add(twin: &mut Twin, slot: usize, seed: u64) {
    twin.arrive(slot, (seed >> 40 & 1023) as u16 + 64, (slot % 64) as u8 + 1);
}

fn twin(flows: usize, depth: u64, steps: u64) -> (u64, u64) {
    let (mut twin, mut seed, mut order) = (Twin::default(), 1, 0u64);
    for _ in 0..depth {
        for slot in 0..flows {
            seed = next(seed);
            add(&mut twin, slot, seed);
        }
    }
    for _ in 0..steps {
        if let Some(slot) = twin.pick() {
            seed = next(seed);
            order = order.wrapping_mul(31).wrapping_add(slot as u64).wrapping_add(1);
            add(&mut twin, slot, seed);
        }
    }
    (order, twin.virtual_time as u64)
}

unsafe extern "C" {
    fn bench_sched(
        flows: usize,
        depth: u64,
        steps: u64,
        order: *mut u64,
        virtual_time: *mut u64,
        refused: *mut u64,
    ) -> bool;
}

fn ours(flows: usize, depth: u64, steps: u64) -> (u64, u64) {
    let (mut order, mut virtual_time, mut refused) = (0, 0, 0);
    assert!(unsafe { bench_sched(flows, depth, steps, &mut order, &mut virtual_time, &mut refused) });
    (order, virtual_time)
}

#[repr(C)]
struct Timespec {
    seconds: i64,
    nanoseconds: i64,
}

unsafe extern "C" {
    fn clock_gettime(clock: i32, time: *mut Timespec) -> i32;
}

/// The time that this thread has had of a processor, on Linux.
fn cpu() -> f64 {
    let mut time = Timespec { seconds: 0, nanoseconds: 0 };
    assert_eq!(unsafe { clock_gettime(3, &mut time) }, 0);
    time.seconds as f64 * 1e9 + time.nanoseconds as f64
}

fn timed(run: fn(usize, u64, u64) -> (u64, u64), flows: usize, steps: u64) -> (f64, (u64, u64)) {
    let before = cpu();
    let answer = run(flows, 2, steps);
    (cpu() - before, answer)
}

fn main() {
    let rounds: usize = std::env::args().nth(1).and_then(|word| word.parse().ok()).unwrap_or(10);
    println!("backlogged flows   plain Rust   dn_wf2q   ratio");
    for flows in [1, 16, 100, 1_000, 10_000] {
        let steps = 200_000;
        let mut least = [[f64::MAX; 2]; 2];
        for _ in 0..rounds {
            for (side, run) in [twin as fn(usize, u64, u64) -> (u64, u64), ours].into_iter().enumerate() {
                for (long, steps) in [0, steps].into_iter().enumerate() {
                    least[side][long] = least[side][long].min(timed(run, flows, steps).0);
                }
            }
        }
        assert_eq!(timed(twin, flows, steps).1, timed(ours, flows, steps).1);
        let [a, b] = least.map(|[fill, all]| (all - fill) / steps as f64);
        println!("{flows:16}   {a:7.1} ns  {b:7.1} ns   {:.2}", b / a);
    }
}
