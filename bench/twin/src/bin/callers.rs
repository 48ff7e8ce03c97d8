//! Calls by 1 to 16 threads through one mutex, with a history that is kept: `callers COUNT`, in ns a call over all callers.
use std::hint::black_box;
use std::mem::size_of;
use std::sync::Mutex;
use std::thread;
use std::time::Instant;
use twin::config::parse_line;
use twin::shaper::Shaper;
use twin::types::*;

#[allow(dead_code)]
struct Entry { caller: usize, call: Call, reply: Reply }

struct Book { shaper: Shaper, history: Vec<Entry> }

#[derive(Clone, Copy)]
enum Kind { Moves, Packets }

fn call(kind: Kind, moment: u64) -> Call {
    let tuple = FiveTuple { src: 0x0a00_0001, dst: 0x0a00_0002, proto: 17, sport: 1000, dport: 2000 };
    match kind {
        Kind::Moves => Call::Advance(moment),
        Kind::Packets => Call::Submit { target: Target::Pipe(1), packet: Packet { tuple, len: 1000, word: 0 }, moment },
    }
}

fn configured() -> Shaper {
    let mut shaper = Shaper::new();
    if let Some(command) = parse_line("pipe 1 config") {
        shaper.configure(&command);
    }
    shaper
}

fn copy(reply: &Reply) -> Reply {
    match reply {
        Reply::Queued { at, flow, packet } => Reply::Queued { at: *at, flow: *flow, packet: *packet },
        Reply::Advanced { at } => Reply::Advanced { at: *at },
        _ => Reply::Exhausted,
    }
}

fn alone(kind: Kind, count: u64) -> f64 {
    let mut shaper = configured();
    let begin = Instant::now();
    for moment in 0..count {
        black_box(shaper.apply(&call(kind, moment)));
    }
    begin.elapsed().as_nanos() as f64 / count as f64
}

fn together(kind: Kind, count: u64, callers: usize) -> f64 {
    let book = Mutex::new(Book { shaper: configured(), history: Vec::new() });
    let each = count / callers as u64;
    let begin = Instant::now();
    thread::scope(|scope| {
        for caller in 0..callers {
            let book = &book;
            scope.spawn(move || {
                for moment in 0..each {
                    let call = call(kind, moment);
                    if let Ok(mut book) = book.lock() {
                        let reply = book.shaper.apply(&call);
                        let kept = copy(&reply);
                        book.history.push(Entry { caller, call, reply: kept });
                        drop(book);
                        black_box(reply);
                    }
                }
            });
        }
    });
    begin.elapsed().as_nanos() as f64 / count as f64
}

fn main() {
    let count = std::env::args().nth(1).and_then(|word| word.parse().ok()).unwrap_or(1_600_000);
    println!("an entry of the history: {} bytes", size_of::<Entry>());
    for (kind, name) in [(Kind::Moves, "moves"), (Kind::Packets, "packets")] {
        println!("{name}, the shaper alone: {:.0} ns", alone(kind, count));
        for callers in [1, 2, 4, 8, 16] {
            println!("{name}, {callers} callers: {:.0} ns", together(kind, count, callers));
        }
    }
}
