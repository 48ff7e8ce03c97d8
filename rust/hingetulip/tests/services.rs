//! A service, its callers in threads, and its history.
use hingetulip::{Caller, Error, History, Outcome, Packet, Service, Shaper, Target, LAST_MOMENT, MOST_CALLERS};
use std::io::{self, Write};
use std::net::Ipv4Addr;
use std::sync::{mpsc, Mutex};
use std::thread;

/// The file of docs/FILES.md.
const OF_THE_PAGE: &str = "dummynet-history,3
c,0,configure,pipe 1 config bw 8000000bit/s
r,configured
c,0,submit,pipe,1,10.0.0.1,10.0.0.2,17,1000,2000,1000,0,0
r,queued,0,0,0
c,0,collect,1000000
r,delivered,1000000,1
d,0,0,0,1000000
c,0,show
r,status,1
f,0,pipe,1,1,0.0.0.0,0.0.0.0,0,0,0,0.0.0.0,0.0.0.0,0,0,0,0,0,0,0,1,0
end,4
";

fn thousand(moment: u64) -> Packet {
    Packet::new(moment, Target::Pipe(1), 1000)
}

fn calls_of_the_page(caller: &mut Caller) {
    let [src, dst] = [1, 2].map(|last| Ipv4Addr::new(10, 0, 0, last));
    caller.configure("pipe 1 config bw 8Mbit/s").unwrap();
    caller.submit(&Packet { src, dst, proto: 17, sport: 1000, dport: 2000, word: 0, ..thousand(0) }).unwrap();
    assert_eq!(caller.wake(), Ok(Some(1_000_000)));
    assert_eq!(caller.collect(1_000_000).unwrap()[0].due, 1_000_000);
    assert_eq!(caller.flows().unwrap()[0].started, 1);
    assert_eq!(caller.wake(), Ok(None));
}

/// A writer that takes few bytes, and is full now and then.
#[derive(Debug, Default)]
struct Reluctant(Vec<u8>, usize);

impl Write for Reluctant {
    fn write(&mut self, text: &[u8]) -> io::Result<usize> {
        self.1 += 1;
        match self.1 % 5 {
            0 => Err(io::Error::new(io::ErrorKind::Other, "full")),
            1 => Err(io::ErrorKind::Interrupted.into()),
            _ => self.0.write(&text[..text.len().min(7)]),
        }
    }

    fn flush(&mut self) -> io::Result<()> {
        Ok(())
    }
}

#[test]
fn a_history_is_the_one_of_the_page() {
    let (service, mut callers) = Service::open(1).unwrap();
    let mut history = service.history(Vec::new()).unwrap();
    calls_of_the_page(&mut callers[0]);
    assert_eq!((history.take().unwrap(), history.take().unwrap()), (4, 4));
    assert_eq!((history.end().unwrap(), history.end().unwrap()), (4, 4));
    assert_eq!(String::from_utf8(history.into_inner()).unwrap(), OF_THE_PAGE);
}

#[test]
fn what_a_writer_refuses_is_written_later() {
    let (service, mut callers) = Service::open(2).unwrap();
    let mut history = service.history(Reluctant::default()).unwrap();
    calls_of_the_page(&mut callers[0]);
    let tries = (0..100).take_while(|_| history.end().is_err()).count();
    assert!((5..100).contains(&tries), "{tries}");
    assert_eq!(String::from_utf8(history.into_inner().0).unwrap(), OF_THE_PAGE);
}

#[test]
fn fifteen_threads_share_a_link() {
    let (service, mut callers) = Service::open(MOST_CALLERS).unwrap();
    callers[3].configure("pipe 1 config delay 20ms").unwrap();
    let mut history = service.history(Vec::new()).unwrap();
    let threads: Vec<_> = callers.into_iter().map(|mut caller| {
        thread::spawn(move || {
            let queued = (0..200).filter(|at| matches!(caller.submit(&thousand(at * 1000)).unwrap().outcome, Outcome::Queued(_))).count();
            (queued, caller)
        })
    }).collect();
    history.take().unwrap();
    let mut back: Vec<_> = threads.into_iter().map(|it| it.join().unwrap()).collect();
    assert_eq!(back.iter().map(|it| it.0).sum::<usize>(), 3000);
    assert_eq!(back[7].1.collect(LAST_MOMENT).unwrap().len(), 3000);
    assert_eq!(history.end().unwrap(), 3002);
    let text = String::from_utf8(history.into_inner()).unwrap();
    let calls = |number: usize| text.lines().filter(|line| line.starts_with(&format!("c,{number},submit,"))).count();
    assert_eq!((0..MOST_CALLERS).map(calls).collect::<Vec<_>>(), [200; MOST_CALLERS]);
    assert!(text.ends_with("\nend,3002\n"));
}

#[test]
fn handles_pass_to_other_threads() {
    fn passes<T: Send>() {}
    passes::<(Shaper, Service, Caller, History<Vec<u8>>, Mutex<Shaper>)>();
    let (there, here) = mpsc::channel();
    let mut shaper = Shaper::new().unwrap();
    shaper.configure("pipe 1 config bw 8Mbit/s").unwrap();
    thread::spawn(move || {
        shaper.submit(&thousand(0)).unwrap();
        there.send(shaper).unwrap();
    });
    let mut shaper = here.recv().unwrap();
    assert_eq!(thread::spawn(move || shaper.collect(LAST_MOMENT).unwrap().len()).join().unwrap(), 1);
}

#[test]
fn errors_and_ends_in_any_order() {
    for count in [0, MOST_CALLERS + 1, usize::MAX] {
        assert_eq!(Service::open(count).unwrap_err(), Error::Count);
    }
    let (mut service, mut callers) = Service::open(2).unwrap();
    let mut last = callers.pop().unwrap();
    assert_eq!(last.number(), 1);
    assert!(matches!(last.configure("pipe 1 foo"), Err(Error::Line(..))));
    assert_eq!(last.configure("queue 1 delete"), Err(Error::NoSuchQueue));
    assert_eq!(last.submit(&thousand(LAST_MOMENT + 1)), Err(Error::Moment));
    drop(callers);
    assert_eq!((service.discard(), service.discard()), (Ok(1), Ok(0)));
    drop(service);
    assert_eq!(last.advance(5), Ok(5));
}
