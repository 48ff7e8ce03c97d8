//! Ten small protocols in which a bug is planted: seeds find each, and it is shrunk to the fewest faults. Without the bug no seed fails.
use hingetulip::simulated::{least, now, search, sleep, timeout, Faults, Host, Net, UdpSocket};
use std::cell::RefCell;
use std::collections::{BTreeMap, HashMap};
use std::future::Future;
use std::net::SocketAddr;
use std::pin::Pin;
use std::rc::Rc;
use std::time::Duration;

type Run = Pin<Box<dyn Future<Output = bool>>>;

struct Ends {
    client: Host,
    server: Host,
    socket: UdpSocket,
}

impl Ends {
    async fn send(&self, data: &[u8]) {
        self.socket.send_to(data, "10.0.0.2:7").await.unwrap();
    }

    /// The next datagram that is wanted within some ms.
    async fn wanted(&self, within: u64, is_wanted: impl Fn(&[u8]) -> bool) -> Option<Vec<u8>> {
        wanted(&self.socket, within, is_wanted).await
    }

    fn serve(&self, mut reply: impl FnMut(&[u8], SocketAddr) -> Vec<Vec<u8>> + 'static) {
        let socket = self.server.bind(7).unwrap();
        self.server.spawn(async move {
            let mut data = [0; 99];
            loop {
                let (count, source) = socket.recv_from(&mut data).await.unwrap();
                for one in reply(&data[..count], source) {
                    socket.send_to(&one, source).await.unwrap();
                }
            }
        });
    }

    fn echo(&self) {
        self.serve(|data, _| vec![data.to_vec()]);
    }
}

async fn wanted(socket: &UdpSocket, within: u64, is_wanted: impl Fn(&[u8]) -> bool) -> Option<Vec<u8>> {
    let all = async {
        loop {
            let mut data = [0; 99];
            let count = socket.recv(&mut data).await.unwrap();
            if is_wanted(&data[..count]) {
                return data[..count].to_vec();
            }
        }
    };
    timeout(Duration::from_millis(within), all).await.ok()
}

fn ms(count: u64) -> Duration {
    Duration::from_millis(count)
}

/// A packet isn't repeated again behind its second loss.
fn retransmission(ends: Ends, bug: bool) -> Run {
    Box::pin(async move {
        ends.echo();
        for number in 0..20 {
            let mut tries = 0;
            while tries == 0 || ends.wanted(300, |data| data == [number]).await.is_none() {
                if bug && tries == 2 {
                    return true;
                }
                ends.send(&[number]).await;
                tries += 1;
            }
        }
        false
    })
}

/// The table of known requests forgets one after half a second, and a later repetition executes again.
fn dedupe(ends: Ends, bug: bool) -> Run {
    Box::pin(async move {
        let (mut known, executed) = (HashMap::new(), Rc::new(RefCell::new(Vec::new())));
        let done = executed.clone();
        ends.serve(move |data, _| {
            known.retain(|_, since| !bug || *since + ms(500) >= now());
            known.entry(data[0]).or_insert_with(|| {
                done.borrow_mut().push(data[0]);
                now()
            });
            vec![data.to_vec()]
        });
        for number in 0..20 {
            let mut wait = 200;
            ends.send(&[number]).await;
            while ends.wanted(wait, |data| data == [number]).await.is_none() {
                wait *= 2;
                ends.send(&[number]).await;
            }
        }
        let is_double = executed.borrow().len() > 20;
        is_double
    })
}

/// A buffer delivers what is behind a gap if more than three wait.
fn ordering(ends: Ends, bug: bool) -> Run {
    Box::pin(async move {
        let (mut next, mut held, got) = (0, BTreeMap::new(), Rc::new(RefCell::new(Vec::new())));
        let all = got.clone();
        ends.serve(move |data, _| {
            held.insert(data[0], ());
            if bug && held.len() > 3 && !held.contains_key(&next) {
                next = *held.keys().next().unwrap();
            }
            while held.remove(&next).is_some() {
                all.borrow_mut().push(next);
                next += 1;
            }
            vec![vec![next]]
        });
        for number in 0..40 {
            ends.send(&[number]).await;
            sleep(ms(20)).await;
        }
        let mut has = 0;
        while has < 40 && now() < ms(60_000) {
            match ends.wanted(200, |_| true).await {
                Some(data) => has = has.max(data[0]),
                None => ends.send(&[has]).await,
            }
        }
        let is_wrong = *got.borrow() != (0..40).collect::<Vec<u8>>();
        is_wrong
    })
}

/// A reply that comes behind its timeout is taken for the next question's.
fn timeouts(ends: Ends, bug: bool) -> Run {
    Box::pin(async move {
        ends.echo();
        for number in 0..30 {
            loop {
                ends.send(&[number]).await;
                match ends.wanted(150, |data| bug || data == [number]).await {
                    Some(data) if data != [number] => return true,
                    Some(_) => break,
                    None => {}
                }
            }
            sleep(ms(50)).await;
        }
        false
    })
}

/// A success doesn't reset the backoff.
fn backoff(ends: Ends, bug: bool) -> Run {
    Box::pin(async move {
        ends.echo();
        let mut wait = 200;
        for number in 0..60 {
            let begin = now();
            wait = if bug { wait } else { 200 };
            ends.send(&[number]).await;
            while ends.wanted(wait, |data| data == [number]).await.is_none() {
                wait = 60_000.min(2 * wait);
                ends.send(&[number]).await;
            }
            if now() - begin > ms(30_000) {
                return true;
            }
            sleep(ms(100)).await;
        }
        false
    })
}

/// A connection stays open whose end was lost, since nothing else ends it.
fn half_open(ends: Ends, bug: bool) -> Run {
    Box::pin(async move {
        let open: Rc<RefCell<HashMap<SocketAddr, Duration>>> = Rc::default();
        let known = open.clone();
        ends.serve(move |data, source| {
            if data == [1] { known.borrow_mut().insert(source, now()); } else { known.borrow_mut().remove(&source); }
            vec![data.to_vec()]
        });
        for _ in 0..10 {
            let socket = ends.client.bind(0).unwrap();
            socket.connect("10.0.0.2:7").await.unwrap();
            for word in [1, 1, 1, 1, 1, 2] {
                socket.send(&[word]).await.unwrap();
                if wanted(&socket, 300, |data| data == [word]).await.is_some() && word == 1 {
                    break;
                }
            }
            socket.send(&[2]).await.unwrap();
            wanted(&socket, 300, |data| data == [2]).await;
        }
        sleep(ms(60_000)).await;
        open.borrow_mut().retain(|_, since| bug || *since + ms(20_000) > now());
        let is_open = !open.borrow().is_empty();
        is_open
    })
}

/// A packet is repeated once and then forgotten, so that its place in the window is never free again.
fn window(ends: Ends, bug: bool) -> Run {
    Box::pin(async move {
        ends.echo();
        let (mut credits, mut next, mut flying, mut has) = (4, 0, BTreeMap::new(), BTreeMap::new());
        while has.len() < 60 && now() < ms(60_000) {
            while credits > 0 && next < 60 {
                ends.send(&[next]).await;
                flying.insert(next, now());
                next += 1;
                credits -= 1;
            }
            if let Some(data) = ends.wanted(100, |_| true).await {
                credits += u32::from(has.insert(data[0], ()).is_none());
                flying.remove(&data[0]);
                continue;
            }
            let late: Vec<u8> = flying.iter().filter(|it| *it.1 + ms(300) < now()).map(|it| *it.0).collect();
            for number in late {
                ends.send(&[number]).await;
                if bug { flying.remove(&number); } else { flying.insert(number, now()); }
            }
        }
        has.len() < 60
    })
}

/// One lost heartbeat makes a live peer dead.
fn heartbeat(ends: Ends, bug: bool) -> Run {
    Box::pin(async move {
        let last = Rc::new(RefCell::new(ms(0)));
        let seen = last.clone();
        ends.serve(move |_, _| { *seen.borrow_mut() = now(); Vec::new() });
        let mut is_dead = false;
        for _ in 0..100 {
            ends.send(&[0]).await;
            for _ in 0..4 {
                sleep(ms(250)).await;
                is_dead |= now() > ms(2000) && now() - *last.borrow() > ms(if bug { 1500 } else { 8500 });
            }
        }
        is_dead
    })
}

/// A connection that is used again takes late data of its former use.
fn reuse(ends: Ends, bug: bool) -> Run {
    Box::pin(async move {
        ends.serve(|data, _| (0..3).map(|part| [data, &[part]].concat()).collect());
        for number in 0..20 {
            let tag = if bug { 0 } else { number };
            let mut parts = BTreeMap::new();
            while parts.len() < 3 {
                parts.clear();
                ends.send(&[tag, number]).await;
                while let (true, Some(data)) = (parts.len() < 3, ends.wanted(300, |data| data[0] == tag).await) {
                    parts.insert(data[2], data[1]);
                }
            }
            if parts.values().any(|it| *it != number) {
                return true;
            }
        }
        false
    })
}

/// Fragments of two messages with one number are put together.
fn fragments(ends: Ends, bug: bool) -> Run {
    Box::pin(async move {
        let (mut parts, mixed) = (HashMap::<u8, BTreeMap<u8, u8>>::new(), Rc::new(RefCell::new(false)));
        let is_mixed = mixed.clone();
        ends.serve(move |data, _| {
            let key = if bug { data[0] % 8 } else { data[0] };
            let of_message = parts.entry(key).or_default();
            of_message.insert(data[1], data[0]);
            if of_message.len() == 4 {
                let of_message = parts.remove(&key).unwrap();
                *is_mixed.borrow_mut() |= of_message.values().any(|it| *it != of_message[&0]);
            }
            Vec::new()
        });
        for number in 0..60 {
            for part in 0..4 {
                ends.send(&[number, part]).await;
            }
            sleep(ms(300)).await;
        }
        let is_mixed = *mixed.borrow();
        is_mixed
    })
}

fn fails(net: &Net, words: &str, protocol: fn(Ends, bool) -> Run, bug: bool) -> bool {
    let (client, server) = (net.host("10.0.0.1").named("client"), net.host("10.0.0.2").named("server"));
    net.path(&client, &server, words).unwrap();
    let socket = client.bind(0).unwrap();
    net.run(async { protocol(Ends { client: client.clone(), server: server.clone(), socket }, bug).await })
}

const LOSSES: &str = "20ms loss 10%";
const LATE: &str = "20ms jitter 300ms";
type Row = (&'static str, &'static str, fn(Ends, bool) -> Run, usize); // with the fewest faults

#[test]
fn seeds_find_each_planted_bug_and_it_is_shrunk() {
    let rows: [Row; 10] = [
        ("retransmission", LOSSES, retransmission, 2), ("dedupe", LOSSES, dedupe, 2), ("ordering", LOSSES, ordering, 1),
        ("timeouts", LATE, timeouts, 1), ("backoff", LOSSES, backoff, 12), ("half open", LOSSES, half_open, 1),
        ("window", LOSSES, window, 8), ("heartbeat", LOSSES, heartbeat, 1), ("reuse", LATE, reuse, 4),
        ("fragments", LOSSES, fragments, 1),
    ];
    for (name, words, protocol, most) in rows {
        let (seed, faults) = search(1..=30, |net| fails(net, words, protocol, true)).unwrap_or_else(|| panic!("{name}: no seed fails"));
        assert!((1..=most).contains(&faults.len()), "{name}: seed {seed}\n{faults}");
        assert_eq!(faults.to_string().parse::<Faults>().unwrap(), faults);
        let net = Net::with_faults(seed, &faults).unwrap();
        assert!(fails(&net, words, protocol, true), "{name}");
        assert_eq!(least(seed, &faults, |net| fails(net, words, protocol, false)), None, "{name}");
        assert_eq!(search(1..=10, |net| fails(net, words, protocol, false)), None, "{name}");
    }
}
