//! Programs on tokio's paused clock.
use hingetulip::simulated::Net;
use hingetulip_tokio::run;
use tokio::task::spawn_local;
use tokio::time::{sleep, timeout, Duration, Instant};

/// A client that repeats each of some questions until a server has replied: the tries, how long each took, and the history.
fn questions(seed: u64, words: &str) -> (usize, Vec<u128>, Vec<u8>) {
    let net = Net::new(seed).unwrap();
    let (client, server) = (net.host("10.0.0.1"), net.host("10.0.0.2"));
    net.path(&client, &server, words).unwrap();
    let (mut tries, mut took) = (0, vec![]);
    run(&net, async {
        let there = server.bind(7).unwrap();
        spawn_local(async move {
            let mut data = [0; 1500];
            loop {
                let (count, source) = there.recv_from(&mut data).await.unwrap();
                there.send_to(&data[..count], source).await.unwrap();
            }
        });
        let socket = client.bind(0).unwrap();
        for question in 0..50 {
            let begin = Instant::now();
            loop {
                tries += 1;
                socket.send_to(&[question; 72], "10.0.0.2:7").await.unwrap();
                if timeout(Duration::from_millis(200), socket.recv(&mut [0; 1500])).await.is_ok() {
                    break;
                }
            }
            took.push(begin.elapsed().as_nanos());
        }
    });
    assert!(net.audit().unwrap().is_lawful());
    (tries, took, net.history())
}

#[test]
fn datagrams_are_exact_to_the_ns() {
    assert_eq!(questions(1, "8Mbit/s 20ms").1, [40_200_000; 50]);
    assert_eq!(questions(1, "7Mbit/s").1, [2 * 114_286; 50]);
}

#[test]
fn a_seed_makes_one_lawful_history() {
    let words = "8Mbit/s 20ms plr 0.2";
    let first = questions(1, words);
    assert!(first.0 > 60);
    for _ in 0..20 {
        assert_eq!(questions(1, words), first);
    }
}

#[test]
fn timers_are_tokios() {
    let net = Net::new(1).unwrap();
    let (one, other) = (net.host("10.0.0.1"), net.host("10.0.0.2"));
    net.path(&one, &other, "8Mbit/s").unwrap();
    let (socket, there) = (one.bind(7).unwrap(), other.bind(7).unwrap());
    let (came, ends) = run(&net, async {
        let begin = Instant::now();
        let timer = |it: u32| async move { sleep(it * Duration::from_millis(1)).await; begin.elapsed() };
        let timers: Vec<_> = (1..4).map(|it| spawn_local(timer(it))).collect();
        socket.send_to(&[0; 1222], "10.0.0.2:7").await.unwrap();
        there.recv(&mut [0; 1500]).await.unwrap();
        let came = begin.elapsed();
        let mut ends = vec![];
        for timer in timers {
            ends.push(timer.await.unwrap().as_micros());
        }
        sleep(Duration::from_secs(3600)).await;
        (came, ends)
    });
    assert_eq!((came, ends), (Duration::from_micros(1250), vec![1000, 2000, 3000]));
    assert_eq!(net.now(), Duration::from_millis(3_600_003));
    let before = run(&net, async { net.now() }); // a net goes on where it was
    assert_eq!(before, net.now());
}

#[test]
fn the_clock_of_std_is_tokios() {
    let net = Net::new(1).unwrap();
    let (one, other) = (net.host("10.0.0.1"), net.host("10.0.0.2"));
    net.path(&one, &other, "8Mbit/s").unwrap();
    let (socket, there) = (one.bind(7).unwrap(), other.bind(7).unwrap());
    let real = std::time::Instant::now();
    run(&net, async {
        let same = || assert_eq!(Instant::now().into_std(), std::time::Instant::now());
        let begin = std::time::Instant::now();
        socket.send_to(&[0; 72], "10.0.0.2:7").await.unwrap();
        there.recv(&mut [0; 1500]).await.unwrap();
        same();
        assert_eq!(begin.elapsed(), Duration::from_micros(100));
        spawn_local(async move { sleep(Duration::from_secs(100)).await; same() }).await.unwrap();
        assert_eq!(begin.elapsed(), Duration::from_millis(100_001)); // tokio's timers are due at whole ms
        tokio::time::advance(Duration::from_secs(1)).await;
        let _ = net.now(); // which looks at the clock
        same();
    });
    assert!(real.elapsed() < Duration::from_secs(50)); // the system's again
}
