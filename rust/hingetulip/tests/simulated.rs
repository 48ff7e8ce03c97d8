//! Programs in simulated time.
use hingetulip::simulated::{moment, now, sleep, sleep_until, spawn, timeout, Elapsed, Net, UdpSocket};
use hingetulip::Error;
use std::error::Error as Fault;
use std::io::ErrorKind;
use std::time::Duration;

const SECOND: Duration = Duration::from_secs(1);

#[test]
#[should_panic(expected = "row    21, 20.000000000 s, 10.0.0.1:49152 > 10.0.0.2:7, 38 bytes: lost")]
fn the_sample_of_the_page_fails_as_the_page_says() {
    all_come().unwrap();
}

/// The sample of docs/TESTING.md.
fn all_come() -> Result<(), Box<dyn Fault>> {
    let net = Net::new(1)?;
    let (client, server) = (net.host("10.0.0.1"), net.host("10.0.0.2"));
    net.path(&client, &server, "8Mbit/s 20ms plr 0.05")?;
    let (socket, there) = (client.bind(0)?, server.bind(7)?);
    net.run(async {
        for number in 0..60 {
            socket.send_to(format!("message {number}").as_bytes(), "10.0.0.2:7").await.unwrap();
            sleep(Duration::from_secs(1)).await;
        }
    });
    let got = (0..60).take_while(|_| there.try_recv_from(&mut [0; 1500]).is_ok()).count();
    assert_eq!(got, 60, "{}", net.report());
    Ok(())
}

/// A client that repeats each of some questions until a server has replied: the report, the history, and when it was over.
fn questions(seed: u64, words: &str) -> (String, Vec<u8>, Duration) {
    let net = Net::new(seed).unwrap();
    let (client, server) = (net.host("10.0.0.1"), net.host("10.0.0.2"));
    net.path(&client, &server, words).unwrap();
    let end = net.run(async {
        server.spawn(async {
            let (socket, mut data) = (UdpSocket::bind("0.0.0.0:7").await.unwrap(), [0; 1500]);
            loop {
                let (count, source) = socket.recv_from(&mut data).await.unwrap();
                socket.send_to(&data[..count], source).await.unwrap();
            }
        });
        let socket = client.bind(0).unwrap();
        for question in 0..50 {
            loop {
                socket.send_to(&[question; 972], "10.0.0.2:7").await.unwrap();
                if timeout(Duration::from_millis(70), socket.recv_from(&mut [0; 1500])).await.is_ok() {
                    break;
                }
            }
        }
        now()
    });
    assert!(net.audit().unwrap().is_lawful());
    (net.report(), net.history(), end)
}

#[test]
fn moments_are_exact_to_the_ns() {
    let (report, _, end) = questions(1, "8Mbit/s 20ms");
    assert_eq!(end, Duration::from_millis(50 * 42)); // 1 ms and 20 ms each way
    assert_eq!(report.lines().nth(1), Some("10.0.0.2 > 10.0.0.1: 50 sent, 0 lost, 0 met a full queue"));
    assert_eq!(questions(1, "7Mbit/s").2, Duration::from_nanos(50 * 2 * 1_142_858)); // a link rounds up
}

#[test]
fn a_seed_makes_one_history() {
    let words = "8Mbit/s 20ms loss 20%";
    let first = questions(1, words);
    assert!(first.0.contains(": lost"));
    for _ in 0..20 {
        assert_eq!(questions(1, words), first);
    }
    assert_ne!(questions(2, words).1, first.1);
}

#[test]
fn a_closed_port_replies_over_the_links() {
    let net = Net::new(1).unwrap();
    let (client, server) = (net.host("10.0.0.1"), net.host("10.0.0.2"));
    net.path(&client, &server, "20ms").unwrap();
    net.run(client.within(async {
        let socket = UdpSocket::bind("0.0.0.0:0").await.unwrap();
        socket.connect((server.address(), 9)).await.unwrap();
        assert_eq!(socket.send(b"hello").await.unwrap(), 5);
        assert_eq!(socket.recv(&mut [0; 9]).await.unwrap_err().kind(), ErrorKind::ConnectionRefused);
        assert_eq!(now(), Duration::from_millis(40));
    }));
    assert!(net.report().contains("\n10.0.0.2:9: 1 without a socket\n"));
    let verdict = net.audit().unwrap();
    assert_eq!((verdict.entries, verdict.differs), (6, None)); // two lines, two packets, two collects
}

#[test]
fn datagrams_take_the_fewest_links() {
    let net = Net::new(1).unwrap();
    let hosts: Vec<_> = (1..=4).map(|it| net.host(&format!("10.0.0.{it}"))).collect();
    for pair in hosts.windows(2) {
        net.path(&pair[0], &pair[1], "10ms").unwrap();
    }
    let (near, far) = (hosts[0].bind(7).unwrap(), hosts[3].bind(7).unwrap());
    let first = net.run(async {
        near.send_to(b"far", "10.0.0.4:7").await.unwrap();
        far.recv_from(&mut [0; 9]).await.unwrap();
        now()
    });
    let (there, _) = net.path(&hosts[3], &hosts[0], "5ms").unwrap();
    net.run(async {
        far.send_to(b"near", "10.0.0.1:7").await.unwrap();
        assert_eq!(near.recv(&mut [0; 2]).await.unwrap(), 2); // as many as have room
    });
    assert_eq!((first, net.now(), there.counts().sent), (Duration::from_millis(30), Duration::from_millis(35), 1));
}

#[test]
fn sockets_refuse_what_a_system_refuses() {
    let net = Net::new(1).unwrap();
    let (one, other) = (net.host("10.0.0.1"), net.host("10.0.0.2"));
    let socket = one.bind(7).unwrap();
    assert_eq!(one.bind(7).unwrap_err().kind(), ErrorKind::AddrInUse);
    let unreachable = socket.try_send_to(b"", "10.0.0.2:7".parse().unwrap()).unwrap_err();
    assert_eq!(unreachable.raw_os_error(), Some(101));
    let refused = net.link(&one, &other, "8Mbit/s 20s").unwrap_err();
    assert!(matches!(refused, Error::Word(word) if word.word() == "20s"));
    net.link(&one, &other, "queue 1").unwrap();
    assert_eq!(socket.try_send_to(&[0; 65508], "10.0.0.2:7".parse().unwrap()).unwrap_err().raw_os_error(), Some(90));
    assert_eq!(socket.try_recv_from(&mut []).unwrap_err().kind(), ErrorKind::WouldBlock);
    net.run(other.within(async {
        assert_eq!(UdpSocket::bind("10.0.0.1:8").await.unwrap_err().kind(), ErrorKind::AddrNotAvailable);
        assert_eq!(UdpSocket::bind("10.0.0.2:8").await.unwrap().local_addr().unwrap(), "10.0.0.2:8".parse().unwrap());
        assert_eq!(UdpSocket::bind("[::1]:8").await.unwrap_err().kind(), ErrorKind::AddrNotAvailable);
    }));
}

#[test]
fn a_link_can_be_changed() {
    let net = Net::new(1).unwrap();
    let (one, other) = (net.host("10.0.0.1"), net.host("10.0.0.2"));
    let (link, _) = net.path(&one, &other, "8Mbit/s queue 1").unwrap();
    let (socket, there) = (one.bind(0).unwrap(), other.bind(7).unwrap());
    net.run(async {
        for _ in 0..3 {
            socket.send_to(&[0; 972], "10.0.0.2:7").await.unwrap();
        }
        sleep(SECOND).await;
        link.change("plr 1").unwrap();
        socket.send_to(&[0; 972], "10.0.0.2:7").await.unwrap();
    });
    let counts = link.counts();
    assert_eq!((counts.sent, counts.full, counts.lost), (4, 1, 1));
    assert_eq!((0..4).filter(|_| there.try_recv_from(&mut []).is_ok()).count(), 2);
}

#[test]
fn tasks_and_timers_take_no_time() {
    let net = Net::new(1).unwrap();
    let order = net.run(async {
        let tasks: Vec<_> = [3, 1, 2].map(|it| spawn(async move { sleep(it * SECOND).await; (it, now()) })).into();
        let mut order = vec![];
        for task in tasks {
            order.push(task.await);
        }
        assert_eq!(timeout(SECOND, sleep(2 * SECOND)).await, Err(Elapsed));
        sleep_until(SECOND).await; // which is past
        assert_eq!(moment(), Some(4_000_000_000));
        sleep(365 * 86400 * SECOND).await;
        order
    });
    assert_eq!(order, [(3, 3 * SECOND), (1, SECOND), (2, 2 * SECOND)]);
    assert_eq!((net.now(), moment()), (31_536_004 * SECOND, None));
}

#[test]
#[should_panic(expected = "nothing can happen any more")]
fn a_net_in_which_nothing_can_happen_says_so() {
    Net::new(1).unwrap().run(std::future::pending::<()>());
}

#[test]
#[should_panic(expected = "a task asks again and again without a timer")]
fn a_task_that_always_asks_lets_no_time_pass() {
    let net = Net::new(1).unwrap();
    net.run(async {
        loop {
            spawn(async {}).await;
        }
    });
}
