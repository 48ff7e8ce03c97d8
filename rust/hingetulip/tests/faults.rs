//! Cuts, holds and faults of links, what met nothing, and addresses of IPv6.
use hingetulip::simulated::{now, sleep, Faults, Net};
use hingetulip::Error;
use std::time::Duration;

const SECOND: Duration = Duration::from_secs(1);

/// In which ms numbered packets come, at most one in each, that are sent each second from 0.5 s on.
fn moments(net: &Net, words: &str, before: impl FnOnce()) -> Vec<(u8, u128)> {
    let (client, server) = (net.host("10.0.0.1").named("client"), net.host("10.0.0.2").named("server"));
    net.path(&client, &server, words).unwrap();
    let (socket, there) = (client.bind(0).unwrap(), server.bind(7).unwrap());
    net.run(async {
        let mut came = Vec::new();
        sleep(SECOND / 2).await;
        before();
        for number in 0..6 {
            socket.send_to(&[number], "10.0.0.2:7").await.unwrap();
            let mut data = [0];
            for _ in 0..1000 {
                sleep(SECOND / 1000).await;
                came.extend(there.try_recv_from(&mut data).map(|_| (data[0], now().as_millis())));
            }
        }
        came
    })
}

#[test]
fn cuts_and_holds_are_of_hosts_and_of_one_way() {
    let net = Net::new(1).unwrap();
    assert_eq!(moments(&net, "20ms", || net.cut("10.0.0.2", 2 * SECOND).unwrap()), [(2, 2520), (3, 3520), (4, 4520), (5, 5520)]);
    assert!(net.report().contains("\ncut of 10.0.0.2 at 0.500000 s for 2 s: it met 2 packets\n"), "{}", net.report());
    let net = Net::new(1).unwrap();
    let held = moments(&net, "20ms", || net.hold("client > server", SECOND * 3 / 2).unwrap());
    assert_eq!(held, [(0, 2020), (1, 2021), (2, 2520), (3, 3520), (4, 4520), (5, 5520)]);
    assert!(net.unmet().is_empty() && net.audit().unwrap().is_lawful());
}

#[test]
fn faults_are_lines() {
    let lines = "client > server packet 1 lost\nclient > server packet 2 twice\nclient > server packet 3 late 80ms\nat 3.4s cut client 500ms\n\
                 at 4.4s hold client > server 0.3s\n";
    let faults: Faults = format!("# of a page\n\n{lines}").parse().unwrap();
    assert_eq!(faults.to_string(), lines.replace("500ms", "0.5s"));
    let net = Net::with_faults(1, &faults).unwrap();
    let came = moments(&net, "20ms loss 50% jitter 9ms", || {});
    assert_eq!(came, [(1, 1520), (1, 1521), (2, 2600), (4, 4720), (5, 5520)]);
    let happened = net.faults().to_string();
    assert_eq!(happened, lines.lines().take(3).map(|it| format!("{it}\n")).collect::<String>() + "client > server packet 4 lost\n");
    for wrong in ["client > server packet 0 lost", "client packet 1 lost", "at 1s crash server 1s", "at 1 cut a 1s", "at 1s cut a 0s", "x",
        "a > b packet 1 late 3600001ms", "a > b packet 1 lost\na > b packet 1 lost"] {
        let text = wrong.parse::<Faults>().unwrap_err().to_string();
        assert!(text.contains(wrong.lines().last().unwrap()) && text.contains("; write `client > server packet 3 lost`"), "{text}");
    }
}

#[test]
fn what_met_nothing_is_told_and_ends_the_net_by_a_panic() {
    let told = |faults: &str, act: fn(&Net)| {
        let net = Net::with_faults(1, &faults.parse().unwrap()).unwrap();
        moments(&net, "20ms", || act(&net));
        let text = net.unmet().join("\n");
        drop(net); // who asked judges
        text
    };
    assert_eq!(told("client > servr packet 1 lost", |_| {}), "client > servr packet 1 lost: it met nothing");
    assert_eq!(told("client > server packet 7 lost", |_| {}), "client > server packet 7 lost: it met nothing");
    assert_eq!(told("at 99s cut client 1s", |_| {}), "at 99s cut client 1s: it met nothing");
    assert_eq!(told("at 1s hold clint 1s", |_| {}), "at 1s hold clint 1s: it met nothing");
    let idle = told("", |net| net.cut("server > client", SECOND).unwrap());
    assert_eq!(idle, "cut of server > client at 0.500000 s for 1 s: it met no packet");
}

#[test]
#[should_panic(expected = "what met nothing:\nat 99s cut client 1s: it met nothing")]
fn a_net_that_nobody_asked_panics() {
    moments(&Net::with_faults(1, &"at 99s cut client 1s".parse().unwrap()).unwrap(), "20ms", || {});
}

#[test]
#[should_panic(expected = "no links of \"servr\"; there are client, server")]
fn a_cut_names_a_host() {
    let net = Net::new(1).unwrap();
    moments(&net, "20ms", || net.cut("servr", SECOND).unwrap());
}

#[test]
fn jitter_and_duplicates_are_drawn_by_the_seed() {
    let drawn = |seed| {
        let net = Net::new(seed).unwrap();
        (moments(&net, "20ms jitter 300ms duplicate 50%", || {}), net.faults(), net.history())
    };
    assert_eq!(drawn(1), drawn(1));
    assert_ne!(drawn(1).0, drawn(2).0);
    let (came, faults, _) = drawn(1);
    let text = faults.to_string();
    assert!(text.contains(" twice\n") && text.contains(" late "), "{text}");
    assert_eq!(moments(&Net::with_faults(1, &faults).unwrap(), "20ms", || {}), came);
}

#[test]
fn hosts_have_addresses_of_6() {
    let net = Net::new(1).unwrap();
    let (one, other, third) = (net.host("fd00::1"), net.host("fd00::2"), net.host("10.0.0.1"));
    let (there, _) = net.path(&one, &other, "8Mbit/s").unwrap();
    let (socket, far) = (one.bind(0).unwrap(), other.bind(7).unwrap());
    net.run(async {
        socket.send_to(&[0; 952], "[fd00::2]:7").await.unwrap();
        assert_eq!(far.recv_from(&mut [0; 1500]).await.unwrap(), (952, socket.local_addr().unwrap()));
        assert_eq!(now(), Duration::from_millis(1)); // 48 bytes of headers
        socket.connect("[fd00::2]:9").await.unwrap();
        socket.send(b"").await.unwrap();
        assert_eq!(socket.recv(&mut []).await.unwrap_err().kind(), std::io::ErrorKind::ConnectionRefused);
    });
    assert_eq!(third.bind(0).unwrap().try_send_to(b"", "[fd00::2]:7".parse().unwrap()).unwrap_err().raw_os_error(), Some(97));
    assert!(matches!(there.change("20ms jitter 1ms"), Err(Error::Word(it)) if it.word() == "jitter"));
    assert!(net.audit().unwrap().is_lawful() && net.report().starts_with("fd00::1 > fd00::2: 2 sent"));
    let same = std::panic::catch_unwind(|| net.host("fd01::1")).unwrap_err();
    assert_eq!(same.downcast_ref::<String>().unwrap(), "a history can't tell fd01::1 from fd00::1");
}
