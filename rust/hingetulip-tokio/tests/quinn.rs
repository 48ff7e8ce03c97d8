//! QUIC by quinn over simulated links. The server's certificate and key in `server` are openssl's, by Ed25519, whose signatures all have
//! one length.
#![cfg(feature = "quinn")]
use hingetulip::simulated::{now, Net};
use hingetulip_tokio::endpoint;
use quinn::{ClientConfig, ServerConfig};
use rustls::{Certificate, PrivateKey, RootCertStore};
use std::time::{Duration, Instant};

const CERTIFICATE: &[u8] = include_bytes!("server/cert.der");
const KEY: &[u8] = include_bytes!("server/key.der");

fn configs() -> (ClientConfig, ServerConfig) {
    let certificate = Certificate(CERTIFICATE.to_vec());
    let mut roots = RootCertStore::empty();
    roots.add(&certificate).unwrap();
    (ClientConfig::with_root_certificates(roots), ServerConfig::with_single_cert(vec![certificate], PrivateKey(KEY.to_vec())).unwrap())
}

/// A client sends so many bytes to a server that counts them: how long the handshake and all took, the report, and the history.
fn sent(seed: u64, words: &str, bytes: usize) -> ([Duration; 2], String, Vec<u8>) {
    let net = Net::new(seed).unwrap();
    let (near, far) = (net.host("10.0.0.1"), net.host("10.0.0.2"));
    net.path(&near, &far, words).unwrap();
    let (client_config, server_config) = configs();
    let times = net.run(async {
        let server = endpoint(far.bind(4433).unwrap(), Some(server_config)).unwrap();
        let task = far.spawn(async move {
            let connection = server.accept().await.unwrap().await.unwrap();
            let stream = connection.accept_uni().await.unwrap();
            stream.read_to_end(usize::MAX).await.unwrap().len()
        });
        let (client, begin) = (endpoint(near.bind(0).unwrap(), None).unwrap(), Instant::now());
        let connecting = client.connect_with(client_config, "10.0.0.2:4433".parse().unwrap(), "server").unwrap();
        let connection = connecting.await.unwrap();
        let handshake = begin.elapsed();
        let mut stream = connection.open_uni().await.unwrap();
        stream.write_all(&vec![7; bytes]).await.unwrap();
        stream.finish().await.unwrap();
        assert_eq!(task.await, bytes);
        assert_eq!(begin.elapsed(), now()); // std's clock is the simulated one
        [handshake, now()]
    });
    assert!(net.audit().unwrap().is_lawful());
    (times, net.report(), net.history())
}

#[test]
fn a_handshake_takes_a_round_trip() {
    let ([handshake, _], ..) = sent(1, "1000ms", 0);
    assert_eq!(handshake, Duration::from_secs(2));
}

#[test]
fn losses_are_repaired_in_simulated_time() {
    let words = "8Mbit/s 50ms plr 0.05";
    for seed in 1..=5 {
        let first = sent(seed, words, 1_000_000);
        let ([_, all], report, _) = &first;
        assert!(*all > Duration::from_secs(1) && report.contains(": lost"), "{report}"); // as long as 8 Mbit/s need for the bytes
        assert_eq!(sent(seed, words, 1_000_000), first);
    }
}
