//! Each call, and each error that can be had.
use hingetulip::{version, Error, FaultKind, Outcome, Packet, Rule, Shaper, Target, LAST_MOMENT};

fn thousand(moment: u64, pipe: u16) -> Packet {
    Packet::new(moment, Target::Pipe(pipe), 1000)
}

#[test]
fn four_packets_and_room_for_one() {
    let mut it = Shaper::new().unwrap();
    it.configure("pipe 1 config bw 8Mbit/s queue 1").unwrap();
    let fates: Vec<_> = [0, 0, 0, 1_000_000].iter().map(|at| it.submit(&thousand(*at, 1)).unwrap().outcome).collect();
    assert_eq!(fates, [Outcome::Queued(0), Outcome::Queued(1), Outcome::Full, Outcome::Queued(2)]);
    let out: Vec<_> = it.deliveries(LAST_MOMENT).map(|it| it.unwrap()).map(|it| (it.packet, it.start, it.due)).collect();
    assert_eq!(out, [(0, 0, 1_000_000), (1, 1_000_000, 2_000_000), (2, 2_000_000, 3_000_000)]);
    assert_eq!(it.flows().unwrap()[0].full, 1);
    assert_eq!(it.wake().unwrap(), None);
}

#[test]
fn errors() {
    let mut it = Shaper::with_rule(Rule::Free).unwrap();
    assert_eq!(it.configure("pipe 1 config delay x").unwrap_err().to_string(), "word 5: bad number");
    assert_eq!(it.configure("pipe 1 foo"), Err(Error::Line(FaultKind::UnknownWord, 3)));
    assert_eq!(it.configure("queue 1 config pipe 3"), Err(Error::NoSuchPipe));
    assert_eq!(it.configure("queue 1 delete"), Err(Error::NoSuchQueue));
    it.configure("pipe 3 config").unwrap();
    it.configure("queue 1 config pipe 3").unwrap();
    assert_eq!(it.configure("pipe 3 delete"), Err(Error::PipeHasQueues));
    assert_eq!(it.submit(&thousand(LAST_MOMENT + 1, 3)), Err(Error::Moment));
    assert_eq!(it.submit(&thousand(0, 0)), Err(Error::Number));
    assert_eq!(it.submit(&Packet { length: 0, ..thousand(0, 3) }), Err(Error::Length));
    let fate = it.submit(&thousand(0, 9)).unwrap();
    assert_eq!((fate.outcome, fate.flow), (Outcome::NoTarget, None));
    assert_eq!(it.collect(LAST_MOMENT + 1).unwrap_err(), Error::Moment);
    assert_eq!(it.advance(5), Ok(5));
    it.configure("").unwrap();
}

#[test]
fn room_is_there_for_a_known_flow() {
    let mut it = Shaper::new().unwrap();
    it.configure("pipe 1 config bw 8Mbit/s mask src-port 0xffff").unwrap();
    assert_eq!(it.reserve(&thousand(0, 1)), Ok(false));
    assert_eq!(it.submit(&thousand(0, 1)).unwrap().flow, Some(0));
    let room = [thousand(5, 1), Packet { sport: 1, ..thousand(0, 1) }, thousand(0, 9)].map(|packet| it.reserve(&packet));
    assert_eq!(room, [Ok(true), Ok(false), Ok(true)]);
    assert_eq!(it.reserve(&thousand(0, 0)), Err(Error::Number));
    assert_eq!(it.flows().unwrap().len(), 1, "it is no call");
}

#[test]
fn many_flows_and_packets() {
    let mut it = Shaper::new().unwrap();
    it.configure("pipe 1 config bw 8Mbit/s queue 100 mask src-port 0xffff").unwrap();
    for sport in 0..1000u16 {
        assert_eq!(it.submit(&Packet { sport, ..thousand(0, 1) }).unwrap().flow, Some(sport.into()));
    }
    assert_eq!(it.flows().unwrap().len(), 1000);
    assert_eq!(it.deliveries(999_999).count(), 0);
    assert_eq!(it.deliveries(1_000_000).take(10).count(), 10);
    assert_eq!(it.collect(LAST_MOMENT).unwrap().len(), 990, "those that weren't asked for");
    assert!(version() == env!("CARGO_PKG_VERSION"));
}

#[test]
fn many_packets_at_once_are_those_one_by_one() {
    let packets: Vec<_> = (0..500u64).map(|at| Packet { sport: at as u16 % 7, ..thousand(at * 700_000, 1) }).collect();
    let [mut one, mut other] = [(); 2].map(|_| {
        let mut it = Shaper::new().unwrap();
        it.configure("pipe 1 config bw 8Mbit/s queue 5 mask src-port 3").unwrap();
        it
    });
    let singly: Vec<_> = packets.iter().map(|it| one.submit(it).unwrap()).collect();
    let mut fates = Vec::new();
    other.submit_many(&packets[..200], &mut fates).unwrap();
    other.submit_many(&packets[200..], &mut fates).unwrap();
    assert_eq!(fates, singly);
    assert_eq!(other.collect(LAST_MOMENT).unwrap(), one.collect(LAST_MOMENT).unwrap());
    other.submit_many(&[], &mut fates).unwrap();
    assert_eq!(fates.len(), 500);
}

#[test]
fn a_refused_packet_stops_those_behind_it() {
    let mut it = Shaper::new().unwrap();
    it.configure("pipe 1 config bw 8Mbit/s").unwrap();
    let mut fates = Vec::new();
    assert_eq!(it.submit_many(&[thousand(5, 1), thousand(6, 0), thousand(7, 1)], &mut fates), Err(Error::Number));
    assert_eq!(fates.iter().map(|it| (it.at, it.outcome)).collect::<Vec<_>>(), [(5, Outcome::Queued(0))]);
    assert_eq!(it.submit(&thousand(7, 1)).unwrap().outcome, Outcome::Queued(1));
}

#[test]
fn lost_held_and_discarded() {
    let mut it = Shaper::new().unwrap();
    it.configure("pipe 1 config bw 8Mbit/s plr 0.5").unwrap();
    let fates: Vec<_> = [0, u32::MAX, u32::MAX].iter().map(|word| it.submit(&Packet { word: *word, ..thousand(0, 1) }).unwrap()).collect();
    assert_eq!(fates.iter().map(|it| it.outcome).collect::<Vec<_>>(), [Outcome::Lost, Outcome::Queued(0), Outcome::Queued(1)]);
    assert_eq!(it.wake().unwrap(), Some(1_000_000));
    it.configure("pipe delete 1").unwrap();
    let flow = it.flows().unwrap()[0];
    assert_eq!((flow.target, flow.lost, flow.started, flow.discarded), (Target::Pipe(1), 1, 1, 1));
    assert_eq!(it.collect(LAST_MOMENT).unwrap().len(), 1);
}

#[test]
fn headers_of_packet_files() {
    let read = |front: &str, end: &str| Packet::read(format!("{front},target,number,src,dst,proto,sport,dport,len,{end}").as_bytes()).map(|it| it.len());
    for front in ["moment", "\u{feff}\r\n\"moment\"", "\n\"mom\"ent"] {
        assert_eq!((read(front, "\"word"), read(front, "\"word\"\r5,pipe,1,10.0.0.1,10.0.0.2,17,3,4,1000,9")), (Ok(0), Ok(1)));
    }
    for front in ["\"moment", "\"mo\"\"ment\"", "x,moment"] {
        assert_eq!(read(front, "word"), Err(Error::Row(0, 0)));
    }
}
