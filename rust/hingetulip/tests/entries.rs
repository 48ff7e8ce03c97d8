//! The entries of a history by hand, with each kind of call and reply, and of one that a service writes.
use hingetulip::{Call, Entry, Error, Outcome, Packet, Reply, Result, Rule, Service, Target};
use std::net::Ipv4Addr;

const TEXT: &str = "dummynet-history,2\nc,0,configure,pipe 1 config bw 8Mbit/s\nr,configured\nc,1,configure,queue 2 config pipe 7\nr,no-such-pipe\n\
    c,15,submit,queue,2,10.0.0.1,10.0.0.2,17,3,4,1000,9,5\nr,queued,7,8,2\nc,15,submit,pipe,1,10.0.0.1,10.0.0.2,17,3,4,1000,9,5\nr,lost,5,1\n\
    c,3,collect,8\nr,delivered,9,2\nd,0,1,2,3\nd,4,5,6,7\nc,4,show\nr,status,1\n\
    f,1,queue,2,1,0.0.0.0,0.0.0.0,255,0,0,0.0.0.0,0.0.0.0,17,0,7,1,2,3,4,6,5\nc,3,collect,10\nr,delivered,10,1\nd,9,8,7,6\nend,7\n";

/// The rule and the entries of a text.
fn entries(text: &str) -> Result<(Rule, Vec<Entry>)> {
    Entry::read(text.as_bytes())
}

#[test]
fn each_kind_is_read_with_its_own_items() {
    let (rule, all) = entries(TEXT).unwrap();
    assert_eq!((rule, all.iter().map(|it| it.caller).collect::<Vec<_>>()), (Rule::Free, vec![0, 1, 15, 15, 3, 4, 3]));
    assert_eq!((&all[0].call, &all[0].reply), (&Call::Configure("pipe 1 config bw 8000000bit/s".to_owned()), &Reply::Configured));
    assert_eq!((&all[1].call, &all[1].reply), (&Call::Configure("queue 2 config pipe 7".to_owned()), &Reply::Refused(Error::NoSuchPipe)));
    let (src, dst) = (Ipv4Addr::new(10, 0, 0, 1), Ipv4Addr::new(10, 0, 0, 2));
    let packet = Packet { src, dst, proto: 17, sport: 3, dport: 4, word: 9, ..Packet::new(5, Target::Queue(2), 1000) };
    assert_eq!([&all[2].call, &all[3].call], [&Call::Submit(packet), &Call::Submit(Packet { target: Target::Pipe(1), ..packet })]);
    match (&all[2].reply, &all[3].reply) {
        (Reply::Fate(one), Reply::Fate(two)) => {
            assert_eq!((one.at, one.flow, one.outcome), (7, Some(8), Outcome::Queued(2)));
            assert_eq!((two.at, two.flow, two.outcome), (5, Some(1), Outcome::Lost));
        }
        other => panic!("{other:?}"),
    }
    match (&all[4].reply, &all[5].reply, &all[6].reply) {
        (Reply::Deliveries(9, two), Reply::Flows(flows), Reply::Deliveries(10, one)) => {
            let told: Vec<_> = two.iter().chain(one).map(|it| (it.packet, it.flow, it.start, it.due)).collect();
            assert_eq!((two.len(), told), (2, vec![(0, 1, 2, 3), (4, 5, 6, 7), (9, 8, 7, 6)]));
            assert_eq!((flows.len(), flows[0].target, flows[0].queued, flows[0].discarded, flows[0].dst.1), (1, Target::Queue(2), 1, 5, 7));
        }
        other => panic!("{other:?}"),
    }
}

#[test]
fn the_first_bad_record_is_told() {
    assert_eq!(entries(""), Err(Error::Record(1)));
    assert_eq!(entries(&TEXT.replace("end,7\n", "")), Err(Error::Record(20)));
    assert_eq!(entries(&TEXT.replace("r,lost", "r,last")), Err(Error::Record(9)));
    assert_eq!(entries("dummynet-history,3\nend,0\n"), Ok((Rule::Ordered, Vec::new())));
}

#[test]
fn the_history_of_a_service() {
    let (service, mut callers) = Service::open(2).unwrap();
    let mut history = service.history(Vec::new()).unwrap();
    callers[0].configure("pipe 1 config bw 8Mbit/s plr 0.5").unwrap();
    let packets: Vec<_> = (0..50u32).map(|word| Packet { word: word << 26, ..Packet::new(u64::from(word), Target::Pipe(1), 100) }).collect();
    let fates: Vec<_> = packets.iter().map(|packet| callers[1].submit(packet).unwrap()).collect();
    history.end().unwrap();
    let (_, all) = Entry::read(&history.into_inner()).unwrap();
    let told: Vec<_> = all[1..].iter().map(|it| (it.caller, it.call.clone(), it.reply.clone())).collect();
    let wanted: Vec<_> = packets.into_iter().zip(fates).map(|(packet, fate)| (1, Call::Submit(packet), Reply::Fate(fate))).collect();
    assert_eq!(told, wanted);
}
