//! Audits of histories by hand, and of those that callers make.
use hingetulip::{Audit, Error, Packet, Result, Service, Target, Verdict};
use std::io::{self, ErrorKind};

const LAWFUL: &str = "dummynet-history,3\nc,0,configure,pipe 1 config bw 8000000bit/s\nr,configured\n\
    c,0,submit,pipe,1,10.0.0.1,10.0.0.2,17,1000,2000,1000,0,0\nr,queued,0,0,0\n\
    c,1,collect,1000000\nr,delivered,1000000,1\nd,0,0,0,1000000\nend,3\n";

fn found(text: &str, step: usize) -> Result<(u64, Option<u64>)> {
    let mut audit = Audit::new()?;
    text.as_bytes().chunks(step).try_for_each(|part| audit.feed(part))?;
    audit.finish().map(|Verdict { entries, differs, .. }| (entries, differs))
}

#[test]
fn texts_in_parts_of_each_length() {
    let cases = [
        (LAWFUL.to_owned(), Ok((3, None))),
        (LAWFUL.replace("0,0,1000000", "0,1,1000000"), Ok((3, Some(2)))),
        (LAWFUL.replace("queued,0,0,0", "lost,0,0"), Ok((3, Some(1)))),
        (LAWFUL.replace("queued,0,0,0", "quoted,0,0,0"), Err(Error::Record(5))),
        (LAWFUL.replace("end,3\n", ""), Err(Error::Record(9))),
        (LAWFUL.replace("end,3", "end,4"), Err(Error::Record(9))),
        ("dummynet-history,3\nend,0\n".to_owned(), Ok((0, None))),
        (String::new(), Err(Error::Record(1))),
    ];
    for (text, verdict) in cases {
        for step in 1..=text.len().max(1) {
            assert_eq!(found(&text, step), verdict, "{text} in parts of {step}");
        }
    }
}

#[test]
fn an_audit_ends_at_its_limit() {
    let mut whole = Audit::within(LAWFUL.len()).unwrap();
    whole.feed(LAWFUL.as_bytes()).unwrap();
    whole.feed(b"").unwrap();
    assert!(whole.finish().unwrap().is_lawful());
    let mut short = Audit::within(LAWFUL.len() - 1).unwrap();
    assert_eq!(short.feed(LAWFUL.as_bytes()), Err(Error::TooLong));
    assert_eq!(short.feed(b""), Err(Error::Closed));
    assert_eq!(short.finish().unwrap_err().to_string(), "the audit has ended");
}

#[test]
fn a_history_is_audited_while_it_is_written() {
    let (service, mut callers) = Service::open(3).unwrap();
    let mut history = service.history(Audit::new().unwrap()).unwrap();
    callers[0].configure("pipe 1 config bw 8Mbit/s delay 20ms plr 0.5").unwrap();
    let threads = callers.into_iter().map(|mut caller| {
        std::thread::spawn(move || {
            for word in 0..200u32 {
                let packet = Packet { word: word << 24, ..Packet::new(u64::from(word) * 1000, Target::Pipe(1), 100) };
                caller.submit(&packet).unwrap();
            }
        })
    });
    threads.collect::<Vec<_>>().into_iter().for_each(|thread| thread.join().unwrap());
    assert_eq!(history.end().unwrap(), 601);
    let verdict = history.into_inner().finish().unwrap();
    assert_eq!((verdict.entries, verdict.differs), (601, None));
}

#[test]
fn an_error_of_an_audit_is_its_writers() {
    let refused = io::copy(&mut LAWFUL.as_bytes(), &mut Audit::within(5).unwrap()).unwrap_err();
    assert_eq!((refused.kind(), refused.to_string()), (ErrorKind::Other, "history too long".to_owned()));
    let mut audit = Audit::new().unwrap();
    io::copy(&mut LAWFUL.as_bytes(), &mut audit).unwrap();
    assert!(audit.finish().unwrap().is_lawful());
}
