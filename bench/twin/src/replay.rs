//! Rows, report and history text. Rows are applied while they are read;
//! texts are built whole and written only after the last row was good.
use crate::config::{parse_line, print_command};
use crate::shaper::{Answer, Shaper};
use crate::types::*;

const LAST_MOMENT: u64 = 1 << 62;

// ---- writing ----

const PAIRS: &[u8; 200] = b"00010203040506070809101112131415161718192021222324252627282930313233343536373839404142434445464748495051525354555657585960616263646566676869707172737475767778798081828384858687888990919293949596979899";

#[inline]
pub fn put(out: &mut Vec<u8>, mut n: u64) {
    let mut buf = [0u8; 20];
    let mut at = 20;
    while n >= 100 {
        let pair = (n % 100) as usize * 2;
        n /= 100;
        at -= 2;
        buf[at..at + 2].copy_from_slice(&PAIRS[pair..pair + 2]);
    }
    if n >= 10 {
        let pair = n as usize * 2;
        at -= 2;
        buf[at..at + 2].copy_from_slice(&PAIRS[pair..pair + 2]);
    } else {
        at -= 1;
        buf[at] = b'0' + n as u8;
    }
    out.extend_from_slice(&buf[at..]);
}

/// A comma and a number, each.
#[inline]
fn put_list(out: &mut Vec<u8>, list: &[u64]) {
    for &n in list {
        out.push(b',');
        put(out, n);
    }
}

fn put_address(out: &mut Vec<u8>, a: u32) {
    for (i, b) in a.to_be_bytes().into_iter().enumerate() {
        if i > 0 {
            out.push(b'.');
        }
        put(out, b as u64);
    }
}

fn put_tuple(out: &mut Vec<u8>, t: &FiveTuple) {
    put_address(out, t.src);
    out.push(b',');
    put_address(out, t.dst);
    put_list(out, &[t.proto as u64, t.sport as u64, t.dport as u64]);
}

fn put_target(out: &mut Vec<u8>, t: Target) {
    let (word, n) = match t {
        Target::Pipe(n) => (&b"pipe,"[..], n),
        Target::Queue(n) => (&b"queue,"[..], n),
    };
    out.extend_from_slice(word);
    put(out, n as u64);
}

/// The history by one caller, record by record.
pub struct History { pub text: Vec<u8>, entries: u64 }

impl History {
    pub fn new(packets: usize) -> History {
        let mut text = Vec::with_capacity(64 + packets * 120);
        text.extend_from_slice(b"dummynet-history,3\n");
        History { text, entries: 0 }
    }
    fn call(&mut self, call: &Call) {
        let o = &mut self.text;
        self.entries += 1;
        o.extend_from_slice(b"c,0,");
        match call {
            Call::Configure(c) => {
                o.extend_from_slice(b"configure,");
                o.extend_from_slice(print_command(c).as_bytes());
            }
            Call::Submit { target, packet, moment } => {
                o.extend_from_slice(b"submit,");
                put_target(o, *target);
                o.push(b',');
                put_tuple(o, &packet.tuple);
                put_list(o, &[packet.len as u64, packet.word as u64, *moment]);
            }
            Call::Advance(m) | Call::Collect(m) => {
                o.extend_from_slice(if matches!(call, Call::Collect(_)) { b"collect" } else { b"advance" });
                put_list(o, &[*m]);
            }
        }
        o.push(b'\n');
    }
    fn record(&mut self, word: &[u8], list: &[u64]) {
        self.text.extend_from_slice(word);
        put_list(&mut self.text, list);
        self.text.push(b'\n');
    }
    fn delivered(&mut self, at: u64, list: &[Delivery]) {
        self.record(b"r,delivered", &[at, list.len() as u64]);
        for d in list {
            self.record(b"d", &[d.packet, d.flow as u64, d.start, d.due]);
        }
    }
    pub fn end(&mut self) { self.record(b"end", &[self.entries]) }
}

// ---- reading packets ----

const HEADER: &[u8] = b"moment,target,number,src,dst,proto,sport,dport,len,word\n";

pub struct Row { pub moment: u64, pub target: Target, pub packet: Packet }

/// A canonical number up to `high` and the byte `end` after it (for a line feed also a carriage return or the end).
#[inline(always)]
fn read_number(b: &[u8], at: &mut usize, high: u64, end: u8) -> Option<u64> {
    let start = *at;
    let mut i = start;
    let mut n = 0u64;
    let last = loop {
        let Some(&c) = b.get(i) else { break b'\n' };
        let d = c.wrapping_sub(b'0');
        if d > 9 {
            break c;
        }
        n = n.wrapping_mul(10).wrapping_add(d as u64);
        i += 1;
    };
    let digits = i - start;
    if digits == 0 || digits > 19 || (digits > 1 && b[start] == b'0') || n > high {
        return None;
    }
    if last != end && !(end == b'\n' && last == b'\r') {
        return None;
    }
    *at = b.len().min(i + 1);
    Some(n)
}

#[inline]
fn read_address(b: &[u8], at: &mut usize) -> Option<u32> {
    let mut a = 0;
    for _ in 0..3 {
        a = a << 8 | read_number(b, at, 255, b'.')? as u32;
    }
    Some(a << 8 | read_number(b, at, 255, b',')? as u32)
}

#[inline]
fn read_row(b: &[u8], at: &mut usize) -> Option<Row> {
    while matches!(b.get(*at), Some(b'\r' | b'\n')) {
        *at += 1;
    }
    let moment = read_number(b, at, LAST_MOMENT, b',')?;
    let rest = &b[*at..];
    let pipe = if rest.starts_with(b"queue,") {
        *at += 6;
        false
    } else if rest.starts_with(b"pipe,") {
        *at += 5;
        true
    } else {
        return None;
    };
    let n = read_number(b, at, 65535, b',')?;
    let src = read_address(b, at)?;
    let dst = read_address(b, at)?;
    let proto = read_number(b, at, 255, b',')? as u8;
    let sport = read_number(b, at, 65535, b',')? as u16;
    let dport = read_number(b, at, 65535, b',')? as u16;
    let len = read_number(b, at, 65535, b',')?;
    let word = read_number(b, at, u32::MAX as u64, b'\n')? as u32;
    if n == 0 || len == 0 {
        return None;
    }
    let target = if pipe { Target::Pipe(n as u16) } else { Target::Queue(n as u16) };
    Some(Row { moment, target, packet: Packet { tuple: FiveTuple { src, dst, proto, sport, dport }, len: len as u16, word } })
}

/// Calls `each` with the rows in order; None at a row that is none of the loads'.
pub fn for_rows(text: &[u8], mut each: impl FnMut(Row)) -> Option<()> {
    let rows = text.strip_prefix(HEADER)?;
    let mut at = 0;
    while at < rows.len() {
        each(read_row(rows, &mut at)?);
    }
    Some(())
}

// ---- the replay ----

enum Event { Held(u64), Lost, Full, None }
struct Other { row: u32, flow: u32, at: u64, event: Event }

/// The report and, if asked, the history text.
pub fn replay(config: &str, packets: &[u8], history: bool) -> Result<(Vec<u8>, Option<Vec<u8>>), String> {
    let mut shaper = Shaper::new();
    let expected = packets.len() / 36;
    let mut book = history.then(|| History::new(expected));
    for line in config.lines() {
        let command = parse_line(line).ok_or_else(|| format!("{line}: not a line of the loads"))?;
        if shaper.configure(&command) != Reply::Configured {
            return Err(format!("{line}: refused"));
        }
        if let Some(h) = &mut book {
            h.call(&Call::Configure(command));
            h.record(b"r,configured", &[]);
        }
    }
    let mut accepted: Vec<(u64, u32, u32)> = Vec::with_capacity(expected);
    let mut others: Vec<Other> = Vec::new();
    let mut row = 0;
    for_rows(packets, |r| {
        row += 1;
        let answer = shaper.submit(r.target, &r.packet, r.moment);
        let at = shaper.now();
        match answer {
            Answer::Queued { flow, .. } => accepted.push((at, row, flow)),
            Answer::Lost { flow } => others.push(Other { row, flow, at, event: Event::Lost }),
            Answer::Full { flow } => others.push(Other { row, flow, at, event: Event::Full }),
            Answer::NoTarget | Answer::Exhausted => others.push(Other { row, flow: 0, at, event: Event::None }),
        }
        if let Some(h) = &mut book {
            h.call(&Call::Submit { target: r.target, packet: r.packet, moment: r.moment });
            match answer {
                Answer::Queued { flow, packet } => h.record(b"r,queued", &[at, flow as u64, packet]),
                Answer::Lost { flow } => h.record(b"r,lost", &[at, flow as u64]),
                Answer::Full { flow } => h.record(b"r,full", &[at, flow as u64]),
                Answer::NoTarget => h.record(b"r,no-target", &[at]),
                Answer::Exhausted => h.record(b"r,exhausted", &[]),
            }
        }
    }).ok_or("a row that is none of the loads'")?;
    let delivered = shaper.collect(LAST_MOMENT).unwrap_or_default();
    if let Some(h) = &mut book {
        h.call(&Call::Collect(LAST_MOMENT));
        h.delivered(shaper.now(), &delivered);
        h.end();
    }
    if delivered.len() < accepted.len() {
        hold(&accepted, &delivered, &mut others);
    }
    let mut out = Vec::with_capacity(64 + row as usize * 64);
    out.extend_from_slice(b"event,row,flow,packet,at,start,due\n");
    for d in &delivered {
        let (at, row, _) = accepted[d.packet as usize];
        out.extend_from_slice(b"out");
        put_list(&mut out, &[row as u64, d.flow as u64, d.packet, at, d.start, d.due]);
        out.push(b'\n');
    }
    for o in &others {
        let (row, flow) = (o.row as u64, o.flow as u64);
        let (word, fields, packet, gap): (&[u8; 4], usize, u64, &[u8]) = match o.event {
            Event::Held(packet) => (b"held", 3, packet, b","),
            Event::Lost => (b"lost", 2, 0, b",,"),
            Event::Full => (b"full", 2, 0, b",,"),
            Event::None => (b"none", 1, 0, b",,,"),
        };
        out.extend_from_slice(word);
        put_list(&mut out, &[row, flow, packet][..fields]);
        out.extend_from_slice(gap);
        put(&mut out, o.at);
        out.extend_from_slice(b",,\n");
    }
    Ok((out, book.map(|h| h.text)))
}

/// Accepted packets that the Collect did not give join the other lines, by row.
fn hold(accepted: &[(u64, u32, u32)], delivered: &[Delivery], others: &mut Vec<Other>) {
    let mut given = vec![false; accepted.len()];
    for d in delivered {
        given[d.packet as usize] = true;
    }
    for (packet, &(at, row, flow)) in accepted.iter().enumerate() {
        if !given[packet] {
            others.push(Other { row, flow, at, event: Event::Held(packet as u64) });
        }
    }
    others.sort_unstable_by_key(|o| o.row);
}
