//! Faults that are chosen, by the lines that Python, `hinge run --faults` and `pytest --link-faults` read.
use super::net::Net;
use std::fmt;
use std::str::FromStr;

const NS: f64 = 1e9;
const LATEST: u64 = 3_600_000; // ms that a pipe can delay

/// What happens to a packet of a link, by its number from 1, or to a host or link from a moment on, ns.
#[derive(Debug, Clone, Copy, PartialEq, Eq, Hash)]
pub(super) enum What {
    Lost(u64),
    Twice(u64),
    Late(u64, u64), // ms
    Cut(u64, u64),
    Hold(u64, u64),
}

/// A fault, whose text is its line: `client > server packet 3 lost`, `twice` or `late 80ms`, `at 1.5s cut server 2s` or `hold`.
#[derive(Debug, Clone, PartialEq, Eq, Hash)]
pub struct Fault {
    pub(super) of: String,
    pub(super) what: What,
}

/// A line isn't a fault: its text, and what to write.
#[derive(Debug, Clone, PartialEq, Eq)]
pub struct NoFault(String);

impl fmt::Display for NoFault {
    fn fmt(&self, to: &mut fmt::Formatter<'_>) -> fmt::Result {
        let ways = "`client > server packet 3 lost`, `twice` or `late 80ms`, or `at 1.5s cut server 2s` or `hold`";
        write!(to, "{:?}: no fault of this crate, or one that a line before says; write {ways}", self.0)
    }
}

impl std::error::Error for NoFault {}

/// Faults, one a line; comments begin with `#`.
#[derive(Debug, Clone, PartialEq, Eq, Default)]
pub struct Faults(pub(super) Vec<Fault>);

impl Faults {
    /// How many there are.
    #[must_use]
    pub fn len(&self) -> usize {
        self.0.len()
    }

    /// Whether there are none.
    #[must_use]
    pub fn is_empty(&self) -> bool {
        self.0.is_empty()
    }
}

/// A time of digits, a point and a unit, in ns.
fn time(text: &str) -> Option<u64> {
    let (number, unit) = text.strip_suffix("ms").map(|it| (it, 1e6)).or_else(|| text.strip_suffix('s').map(|it| (it, NS)))?;
    let is_right = number.starts_with(|it: char| it.is_ascii_digit()) && number.chars().all(|it| it.is_ascii_digit() || it == '.');
    number.parse::<f64>().ok().filter(|it| is_right && *it < NS).map(|it| (it * unit).round() as u64)
}

fn read(line: &str) -> Option<Fault> {
    if let Some(rest) = line.strip_prefix("at ") {
        let mut words = rest.splitn(3, ' ');
        let (moment, kind, (of, lasting)) = (time(words.next()?)?, words.next()?, words.next()?.rsplit_once(' ')?);
        let lasting = time(lasting).filter(|it| *it > 0)?;
        let what = match kind {
            "cut" => What::Cut(moment, lasting),
            "hold" => What::Hold(moment, lasting),
            _ => return None,
        };
        return Some(Fault { of: of.into(), what });
    }
    let (link, rest) = line.rsplit_once(" packet ").filter(|it| it.0.contains(" > "))?;
    let (number, kind) = rest.split_once(' ')?;
    let number = number.parse().ok().filter(|it| *it > 0 && number.bytes().all(|it| it.is_ascii_digit()))?;
    let what = match kind {
        "lost" => What::Lost(number),
        "twice" => What::Twice(number),
        _ => {
            let ms = kind.strip_prefix("late ")?.strip_suffix("ms")?.parse().ok()?;
            What::Late(number, Some(ms).filter(|ms| (1..=LATEST).contains(ms))?)
        }
    };
    Some(Fault { of: link.into(), what })
}

/// As 1.5s.
pub(super) fn spelled(ns: u64) -> String {
    let text = format!("{:.9}", ns as f64 / NS);
    format!("{}s", text.trim_end_matches('0').trim_end_matches('.'))
}

impl fmt::Display for Fault {
    fn fmt(&self, to: &mut fmt::Formatter<'_>) -> fmt::Result {
        let of = &self.of;
        match self.what {
            What::Lost(number) => write!(to, "{of} packet {number} lost"),
            What::Twice(number) => write!(to, "{of} packet {number} twice"),
            What::Late(number, ms) => write!(to, "{of} packet {number} late {ms}ms"),
            What::Cut(moment, lasting) => write!(to, "at {} cut {of} {}", spelled(moment), spelled(lasting)),
            What::Hold(moment, lasting) => write!(to, "at {} hold {of} {}", spelled(moment), spelled(lasting)),
        }
    }
}

impl FromStr for Faults {
    type Err = NoFault;

    fn from_str(text: &str) -> Result<Self, NoFault> {
        let mut faults = Self::default();
        for line in text.lines().map(|line| line.split('#').next().unwrap_or_default().trim()).filter(|line| !line.is_empty()) {
            let fault = read(line).filter(|fault| !faults.0.contains(fault)).ok_or_else(|| NoFault(line.into()))?;
            faults.0.push(fault);
        }
        Ok(faults)
    }
}

impl fmt::Display for Faults {
    fn fmt(&self, to: &mut fmt::Formatter<'_>) -> fmt::Result {
        self.0.iter().try_for_each(|it| writeln!(to, "{it}"))
    }
}

/// The fewest of some faults with which a run fails, and fails no more by leaving out any one of them; none if it doesn't fail by these
/// alone. `fails` runs a net, and returns whether it fails in the way that is looked for.
pub fn least(seed: u64, faults: &Faults, mut fails: impl FnMut(&Net) -> bool) -> Option<Faults> {
    let mut fails = |faults: &Faults| Net::tried(seed, Some(faults)).map_or(false, |net| fails(&net));
    let (mut faults, mut before) = (faults.clone(), None);
    if !fails(&faults) {
        return None;
    }
    while before != Some(faults.len()) {
        before = Some(faults.len());
        faults = left_out(faults, &mut fails);
    }
    Some(faults)
}

/// The faults without those that can go, many at a time before single ones, and the last first, since those behind the failure do nothing.
fn left_out(mut faults: Faults, fails: &mut impl FnMut(&Faults) -> bool) -> Faults {
    let (mut size, mut end) = (faults.len(), faults.len());
    while size > 0 {
        let mut fewer = faults.clone();
        fewer.0.drain(end.saturating_sub(size)..end);
        end = end.saturating_sub(size);
        if fails(&fewer) {
            faults = fewer;
        }
        if end == 0 {
            size = (size / 2).min(faults.len());
            end = faults.len();
        }
    }
    faults
}

/// The first seed by which a run fails, and the fewest of its faults with which it does. Where it fails by these alone, the faults are
/// those that [`Net::with_faults`] takes; else they are all that the seed drew.
pub fn search(seeds: impl IntoIterator<Item = u64>, mut fails: impl FnMut(&Net) -> bool) -> Option<(u64, Faults)> {
    for seed in seeds {
        let net = Net::tried(seed, None).ok()?;
        if fails(&net) {
            let faults = net.faults();
            return Some((seed, least(seed, &faults, fails).unwrap_or(faults)));
        }
    }
    None
}
