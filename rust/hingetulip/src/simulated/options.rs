//! The words of a link, as hingetulip_words of Python reads them. The library judges the values.
use crate::{Error, Refused, Result, Shaper};

const MOST_JITTER: u32 = 1000; // ms
const OTHERS: &str = "write 10Mbit/s, 20ms, queue 100, loss 1%, jitter 5ms or duplicate 1%";
const WHOLE_RUN: &str = "of a whole run; give it when the link is made";
const LOSS: &str = "a loss is a percentage here, as loss 1%, and plr a part of one";
const JITTER: &str = "write jitter 5ms, a whole number from 1ms to 1000ms";
const SHARE: &str = "write duplicate 1%";
const MASK: &str = "write mask src-ip 0xffffffff, or dst-ip, src-port, dst-port, proto, all";
const TWICE: &str = "a second word of its kind; leave one of them out";
const FIELDS: [&str; 5] = ["src-ip", "dst-ip", "src-port", "dst-port", "proto"];
const VALUES: [(&str, &str); 5] = [
    ("bw", "write 8Mbit/s, 300Kbit/s or 1MByte/s"),
    ("delay", "write whole milliseconds, as 20 or 20ms, up to 3600000"),
    ("queue", "write packets, as 50 (1 to 10000), or 64Kbytes (1 to 1024)"),
    ("plr", "write a rate from 0 to 1, as 0.01 for 1 %"),
    ("buckets", "write 16 to 65536"),
];

/// What the words of a link ask for.
#[derive(Debug, Clone, Default)]
pub(super) struct Options {
    named: Vec<(String, String)>, // by ipfw's names
    /// The most ms by which a packet is late.
    pub jitter: u32,
    /// The chance of 2^31 that a packet comes twice.
    pub duplicate: u32,
}

impl Options {
    /// Reads words from left to right. Jitter and duplicates belong to a whole run, and no change has them.
    pub(super) fn read(words: &str, is_change: bool) -> Result<Self> {
        let text = words.split('#').next().unwrap_or_default();
        let mut reader = Reader { rest: text.split_whitespace().collect(), options: Self::default(), typed: Vec::new(), is_change };
        reader.rest.reverse();
        while let Some(word) = reader.rest.pop() {
            reader.read_one(word)?;
        }
        Ok(reader.options)
    }

    /// A pipe's line with these options.
    pub(super) fn line(&self, pipe: u16) -> String {
        self.named.iter().fold(format!("pipe {pipe} config"), |line, (name, value)| format!("{line} {name} {value}"))
    }

    /// The same options with another loss rate.
    pub(super) fn losing(&self, rate: &str) -> Self {
        let mut other = self.clone();
        other.named.retain(|it| it.0 != "plr");
        other.named.push(("plr".into(), rate.into()));
        other
    }

    fn value(&self, name: &str) -> Option<&str> {
        self.named.iter().find(|it| it.0 == name).map(|it| &*it.1)
    }

    /// Whether no word loses a packet.
    pub(super) fn loses_none(&self) -> bool {
        self.value("plr").map_or(true, |rate| rate.parse() == Ok(0.0))
    }

    /// The delay, ns.
    pub(super) fn delay(&self) -> u64 {
        self.value("delay").map_or(0, |it| it.trim_end_matches("ms").parse::<u64>().unwrap_or(0) * 1_000_000)
    }
}

struct Reader<'a> {
    rest: Vec<&'a str>, // the next word last
    options: Options,
    typed: Vec<(&'a str, String)>, // each kind, and what was typed last
    is_change: bool,
}

impl<'a> Reader<'a> {
    fn read_one(&mut self, word: &'a str) -> Result<()> {
        let lower = word.to_ascii_lowercase();
        if word == "mask" {
            let fields = self.fields()?;
            self.put("mask", &fields, &format!("mask {fields}"))
        } else if let Some((name, advice)) = VALUES.iter().find(|it| it.0 == word) {
            let value = self.value_of(word, advice)?;
            self.put_value(name, value, &format!("{word} {value}"))
        } else if behind_digits(&lower).map_or(false, |it| is_unit(it) && it.ends_with("/s")) {
            self.put_value("bw", word, word)
        } else if behind_digits(word) == Some("ms") {
            self.put_value("delay", word, word)
        } else if word == "loss" {
            let value = self.value_of(word, LOSS)?;
            let part = part_of_one(value).ok_or_else(|| refused(&format!("loss {value}"), LOSS))?;
            self.put("plr", &part, &format!("loss {value}"))
        } else if word == "jitter" || word == "duplicate" {
            self.read_extra(word)
        } else {
            Err(refused(&self.unknown(word), OTHERS))
        }
    }

    /// A word that is none of a link, with the one that belongs to it.
    fn unknown(&self, word: &str) -> String {
        let (next, before) = (self.rest.last().copied().unwrap_or_default(), self.typed.last().map_or("", |it| &*it.1));
        let before = before.rsplit(' ').next().unwrap_or_default();
        let is_number = |text: &str| behind_digits(text) == Some("");
        let is_joined = is_number(word) && is_unit(&next.to_ascii_lowercase())
            || matches!(next, "loss" | "duplicate") && part_of_one(word).is_some()
            || matches!(word, "rtt" | "corrupt") && !next.is_empty();
        if is_joined {
            format!("{word} {next}")
        } else if is_number(before) && is_unit(&word.to_ascii_lowercase()) {
            format!("{before} {word}")
        } else {
            word.into()
        }
    }

    fn value_of(&mut self, word: &str, advice: &'static str) -> Result<&'a str> {
        self.rest.pop().ok_or_else(|| refused(word, advice))
    }

    fn note(&mut self, name: &'a str, typed: &str) -> Result<()> {
        let is_second = self.typed.iter().any(|it| it.0 == name);
        self.typed.push((name, typed.into()));
        if is_second { Err(refused(typed, TWICE)) } else { Ok(()) }
    }

    fn put(&mut self, name: &'a str, value: &str, typed: &str) -> Result<()> {
        self.note(name, typed)?;
        self.options.named.push((name.into(), value.into()));
        Ok(())
    }

    /// A value that the library takes as that of an option.
    fn put_value(&mut self, name: &'static str, value: &str, typed: &str) -> Result<()> {
        let advice = VALUES.iter().find(|it| it.0 == name).map_or(MASK, |it| it.1);
        judged(name, value).map_err(|_| refused(typed, advice))?;
        self.put(name, value, typed)
    }

    /// The fields of a mask, with their values.
    fn fields(&mut self) -> Result<String> {
        let mut fields: Vec<&str> = Vec::new();
        while let Some(field) = self.rest.last().copied().filter(|it| *it == "all" || FIELDS.contains(it)) {
            fields.extend(self.rest.pop());
            if field != "all" {
                let value = self.value_of(field, MASK)?;
                judged("mask", &format!("{field} {value}")).map_err(|_| refused(&format!("{field} {value}"), MASK))?;
                fields.push(value);
            }
        }
        let next = self.rest.last().map_or_else(String::new, |it| format!(" {it}"));
        if fields.is_empty() { Err(refused(&format!("mask{next}"), MASK)) } else { Ok(fields.join(" ")) }
    }

    /// What a run does beside dummynet.
    fn read_extra(&mut self, word: &'a str) -> Result<()> {
        if self.is_change {
            return Err(refused(word, WHOLE_RUN));
        }
        let advice = if word == "jitter" { JITTER } else { SHARE };
        let value = self.value_of(word, advice)?;
        let typed = format!("{word} {value}");
        self.note(word, &typed)?;
        let amount = if word == "jitter" {
            let ms = value.strip_suffix("ms").filter(|it| behind_digits(it) == Some("")).and_then(|it| it.parse().ok());
            ms.filter(|ms| (1..=MOST_JITTER).contains(ms))
        } else {
            let share = part_of_one(value).and_then(|_| value.trim_end_matches('%').parse::<f64>().ok());
            share.map(|share| (share * f64::from(1_u32 << 31) / 100.0).round() as u32)
        };
        let amount = amount.ok_or_else(|| refused(&typed, advice))?;
        *(if word == "jitter" { &mut self.options.jitter } else { &mut self.options.duplicate }) = amount;
        Ok(())
    }
}

fn refused(word: &str, advice: &'static str) -> Error {
    Error::Word(Refused::new(word, advice))
}

/// What the library says of a value.
fn judged(name: &str, value: &str) -> Result<()> {
    Shaper::new()?.configure(&format!("pipe 1 config {name} {value}"))
}

/// What stands behind the digits at the beginning of a word; none without digits.
fn behind_digits(word: &str) -> Option<&str> {
    let rest = word.trim_start_matches(|it: char| it.is_ascii_digit());
    Some(rest).filter(|rest| rest.len() < word.len())
}

/// Whether a word in lower case is a unit of a bandwidth, of a time or of a share.
fn is_unit(word: &str) -> bool {
    let bare = word.strip_prefix(['k', 'm', 'g']).unwrap_or(word);
    let bare = bare.strip_suffix("/s").or_else(|| bare.strip_suffix("ps")).unwrap_or(bare);
    matches!(bare, "bit" | "bits" | "byte" | "bytes" | "b" | "bps") || matches!(word, "ms" | "us" | "ns" | "s" | "sec" | "msec" | "usec" | "%")
}

/// A percentage as the part of one that `plr` takes: its point is two places further left.
fn part_of_one(text: &str) -> Option<String> {
    let number = text.strip_suffix('%')?;
    let (whole, fraction) = number.split_once('.').unwrap_or((number, "0"));
    if [whole, fraction].iter().any(|it| behind_digits(it) != Some("")) {
        return None;
    }
    let digits = format!("{whole:0>3}{fraction}");
    let (whole, fraction) = digits.split_at(digits.len() - fraction.len() - 2);
    let whole = whole.trim_start_matches('0');
    let part = format!("{}.{fraction:.18}", if whole.is_empty() { "0" } else { whole });
    let part = part.trim_end_matches('0').trim_end_matches('.');
    part.parse().map_or(false, |it: f64| it <= 1.0).then(|| part.into())
}

/// The table has Python's answers, as tools/gate/crate.py checks: lines with jitter and duplicates, or the word that is refused.
#[cfg(test)]
#[test]
fn words_mean_what_they_mean_in_python() {
    for row in include_str!("../../tests/words.txt").lines() {
        let (words, answer) = row.split_once(" => ").unwrap();
        let read = Options::read(words, false);
        let own = match &read {
            Ok(it) => format!("{}; {} {}", it.line(1), it.jitter, it.duplicate),
            Err(Error::Word(refused)) => format!("'{}'", refused.word()),
            Err(other) => other.to_string(),
        };
        assert_eq!(own, answer, "{words}");
        assert!(read.is_err() || Shaper::new().unwrap().configure(answer.split(';').next().unwrap()).is_ok(), "{words}");
    }
    assert_eq!(Options::read("20ms jitter 5ms", true).unwrap_err().to_string(), format!("'jitter': {WHOLE_RUN}"));
    assert_eq!(Options::read("los 5%", false).unwrap_err().to_string(), format!("'los': {OTHERS}"));
}
