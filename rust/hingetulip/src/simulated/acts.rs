//! Cuts and holds: when they begin and end, and what they met.
use super::faults::{spelled, Fault, What};
use super::traffic::Inner;
use crate::Result;

/// What begins or ends at a moment.
pub(super) enum Step {
    Begin(Fault),
    End(usize), // the number of a disturbance
}

/// A cut or a hold, and how many packets met it.
pub(super) struct Disturbance {
    what: String,
    links: Vec<usize>,
    is_cut: bool,
    pub met: u64,
}

impl Disturbance {
    /// What it met.
    pub(super) fn report(&self) -> String {
        let (no, s) = (if self.met == 0 { "no".into() } else { self.met.to_string() }, if self.met > 1 { "s" } else { "" });
        format!("{}: it met {no} packet{s}", self.what)
    }
}

impl Inner {
    /// The links to and from a host by its name or address, or the link with this name.
    fn links_of(&self, of: &str) -> std::result::Result<Vec<usize>, String> {
        let names: Vec<String> = if of.contains(" > ") {
            (0..self.links.len()).map(|link| self.name(link)).collect()
        } else {
            self.hosts.iter().map(|it| it.name.clone()).collect()
        };
        let is_of = |link: &usize| {
            let ends = [self.links[*link].near, self.links[*link].far].map(|it| &self.hosts[it]);
            self.name(*link) == of || ends.iter().any(|it| it.name == of || it.address.to_string() == of)
        };
        let links: Vec<usize> = (0..self.links.len()).filter(is_of).collect();
        if links.is_empty() { Err(format!("no links of {of:?}; there are {}", names.join(", "))) } else { Ok(links) }
    }

    /// A cut or a hold begins now.
    pub(super) fn disturb(&mut self, of: &str, is_cut: bool, lasting: u64) -> Result<std::result::Result<(), String>> {
        let (now, number) = (self.now(), self.disturbances.len());
        let links = match self.links_of(of) {
            Ok(links) => links,
            Err(text) => return Ok(Err(text)),
        };
        let seconds = spelled(lasting);
        let what = format!("{} of {of} at {:.6} s for {} s", if is_cut { "cut" } else { "hold" }, now as f64 / 1e9, &seconds[..seconds.len() - 1]);
        for link in &links {
            let link = &mut self.links[*link];
            let list = if is_cut { &mut link.cuts } else { &mut link.holds };
            list.push(number);
            let line = link.line();
            if is_cut {
                self.obey(&line)?;
            }
        }
        self.disturbances.push(Disturbance { what, links, is_cut, met: 0 });
        self.at(now.saturating_add(lasting), Step::End(number));
        Ok(Ok(()))
    }

    /// What begins or ends at a moment.
    pub(super) fn at(&mut self, moment: u64, step: Step) {
        self.count += 1;
        self.steps.insert((moment, self.count), step);
        self.change();
    }

    /// Begins and ends what is due.
    pub(super) fn act(&mut self, now: u64) -> Result<()> {
        while let Some(key) = self.steps.keys().next().copied().filter(|it| it.0 <= now) {
            match self.steps.remove(&key) {
                Some(Step::End(number)) => self.end(number)?,
                Some(Step::Begin(Fault { of, what: What::Cut(_, lasting) })) => drop(self.disturb(&of, true, lasting)?),
                Some(Step::Begin(Fault { of, what: What::Hold(_, lasting) })) => drop(self.disturb(&of, false, lasting)?),
                _ => {}
            }
        }
        Ok(())
    }

    fn end(&mut self, number: usize) -> Result<()> {
        for link in self.disturbances[number].links.clone() {
            let state = &mut self.links[link];
            state.cuts.retain(|it| *it != number);
            state.holds.retain(|it| *it != number);
            let line = state.line();
            if self.disturbances[number].is_cut {
                self.obey(&line)?;
            } else {
                self.release(link)?;
            }
        }
        Ok(())
    }

    /// What waits before a link enters it, if no hold lasts.
    fn release(&mut self, link: usize) -> Result<()> {
        while self.links[link].holds.is_empty() {
            match self.links[link].held.pop_front() {
                Some(it) => self.take(link, it)?,
                None => break,
            }
        }
        Ok(())
    }

    /// The cuts, holds and faults that met nothing, a line each.
    pub(super) fn unmet(&self) -> Vec<String> {
        let mut lines: Vec<String> = self.disturbances.iter().filter(|it| it.met == 0).map(Disturbance::report).collect();
        for fault in self.chosen.iter().flat_map(|it| &it.0) {
            let is_met = match fault.what {
                What::Lost(packet) | What::Twice(packet) | What::Late(packet, _) => {
                    (0..self.links.len()).any(|link| self.name(link) == fault.of && self.links[link].came >= packet)
                }
                What::Cut(moment, _) | What::Hold(moment, _) => moment <= self.now && self.links_of(&fault.of).is_ok(),
            };
            lines.extend((!is_met).then(|| format!("{fault}: it met nothing")));
        }
        lines
    }
}

impl Drop for Inner {
    /// A run whose cuts, holds and faults met nothing hasn't shown what it should.
    fn drop(&mut self) {
        let lines = if self.is_judged || std::thread::panicking() { Vec::new() } else { self.unmet() };
        assert!(lines.is_empty(), "what met nothing:\n{}", lines.join("\n"));
    }
}
