"""The emulated links of a test in real and in simulated time, with their reports."""

from __future__ import annotations

import re
import signal
from abc import ABC, abstractmethod
from pathlib import Path
from typing import TYPE_CHECKING, Collection, Iterator, Optional

from hinge.border.programs import PIPE, begun, can_be_read
from hinge.command import Fault
from hinge.fault_lines import IS_LOST, Faults
from hinge.program import HINGE, audit_of
from hinge.testing.varied import VariedNetwork
from hingetulip.aio.options import Options
from hingetulip.aio.report import MOST_DROPPED
from hingetulip.records import Outcome

if TYPE_CHECKING:
    from hinge.net.running import Net

ADDRESS = re.compile(r"\b10\.\d+\.\d+\.\d+\b")
PATIENCE = 30  # s until a path is ready, and until it has ended


def audited(history: Path) -> str:
    """Returns dummynet's verdict on a history, or the reason why the audit failed."""
    try:
        return audit_of(str(history))
    except Fault as fault:
        return str(fault)


def records(history: Path) -> Iterator[list[str]]:
    """Yields the fields of each line in a history."""
    with open(history, encoding="utf-8") as file:
        for line in file:
            yield line.rstrip("\n").split(",")


def submissions(history: Path) -> Iterator[tuple[list[str], list[str]]]:
    """Yields two lists for each packet in a history: the fields of the call that submitted the packet, and of the reply."""
    call = [""]
    for record in records(history):
        if record[0] == "c":
            call = record
        elif record[0] == "r" and call[2:3] == ["submit"]:
            yield call, record


def dropped_in_history(history: Path) -> list[str]:
    """Returns a line for each packet in a history that wasn't queued, up to a report's limit, and a line with the number of the
    others."""
    lines = [
        f"  row {row:>5}, {int(reply[2]) / 1e9:.9f} s, {call[5]}:{call[8]} > {call[6]}:{call[9]}, {call[10]} bytes: {reply[1]}"
        for row, (call, reply) in enumerate(submissions(history), 1)
        if reply[1] != "queued"
    ]
    if len(lines) > MOST_DROPPED:
        return [*lines[:MOST_DROPPED], f"  and {len(lines) - MOST_DROPPED} more"]
    return lines


def unmet_cuts(history: Path) -> list[str]:
    """Returns a line for each cut in a net's transcript that lost no packet. A cut begins with a remark `# act,cut ..`, and then
    configures all its pipes at once with `plr 1`. Returns an empty list if the remarks don't match the configurations."""
    names = list[str]()  # the cuts' remarks
    losses = list[int]()  # each cut's number of lost packets
    cut_by = dict[str, int]()  # for each pipe in a cut, the cut's place in the lists
    call = [""]
    is_cutting = False  # whether the last line configured a cut, to which the next one may belong
    for record in records(history):
        if record[:2] == ["#", "act"] and record[2].startswith("cut "):
            names.append(record[2])
        elif record[2:3] == ["configure"] and record[3].startswith("pipe "):
            pipe = record[3].split()[1]
            is_cut = record[3].endswith(" plr 1")
            if is_cut and not is_cutting:
                losses.append(0)
            if is_cut:
                cut_by[pipe] = len(losses) - 1
            else:
                cut_by.pop(pipe, None)
            is_cutting = is_cut
        elif record[2:3] == ["submit"]:
            call = record
            is_cutting = False
        elif record[:2] == ["r", "lost"] and call[4] in cut_by:
            losses[cut_by[call[4]]] += 1
    if len(names) != len(losses):
        return []
    return [f"{name}: it met no packet" for name, count in zip(names, losses) if not count]


class Emulated(ABC):
    """Describes a test's emulated link for the report."""

    def __init__(self, history: Path, own: frozenset[str] = frozenset()) -> None:
        """Describes a link with a history; `own` contains the words of the test's own marks, which must have an effect."""
        self.history = history
        self.own = own
        self.told = ""  # the link's report at its end
        self.verdict: Optional[str] = None
        self.faults: list[str] = []  # exceptions that nobody caught

    def finish(self) -> None:
        """Ends the link and audits its history, unless an earlier call did."""
        if self.verdict is None:
            self.end()
            self.verdict = self.verdict or audited(self.history)

    def unmet(self) -> list[str]:
        """Returns a line for each fault, cut or word of the test's own marks that had no effect. In real time, the link must have
        ended before."""
        return self.unmet_words(self.own)

    def unmet_words(self, words: Collection[str]) -> list[str]:
        """Returns a line for each of these words of marks that had no effect."""
        if "link" not in words or (self.history.exists() and any(submissions(self.history))):
            return []
        return ["the mark link: no packet came to a link of the test"]

    def idle(self) -> list[str]:
        """Returns a warning for each part of a simulated network (a link's change or function, a route) that no packet met."""
        return []

    @abstractmethod
    def end(self) -> None:
        """Ends the link."""

    @abstractmethod
    def report(self) -> str:
        """Returns the report of the link."""


class UdpPath(Emulated):
    """Describes a UDP proxy in real time on the loopback interface, in front of a server. Clients send to `address`, a host and a
    port."""

    def __init__(self, server: str, there: str, back: str, seed: int, history: Path, own: frozenset[str] = frozenset()) -> None:
        super().__init__(history, own)
        self.seed = seed
        links = [f"pipe {number} config {Options(text)}".strip() for number, text in enumerate((there, back), 1)]
        by_seed = ["--seed", str(seed)] if any("plr" in line for line in links) else []
        words = ["udp", "0", server, *links, *by_seed, "--transcript", str(history)]
        self.process = begun([*HINGE, *words], stdout=PIPE, stderr=PIPE, text=True)
        self.address = self._ready()

    @property
    def port(self) -> int:
        return self.address[1]

    def _ready(self) -> tuple[str, int]:
        """Returns the address that the proxy prints when ready. RuntimeError: the proxy doesn't start in time."""
        assert self.process.stdout
        ready = can_be_read(self.process.stdout, PATIENCE)
        match = re.fullmatch(r"ready at (.*):(\d+)\n", self.process.stdout.readline() if ready else "")
        if match is None:
            self.process.kill()
            raise RuntimeError(f"no UDP path: {self.process.communicate()[1].strip()}")
        return match[1], int(match[2])

    def end(self) -> None:
        self.process.send_signal(signal.SIGTERM)
        self.told = self.process.communicate(timeout=PATIENCE)[1].strip()

    def report(self) -> str:
        return "\n".join([self.told, *dropped_in_history(self.history), closing(self.seed, self.verdict, self.history)])


class SimulatedPath(Emulated):
    """Describes a test's network in simulated time."""

    def __init__(self, net: VariedNetwork, history: Path, own: frozenset[str] = frozenset()) -> None:
        super().__init__(history, own)
        self.net = net
        self.faults = net.faults

    def end(self) -> None:
        try:
            self.told = self.net.report() + self.net.waiting()
        except Exception as fault:
            self.told = no_report(fault)
        self.net.close()

    def unmet(self) -> list[str]:
        return self.net.unmet_faults() + super().unmet()

    def unmet_words(self, words: Collection[str]) -> list[str]:
        lines = [f"the mark vary: {word} varied nothing: {why}" for word, why in self.net.unvaried().items() if word in words]
        if "link" in words and not any(link.came for link in self.net.unsaid):
            what = "no packet came to the links with its words" if self.net.unsaid else "no link of the test has its words"
            lines.append(f"the mark link: {what}")
        return lines

    def idle(self) -> list[str]:
        return self.net.idle() if self.net.chosen is None else []

    def is_disturbed(self) -> Optional[bool]:
        """Returns whether a link disturbed a packet: lost the packet, had a full queue or no target, doubled the packet, or delayed
        the packet by a jitter or a fault. A link with `copies` always counts as disturbed. None: no packet came."""
        links = self.net.links.values()
        successes, *others = [sum(link.outcomes[outcome] for link in links) for outcome in Outcome]
        if not successes and not any(others):
            return None
        has_copies = any(link.copies is not None or link.pipes for link in links)
        return any(others) or has_copies or bool(self.net.happened)

    def chosen(self) -> Faults:
        """Returns the faults of the run: the faults that an option or a search chose, or otherwise the links' losses and the seed's
        draws."""
        return Faults(*self.net.faults_met()) if self.net.chosen is None else self.net.chosen

    def report(self) -> str:
        lines = [self.told, closing(self.net.seed, self.verdict, self.history)]
        faults = self.chosen()
        path = self.history.with_suffix(".faults")
        path.write_text(str(faults), encoding="utf-8")
        if self.net.chosen is None:
            lines += [f"drawn: {fault}" for fault in faults if fault.kind != IS_LOST][:MOST_DROPPED]
            if faults:
                lines.append(f"all of this as faults: --link-faults {path}")
        else:
            lines += [f"fault: {fault}{': it came to no packet' if fault in self.net.unmet() else ''}" for fault in faults]
        return "\n".join(lines)


class NetOfTest(Emulated):
    """Describes a test's net of hosts. A net that never started counts as lawful."""

    def __init__(self, net: Net, own: frozenset[str] = frozenset()) -> None:
        super().__init__(net.history, own)
        self.net = net

    def unmet(self) -> list[str]:
        return super().unmet() + (unmet_cuts(self.history) if self.history.exists() else [])

    def unmet_words(self, words: Collection[str]) -> list[str]:
        lines = super().unmet_words(words)
        is_unsaid = "link" in words and not self.net.unsaid and not lines
        return lines + (["the mark link: no link of the test has its words"] if is_unsaid else [])

    def end(self) -> None:
        self.net.close()
        self.verdict = None if self.history.exists() else "lawful, since the net didn't begin"

    def named(self, line: str) -> str:
        """Returns a line with the names of hosts in place of their addresses."""
        names = {address: name for name, own in self.net.addresses().items() for address in own}
        return ADDRESS.sub(lambda result: names.get(result[0], result[0]), line)

    def report(self) -> str:
        if not self.history.exists():
            return self.net.told() or "the net didn't begin"
        changes = [f"  {change.seconds:.6f} s, changed: {change.line}" for change in self.net.obeyed]
        losses = [self.named(line) for line in dropped_in_history(self.history)]
        outputs = list[str]()
        for name in self.net.addresses():
            text = self.net.last_lines(name)
            if text:
                outputs.append(f"{name} printed last ({self.log(name)}):\n{text}")
        return "\n".join([self.net.told(), *changes, *losses, *outputs, closing(self.net.drawn_seed(), self.verdict, self.history)])

    def log(self, host: str) -> Path:
        return self.net.folder / "logs" / f"{host}.log"


def report_of_link(link: Emulated) -> str:
    """Ends a link; returns its report."""
    try:
        link.finish()
        return link.report()
    except Exception as fault:
        return no_report(fault)


def no_report(fault: Exception) -> str:
    """Returns the report for a link whose report fails. Such a failure mustn't end the whole session."""
    return f"no report: {type(fault).__name__}: {fault}"


def closing(seed: int, verdict: Optional[str], history: Path) -> str:
    """Returns the last line of a report: the seed, the verdict, and the command that shows the history."""
    return f"seed {seed}, {verdict}: hinge look {history}"
