"""The plan: the text that tells the program hinge-link what to emulate, with a line for each item. hosts/link/plan.c lists the
lines' forms. This module reads files, and makes no other system call.

A way is one direction of a link. Way 0 is up, from the client through pipe 1, and way 1 is down, from the server through pipe 2. A
second link uses ways 2 and 3 and pipes 3 and 4, and so on. The words for a link always call its pipes 1 and 2."""

from __future__ import annotations

import gc
import re
from collections import Counter
from contextlib import contextmanager
from io import StringIO
from typing import TYPE_CHECKING, Iterable, Iterator, Optional, Sequence

from hinge.arguments import is_number
from hinge.run.changes import Bandwidths, Change, Changes, Happening, Outage
from hinge.run.options import MOST
from hinge.run.traces import MAHIMAHI_BYTES, MOST_BINS, MS, Moments, counted, read_trace, spelled_moments
from hinge.run.verdict import Awaited
from hinge.run.words import Target, Wrong, bare, configures, with_plan_pipes, placed, read_once, target_of, with_bandwidth
from hingetulip_words.link import Extra, LinkWords, Place, WordError, refusal_of_change
from hingetulip_words.values import SHARES

if TYPE_CHECKING:
    from hinge.events.kinds import Event, NewWords, TimedEvent

TRACE_BIN = 100 * 10**6  # ns, unless --bin sets a length
LAST_PIPE = 65535
FIRST_BEHIND_MAIN = 2**31  # the number of the first cut whose moment counts from the main command's start


@contextmanager
def uncollected() -> Iterator[None]:
    """Turns off the garbage collector, which would scan long lists of events repeatedly, although they contain no cycles."""
    was_enabled = gc.isenabled()
    gc.disable()
    try:
        yield
    finally:
        if was_enabled:
            gc.enable()


def pipes_of_queue(line: str) -> list[str]:
    """Returns the number of the pipe that a queue's line names; an empty list for other lines."""
    if not re.match("(ipfw )?queue ", line):
        return []
    return re.findall(r"\bpipe (\d+)\b", line)


class Plan:
    """Collects what hinge-link is to emulate, and writes the plan's text."""

    def __init__(self, longest: int = MAHIMAHI_BYTES, links: int = 1) -> None:
        """Creates a plan for `links` links, with packets of at most `longest` bytes."""
        self.ways = 2 * links
        self.is_noted = False  # whether the plan keeps remarks
        self.remarks = StringIO()  # the words of the command line and of its files, for `hinge look`
        self.moments: list[tuple[int, str]] = []  # each event's moment in ns and its text, for the verdict
        self.chosen: list[tuple[int, int]] = []  # way and number of each packet that a fault or model names; a range's first packet
        self.configured: list[str] = []  # configuration lines for the run's beginning, in order
        self.rest: list[str] = []  # the plan's lines for rules, models, faults and moments of traces
        self.decided: dict[int, str] = {}  # by ways, the name of the model that decides about losses
        self.current: dict[Target, str] = {}  # the last configuration line of each pipe and queue at the run's beginning
        self.longest = longest
        self.changes = Changes(longest)  # their moments count from the links' start
        self.behind_main = Changes(longest, FIRST_BEHIND_MAIN)  # their moments count from the main command's start
        # By ways: jitter and so on, and the pipes of the second pass, of which jitter's are the first.
        self.extras: dict[int, tuple[Extra, list[int]]] = {}
        self.copied: set[int] = set()  # the ways that packets may enter twice
        self.losses: dict[int, str] = {}  # by ways, the last loss rate in the words of the command line or of a change
        self.queues_without_loss: set[Target] = set()  # the queues that have a line without `plr`
        self.masked_pipes: set[int] = set()  # the pipes that have a line with a mask
        self.queues_of_pipe: Counter[str] = Counter()  # how many lines of queues name each pipe
        self.targets: dict[int, set[Target]] = {}  # by ways, the pipes and queues to which rules send packets
        self.rules: list[str] = []  # for each of the rules' lines in the plan, the words that name the rule
        self.rule_lines: set[str] = set()  # the rules' lines in the plan
        self.events: list[TimedEvent] = []  # the events that change the link, with moments from the links' start
        self.last_free = LAST_PIPE  # the highest number that no pipe for second passes has
        self.has_moments = False  # whether a trace contains mahimahi's moments
        self.has_bins = False  # whether such moments are counted over bins

    def words(self, way: int, link: LinkWords) -> None:
        """Adds the properties in a way's words that the pipe's configuration line can't express, such as jitter; notes a loss."""
        self.note_loss(way, link)
        self.add_extra(way, link.extra)

    def note_loss(self, way: int, link: LinkWords) -> None:
        """Notes the loss rate in a way's words, if any. Wrong: rules send packets of the way to a queue whose line lacks `plr`."""
        loss = link.options.get("plr", "0")
        if float(loss):
            self.refuse_unlost(loss, self.targets.get(way, set()) & self.queues_without_loss)
            self.losses[way] = loss

    def first_options(self, way: int) -> dict[str, str]:
        """Returns the options of a way's pipe at the run's beginning; empty if the pipe's line is wrong, which another check
        reports."""
        line = self.current.get(Target("pipe", way + 1), "")
        try:
            return read_once(line.partition(" config")[2], Place.DUMMYNET).options
        except WordError:
            return {}

    def refuse_left_out(self, way: int, words: LinkWords, event: NewWords) -> None:
        """Checks that a change names every option that the link has at the run's beginning. Wrong: the change leaves out an
        option."""
        options = self.first_options(way)
        side = event.side
        if not side and any(str(self.first_options(other)) != str(options) for other in event.ways):
            side = "up" if way == event.ways[0] else "down"
        form = " ".join(word for word in (event.ends, side, "{}") if word)
        reason = refusal_of_change(options, words.options, form)
        if reason:
            raise Wrong(f"'{event.words}': {reason}")

    def note_line(self, line: str) -> None:
        """Notes a queue's line without `plr`, or a pipe's line with a mask, and counts each pipe's lines of queues. Wrong: a way
        whose words contain a loss sends packets to the queue, or an outage delays the pipe's packets."""
        target = target_of(line)
        self.queues_of_pipe.update(pipes_of_queue(line))
        if target.kind == "queue" and configures(line) and "plr" not in line.split():
            for way, targets in self.targets.items():
                self.refuse_unlost(self.losses.get(way, "0"), targets & {target})
            self.queues_without_loss.add(target)
        elif target.kind == "pipe" and "mask" in line.split():
            self.masked_pipes.add(target.number)
            if target.number in self.changes.outages or target.number in self.behind_main.outages:
                self.refuse_unheld(target.number, "write `outage LENGTH lossy`")

    @staticmethod
    def refuse_unlost(loss: str, queues: set[Target]) -> None:
        """Checks that a way's loss rate misses no packet. Wrong: rules send packets of the way to `queues`, whose lines lack
        `plr`."""
        if float(loss) and queues:
            raise Wrong(
                f"the link's loss isn't that of a queue, to which a rule sends packets: write `plr {loss}`, or `plr 0`, in the queue's line"
            )

    def add_extra(self, way: int, extra: Extra) -> None:
        """Adds a way's jitter, duplicates and flipped bits."""
        if extra != Extra():
            self.extras[way] = extra, self.second_pipes(range(extra.pipes))
            if extra.duplicate:
                self.copied.add(way)

    def second_pipes(self, delays: Sequence[int]) -> list[int]:
        """Configures a pipe for each delay in ms, and returns the pipes' numbers, which are the highest free ones. A packet enters
        such a pipe after the way's own pipe, in a second pass. Wrong: another line uses such a number."""
        pipes = list(range(self.last_free - len(delays) + 1, self.last_free + 1))
        others = {target.number for target in self.current if target.kind == "pipe"}
        conflicts = others.intersection(pipes)
        if pipes and (pipes[0] <= self.ways or conflicts):
            raise Wrong(f"pipe {max(conflicts, default=pipes[0])} is needed for jitter or late packets, and is another's")
        self.last_free -= len(pipes)
        for delay, pipe in zip(delays, pipes):
            delay_words = f" delay {delay}" if delay else ""
            self.link(f"pipe {pipe} config{delay_words}")
        return pipes

    def noted(self, option: str, lines: Iterable[str]) -> Iterator[str]:
        """Yields the lines of an option or of its file, and notes each line as a remark."""
        for number, line in enumerate(lines, 1):
            self.note(option, number, line)
            yield line

    def note(self, option: str, number: int, line: str) -> None:
        """Notes a line of an option as a remark for `hinge look`, unless the plan keeps no remarks or the line is empty."""
        text = bare(line) if self.is_noted else ""
        if text:
            self.remarks.write(f"remark asked,{option},{number},{text}\n")

    def faults(self, path: str, names: Iterable[str], is_net: bool = False) -> None:
        """Adds the faults in a file; see `add_faults`."""
        from hinge.run.plan_faults import add_faults

        add_faults(self, path, names, is_net)

    def add_event(self, event: Event, moment: int, text: str) -> None:
        """Adds an event of a run at a moment in ns; `text` names the event in the run's verdict."""
        from hinge.events.kinds import Moment, TimedEvent, kept

        self.changes.add(self.happenings(event, moment, self.changes))
        self.events.append(TimedEvent(Moment(moment, False, ""), kept(event)))
        self.moments.append((moment, text))

    def awaited(self) -> Awaited:
        """Returns the requests in the run's words, which the run's verdict compares with the counts."""
        queues = [f"queue {queue.number}" for queue in self.unruled()]
        return Awaited(self.moments, self.chosen, self.events_without_effect(), self.rules, queues)

    def events_without_effect(self) -> list[tuple[TimedEvent, TimedEvent]]:
        """Returns each event that changes nothing, with the other event that is the cause."""
        if not self.events:
            return []
        from hinge.events.idle import idle_events

        return [*idle_events(self.events, True)]

    def unruled(self) -> list[Target]:
        """Returns the queues to which no rule sends a packet."""
        rule_targets = set[Target]().union(*self.targets.values())
        return [target for target in self.current if target.kind == "queue" and target not in rule_targets]

    def extra_lines(self, seed: int) -> list[str]:
        """Returns the plan's lines for jitter, duplicates and flipped bits."""
        lines = []
        for way, (extra, pipes) in self.extras.items():
            if pipes:
                lines.append(f"jitter {way} {pipes[0]} {max(1, extra.pipes)} {seed}")
            chances = {word: getattr(extra, word) for word in SHARES}
            lines += [f"{word} {way} {chance} {seed}" for word, chance in chances.items() if chance]
        return lines

    def link(self, line: str, link: int = 0) -> None:
        """Adds a configuration line of a link, which is counted from 0; skips an empty line or a comment."""
        line = with_plan_pipes(bare(line), link)
        if line:
            self.configured.append(line)
            target = target_of(line)
            self.queues_of_pipe.subtract(pipes_of_queue(self.current.get(target, "")))
            self.current[target] = line
            self.note_line(line)

    def way_of(self, target: Target) -> Optional[int]:
        """Returns the way whose packets enter a pipe, or a queue's pipe; None for a pipe that belongs to no way."""
        number = target.number
        if target.kind == "queue":
            words = self.current.get(target, "").split()
            pipe = words[words.index("pipe") + 1] if "pipe" in words[:-1] else ""
            number = int(pipe) if is_number(pipe) else 0
        return number - 1 if 1 <= number <= self.ways else None

    def rule(self, text: str, link: int = 0, said: str = "") -> None:
        """Adds a rule that sends packets to a pipe or queue; `said` names the rule in the verdict. Wrong: the text isn't a rule,
        repeats a rule, or doesn't say the way if the target leaves that open; or the target isn't configured, or the queue loses
        nothing."""
        from hinge.run.rules import WayRule

        rule = WayRule(text)
        if rule.target not in self.current:
            raise Wrong(f"--map {text}: {rule.target.kind} {rule.target.number} isn't configured")
        way = self.way_of(rule.target) if rule.way is None else 2 * link + rule.way
        if way is None:
            raise Wrong(f"--map {text}: say `up` or `down`, since {rule.target.kind} {rule.target.number} isn't of pipe 1 or 2")
        lines = rule.lines(way)
        if self.rule_lines.issuperset(lines):
            raise Wrong(f"--map {text}: the same rule stands before it; leave one of them out")
        self.rest += lines
        self.rule_lines.update(lines)
        self.rules += [said or f"--map {text}"] * len(lines)
        self.targets.setdefault(way, set()).add(rule.target)
        self.refuse_unlost(self.losses.get(way, "0"), {rule.target} & self.queues_without_loss)

    def loss(self, text: str, link: int = 0) -> None:
        """Adds a loss model for packets of a link, which is counted from 0. Wrong: another model decides about the same packets."""
        from hinge.loss import loss_lines, model_name

        lines = loss_lines(text, link)
        if "list:" in text:
            first_packets = map(int, re.findall(r"(\d+)(?:-\d+)?", text))
            self.chosen += [(way, packet) for packet in first_packets for way in lines]
        if any(self.decided.get(way, "faults") != "faults" for way in lines):
            raise Wrong(f"--loss {text}: a second model for the same packets; write one of them")
        self.rest += lines.values()
        self.decided |= dict.fromkeys(lines, model_name(text))

    def lossy(self, line: str) -> str:
        """Returns a configuration line, with `plr 0.5` if a loss model or faults decide about the way's packets: these give each
        packet the least or the greatest random word, of which only the least then means a loss."""
        is_decided = self.decided and configures(line) and self.way_of(target_of(line)) in self.decided
        return f"{line} plr 0.5" if is_decided and "plr" not in line.split() else line

    def refuse_unheld(self, pipe: int, hint: str) -> None:
        """Checks that an outage of a pipe can delay all packets of its way; `hint` ends the message. Wrong: rules send packets to
        another pipe or queue, or a mask parts the pipe's packets."""
        others = [target for target in self.targets.get(pipe - 1, ()) if target != Target("pipe", pipe)]
        reasons = [f"rules send packets to {target.kind} {target.number}" for target in others]
        if pipe in self.masked_pipes:
            reasons.append("a mask parts its packets")
        if reasons:
            raise Wrong(f"{reasons[0]}, which an outage doesn't hold: {hint}")

    def happenings(self, event: Event, moment: int, changes: Changes) -> list[Happening]:
        """Returns what the links do for an event at a moment in ns; `changes` numbers the event's cuts. Wrong: a pipe isn't
        configured, the event leaves out an option of the link, or an outage can't delay all packets."""
        from hinge.events.kinds import Heal, NewLine, NewWords

        if isinstance(event, NewLine):
            line = with_plan_pipes(event.line, event.ways[0] // 2)
            self.note_line(line)
            return [Change(moment, line)]
        if isinstance(event, NewWords):
            return self.new_words(event, moment)
        pipes = sorted(way + 1 for way in event.ways)
        new = list[Happening]()
        port = f" {event.port.protocol} {event.port.number}" if event.port else ""
        for pipe in pipes:
            if Target("pipe", pipe) not in self.current:
                raise Wrong(f"pipe {pipe} isn't configured")
            if isinstance(event, Heal):
                new.append(Change(moment, f"heal {pipe}{port}"))
            elif event.ending:
                new += changes.cut(moment, event.length, pipe, port)
            else:
                self.refuse_unheld(pipe, "write `outage LENGTH lossy`")
                new.append(Outage(moment, event.length, pipe))
        return new

    def new_words(self, event: NewWords, moment: int) -> list[Happening]:
        """Returns a change for each way to which an event gives new words. Wrong: the words leave out an option, or their loss has
        no effect."""
        for way, words in zip(event.ways, event.links):
            self.note_loss(way, words)
            self.refuse_left_out(way, words, event)
            self.note_line(words.line(way + 1))
        return [Change(moment, words.line(way + 1)) for way, words in sorted(zip(event.ways, event.links))]

    def read(self, words: str, moment: int) -> list[Happening]:
        """Returns what the links do for the words of `hinge change` at a moment in ns."""
        from hinge.events.link_words import link_event

        return self.happenings(link_event(words, f"'{words}'"), moment, self.changes)

    @uncollected()
    def timeline(self, path: str) -> None:
        """Adds a file's timed changes of pipes to the plan, from lines such as `5s 1Mbit/s 20ms`. Wrong: as in `add_timeline`."""
        from hinge.run.timelines import add_timeline

        add_timeline(self, path)

    def is_shared(self, pipe: int) -> bool:
        """Returns whether a pipe has queues or a mask, so that its packets may start in another order than they arrived."""
        return pipe in self.masked_pipes or self.queues_of_pipe[str(pipe)] > 0

    @uncollected()
    def trace(self, way: int, path: str, bin_ns: Optional[int], lasting: int) -> None:
        """Makes a way's bandwidth follow a file. Wrong: the way's pipe isn't configured, or the file isn't a trace.

        If `bin_ns` is None and the pipe is a single queue, the host obeys each of mahimahi's moments. Otherwise the number of
        moments in each bin becomes a bandwidth, and the bins repeat for `lasting` ns."""
        line = self.current.get(Target("pipe", way + 1))
        if line is None:
            raise Wrong(f"{path}: pipe {way + 1} isn't configured")
        option = "--down-trace" if way else "--up-trace"
        rates, moments = read_trace(path, lambda lines: self.noted(option, lines))
        first = moments[0] * MS if moments else rates.moments[0]
        self.moments.append((first, f"the first row of {path}"))
        if not moments:
            if 0 in rates.rates:
                with placed(path):
                    self.refuse_unheld(way + 1, "write a rate above 0, as 1000")
            self.changes.follow(Bandwidths(way + 1, line, rates))
            return
        self.has_moments = True
        if bin_ns is None and not self.is_shared(way + 1):
            self.rest.append(f"slots {way + 1} {spelled_moments(moments)}")
            return
        if bin_ns is None:
            bin_ns = min(TRACE_BIN, moments[-1] * MS)
        self.add_bins(line, path, moments, bin_ns, lasting)

    def add_bins(self, line: str, path: str, moments: Moments, bin_ns: int, lasting: int) -> None:
        """Adds changes of bandwidth to a pipe's line, one for each bin of mahimahi's moments. Wrong: there are too many changes."""
        self.has_bins = True
        rates = counted(path, moments, bin_ns, self.longest)
        period = moments[-1] * MS
        times = lasting // period
        if len(rates) > 1 and len(rates) * times > MOST_BINS:
            raise Wrong(
                f"{path}: it has {len(rates)} rates and would begin {times} times; take a longer --bin, or a shorter --trace-for"
            )
        starts = range(0, lasting, period) if len(rates) > 1 else [0]  # a single rate needs no repetition
        for start in starts:
            self.changes.lines += [Change(start + moment, with_bandwidth(line, rate)) for moment, rate in rates]

    def change_line(self, moment: int, line: str) -> str:
        """Returns the plan's line for a change at a moment in ns."""
        if line.startswith("outage "):
            return f"outage {moment} {line.partition(' ')[2]}"
        return f"at {moment} {self.lossy(line)}"

    def lines(self, seed: int) -> Iterator[str]:
        """Yields the plan's lines after the remarks, singly, since a trace makes many."""
        yield from self.rest
        yield from self.extra_lines(seed)
        both = ("", self.changes), ("main ", self.behind_main)  # each with the word before its lines
        yield from (f"{base}hold {pipe} {begin} {end}" for base, changes in both for pipe, begin, end in changes.holds())
        yield from (f"line {self.lossy(line)}" for line in self.configured)
        yield from (base + self.change_line(*change) for base, changes in both for change in changes.all())

    @uncollected()
    def text(
        self, seed: int, transcript: Optional[str] = None, realtime: bool = False, most: int = MOST, in_simulated_time: bool = False
    ) -> str:
        """Returns the whole plan. `transcript` names the file of the links' history, whose parts have at most `most` bytes."""
        front = [f"transcript {most} {transcript}"] if transcript else []
        front += [f"seed {way} {seed}" for way in range(self.ways)]
        text = "".join(f"{line}\n" for line in front) + self.remarks.getvalue()
        for line in self.lines(seed):
            text += f"{line}\n"  # Python lengthens the text in place, whereas a StringIO would copy the text at the end
        if realtime:
            text += "realtime\n"
        if in_simulated_time:
            text += "simulated\n"
        return text
