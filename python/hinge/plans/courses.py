"""The settings of a pipe or queue from moment to moment, according to a file's lines."""

from __future__ import annotations

from bisect import bisect_left, bisect_right, insort
from collections import defaultdict
from fractions import Fraction
from itertools import accumulate, product
from typing import Optional

from hinge.plans.meaning import FOR_EVER, LineEvent
from hinge.plans.spelling import LineOptions, options_of

LEAST_LOSS = str(Fraction("0.000000000465661288"))  # the rate of a pipe whose cut only loses a port's packets
Port = tuple[str, ...]  # the protocol and the port of packets, or nothing for all packets
ANY: Port = ("",)  # any port that a line cuts


def turns_of(spans: list[tuple[int, int]]) -> list[int]:
    """Joins overlapping time spans; returns the starts and ends of the resulting spans, by turns."""
    turns: list[int] = []
    for begin, end in sorted(spans):
        if turns and begin <= turns[-1]:
            turns[-1] = max(turns[-1], end)
        else:
            turns += [begin, end]
    return turns


class Course:
    """The events of one pipe or queue: lines, cuts, heals and holds."""

    def __init__(self) -> None:
        self.lines: list[LineEvent] = []
        self.cuts: list[LineEvent] = []
        self.heals = defaultdict[Port, list[LineEvent]](list)
        self.holds: list[LineEvent] = []
        self.longest: list[LineEvent] = []  # for each hold, the hold that ends last among this one and the earlier ones
        self.turns: set[int] = set()  # the moments of cuts and heals
        self.ports: set[Port] = set()
        self.cut: dict[
            tuple[Port, bool], list[int]
        ] = {}  # the moments at which a port is cut and isn't by turns: certainly, or perhaps

    def add(self, event: LineEvent) -> None:
        """Adds an event in its order."""
        if event.kind in ("cut", "heal"):
            self.turns |= {event.moment, event.end}
            self.ports |= {event.port} - {()}
            self.cut.clear()
        insort({"line": self.lines, "hold": self.holds, "cut": self.cuts}.get(event.kind, self.heals[event.port]), event)
        self.longest.clear()

    def hold(self, until: int) -> Optional[LineEvent]:
        """Returns the hold, an outage that keeps packets waiting, that ends last among the holds that begin before the moment
        `until`; None if no hold begins before."""
        if not self.longest:
            self.longest += accumulate(self.holds, lambda longest, hold: hold if hold.end > longest.end else longest)
        before = bisect_left(self.holds, (until,))
        return self.longest[before - 1] if before else None

    def latest(self, moment: int) -> Optional[LineEvent]:
        """Returns the last line up to a moment; None if there is no line yet."""
        before = bisect_left(self.lines, (moment + 1,))
        return self.lines[before - 1] if before else None

    def options(self, moment: int, is_past: bool) -> list[LineOptions]:
        """Returns the options that the file's lines may give the pipe or queue at a moment. With `is_past`, all changes at the
        moment have been made; otherwise the options before these changes are possible too. The list has several items if the exact
        moment of a line is in doubt; None stands for no line so far."""
        result: list[LineOptions] = []
        at = bisect_left(self.lines, (moment + 1,))
        while at:
            at -= 1
            result.append(options_of(self.lines[at].line)[1])
            latest = self.lines[at].moment + self.lines[at].doubt
            if latest < moment or is_past and latest == moment:
                return result
        return [*result, None]

    def begins_hold(self, moment: int) -> bool:
        """Returns whether a hold begins at exactly this moment."""
        place = bisect_left(self.holds, (moment,))
        return place < len(self.holds) and self.holds[place].moment == moment

    def ports_of(self, packet: list[str]) -> list[Port]:
        """Returns those of a packet's two ports, with the protocol, that lines cut or heal."""
        return sorted({(packet[2], port) for port in packet[3:5]} & self.ports)

    def spans(self) -> dict[tuple[Port, bool], list[tuple[int, int]]]:
        """Returns the time spans of the cuts of each port. A key ends with True for the spans in which a cut is certainly in force,
        and with False for the longer spans in which a cut is perhaps in force. A cut lasts up to its end or the next heal."""
        result = defaultdict[tuple[Port, bool], list[tuple[int, int]]](list)
        heals: dict[tuple[Port, int], list[int]] = {
            (port, doubt): [
                *accumulate((one.moment + doubt * one.doubt for one in of_port[::-1]), lambda one, other: min(one, other))
            ][::-1]
            for port, of_port in self.heals.items()
            for doubt in (0, 1)
        }
        for cut, doubt in product(self.cuts, (0, 1)):
            behind = [(port, bisect_left(self.heals[port], cut)) for port in {(), cut.port}]
            ends = [end for port, place in behind for end in heals.get((port, doubt), [])[place : place + 1]]
            begin = cut.moment + (1 - doubt) * cut.doubt
            end = min(cut.end + doubt * cut.doubt, *ends, FOR_EVER)
            for port in (cut.port, *([ANY] if cut.port else [])):
                if begin < end:
                    result[port, not doubt] += [(begin, end)]
        return result

    def is_cut(self, moment: int, port: Port = ()) -> set[bool]:
        """Returns whether a cut loses all packets, or a port's packets, after all changes at a moment. The set contains both values
        if that is in doubt."""
        if not self.cut and self.cuts:
            self.cut = {key: turns_of(spans) for key, spans in self.spans().items()}
        is_known = bisect_right(self.cut.get((port, True), []), moment) % 2 == 1
        is_possible = bisect_right(self.cut.get((port, False), []), moment) % 2 == 1
        return {True} if is_known else {False, is_possible}

    def cut_at(self, moment: int, port: Port = ()) -> LineEvent:
        """Returns a cut that is in force at a moment."""
        return next(cut for cut in self.cuts if cut.port == port and cut.moment <= moment < cut.end)

    def fits(self, options: LineOptions, moment: int, is_past: bool, is_paced: bool) -> bool:
        """Returns whether the pipe or queue may have these options at a moment: after all changes at the moment if `is_past`,
        otherwise also before these. `is_paced` ignores the bandwidth, since a trace or a hold changes it, too."""
        is_turn = not is_past and moment in self.turns
        cuts = {False, True} if is_turn else self.is_cut(moment)
        of_ports = {False, bool(self.ports)} if is_turn else self.is_cut(moment, ANY)
        losses = [{"plr": "1"}] if True in cuts else []
        if False in cuts and True in of_ports:
            losses.append({"plr": LEAST_LOSS})
        if False in cuts and False in of_ports:
            losses.append({})

        def bare(line: LineOptions) -> LineOptions:
            return line and {key: text for key, text in line.items() if not is_paced or key != "bw"}

        def with_loss(line: LineOptions, loss: dict[str, str]) -> LineOptions:
            return line and bare({**line, **loss} if loss.get("plr") == "1" else {**loss, **line})

        return any(with_loss(line, loss) == bare(options) for line in self.options(moment, is_past) for loss in losses)
