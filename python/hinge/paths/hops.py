"""A packet's path through a net as text: a paragraph for each link, and the time at each host between two links."""

from __future__ import annotations

from functools import lru_cache
from typing import Iterator

from hinge.border.files import untrusted
from hinge.command import ROWS, Fault
from hinge.lazy import np
from hinge.paths.folder import session_of, told_drops
from hinge.paths.matching import NONE, Matched, match
from hinge.paths.passages import BETWEEN, read_transcript
from hinge.replays.explain import Explainer
from hinge.replays.history import read_history_source
from hinge.replays.replay import OUT
from hinge.replays.units import ms

END = 10**9  # ns before the last call: a packet that arrived later may still be at its host


class Hops:
    """Describes the paths of single packets through a net, link by link and host by host, from the transcript in a folder that
    `hinge net --transcripts` wrote."""

    def __init__(self, folder: str) -> None:
        self.files, summary = session_of(folder)
        with untrusted(self.files[0]):
            passages, _, _, self.counts = read_transcript(self.files)
            self.matching: Matched = match(passages, END, told_drops(summary, passages.topology))
        self.folder = folder
        self.passages = passages
        self.hosts = passages.topology.hosts
        self.explainer = lru_cache(maxsize=None)(lambda path: Explainer(read_history_source(path).explained()))

    def paragraph(self, number: int) -> str:
        """Describes a packet's path from its first link on; `number` counts the transcript's packets, from 1, once on each link.
        Fault: the transcript contains fewer packets."""
        if not 1 <= number <= self.counts[-1]:
            raise Fault(f"{self.folder} has {self.counts[-1]} packets, and no packet {number}", ROWS)
        places = np.flatnonzero(self.passages.number == number)
        if not len(places):  # no host sent this packet
            return self.on_link(number)
        place = int(places[0])
        while self.matching.before[place] != NONE:
            place = int(self.matching.before[place])
        return "\n".join(self.lines_from(place))

    def on_link(self, number: int) -> str:
        """Explains what a single link did with a packet."""
        file = int(np.searchsorted(self.counts, number)) - 1
        return self.explainer(self.files[file]).paragraph(number - self.counts[file])

    def lines_from(self, place: int) -> Iterator[str]:
        """Yields a line for each link and for each host between two links, from the passage at `place` on. A switch forwards some
        packets over several links."""
        waiting = [place]
        while waiting:
            passage = waiting.pop()
            end = self.hosts[self.passages.end[passage]]
            yield f"{self.name_of_link(passage)}: {self.on_link(int(self.passages.number[passage]))}"
            following = np.flatnonzero(self.matching.before == passage).tolist()
            waiting += reversed(following)
            if BETWEEN not in end:
                yield from self.lines_of_host(end, passage, following)
            if not following and self.passages.event[passage] == OUT:
                yield f"{end}: {self.end(passage)}"

    def name_of_link(self, passage: int) -> str:
        """Returns the two hosts of a passage's link, or the words for the link's jitter, which is a second passage."""
        start = self.hosts[self.passages.start[passage]]
        end = self.hosts[self.passages.end[passage]]
        if BETWEEN in start:
            return f"{start.replace(BETWEEN, ' > ')}, the jitter"
        return f"{start} > {end.rpartition(BETWEEN)[2]}"

    def lines_of_host(self, host: str, passage: int, following: list[int]) -> Iterator[str]:
        """Yields a line for each passage by which a host forwarded a packet: how long the host had the packet."""
        for next_passage in following:
            length = int(self.passages.came[next_passage] - self.passages.due[passage])
            yield f"{host}: had it for {ms(length)}, and sent it on as row {self.passages.number[next_passage]}."

    def end(self, place: int) -> str:
        """Describes why a packet's path ends with the passage at `place`."""
        kind = next((kind for kind, rows in self.matching.faults.items() if place in rows), None)
        if kind is not None:
            return f"the packet's path ends here, unlawfully: {kind}."
        if self.matching.is_there[place]:
            return "it ends here."
        return "the packet wasn't sent on: the run ended, the system dropped it as it told, or its time to live ended."
