"""The command `hinge try`, a first look with Python only: a download over an emulated link in simulated time, a picture as text,
and the reason for a packet's delay."""

from __future__ import annotations

import math
import shutil
import time
from collections import deque
from pathlib import Path
from typing import Iterator, Optional, Sequence

from hinge.border.scratch import scratch
from hinge.border.terminal import blocks, show
from hinge.command import filled, new_parser
from hinge.outputs import written
from hinge.replays.explain import Explainer
from hinge.replays.history import read_history_source
from hinge.replays.replay import FULL, LOST, OUT, Replay
from hingetulip_words.link import in_full, read_link
from hingetulip_words.presets import preset

WHAT = """\
Downloads 3 MB over the link of a preset, by a simple TCP of ours, in simulated time: no root, no other package and no other
program. Draws what arrived, how many packets waited, and where some were dropped, and tells of one packet why it took so long."""
UP, DOWN = 1, 2  # the numbers of the pipes
SEGMENTS = 2000  # the number of segments to download
SEGMENT = 1500  # bytes of a segment
ACK = 52  # bytes of an acknowledgement
DUPLICATES = 3  # a segment counts as lost if more than so many later ones overtook it
SECOND = 10**9  # ns
TIMEOUT = SECOND  # ns
STEPS = 64  # columns of the picture
HEIGHT = 4  # lines of a panel
CLIENT = (0x0A080001, 40000)  # address and port
SERVER = (0x0A080002, 80)


class Sender:
    """The server's TCP: a window that doubles in each round trip up to a threshold, grows by one from there on, and is halved by a
    loss, once for all packets under way."""

    def __init__(self) -> None:
        self.window = 10.0  # segments that may be under way
        self.threshold = float("inf")  # the size from which the window grows slowly
        self.sent = 0  # the number of sent segments, repeated ones included
        self.halved_till = 0  # segments sent before this place cause no further halving
        self.waiting = deque(range(SEGMENTS))
        self.under_way: dict[int, int] = {}  # segments, and their places in the order of sending
        self.newest = -1  # the last place in the order of sending that arrived

    def next(self) -> Optional[int]:
        """Returns the next segment to send; None if no segment waits, or the window is full."""
        if not self.waiting or len(self.under_way) >= self.window:
            return None
        segment = self.waiting.popleft()
        self.under_way[segment] = self.sent
        self.sent += 1
        return segment

    def acknowledged(self, segments: Sequence[int]) -> None:
        """Opens the window for each segment that has arrived, and repeats the segments that later ones overtook."""
        for segment in segments:
            if segment not in self.under_way:
                continue  # acknowledged before, or lost
            place = self.under_way.pop(segment)
            self.window += 1 if self.window < self.threshold else 1 / self.window
            self.newest = max(self.newest, place)
        self.lose([segment for segment, place in self.under_way.items() if place < self.newest - DUPLICATES])

    def lose(self, segments: Sequence[int]) -> None:
        """Puts these segments before all waiting segments, and halves the window unless an earlier loss covers this loss."""
        if segments and max(map(self.under_way.__getitem__, segments)) >= self.halved_till:
            self.threshold = self.window = max(self.window / 2, 2.0)
            self.halved_till = self.sent
        for segment in reversed(segments):
            del self.under_way[segment]
            self.waiting.appendleft(segment)


class Download:
    """Emulates the download. Each segment down causes an acknowledgement up, with the count of segments so far."""

    def __init__(self, path: Path, links: tuple[str, str]) -> None:
        from hingetulip.recorded import RecordedShaper  # a help doesn't need this library, which may be missing

        self.sender = Sender()
        self.arrived = list[int]()  # segments
        self.moment = 0  # ns
        self.carried: dict[int, tuple[int, int]] = {}  # the pipe and the content, by the number of the packet
        self.shaper = RecordedShaper(path, seed=1)
        for number, words in zip((UP, DOWN), links):
            self.shaper.configure(f"pipe {number} config {in_full(read_link(words))}")

    def submit(self, pipe: int, length: int, content: int) -> None:
        """Submits a packet to a pipe, and keeps the packet's content until the packet leaves the pipe."""
        (src, sport), (dst, dport) = (CLIENT, SERVER) if pipe == UP else (SERVER, CLIENT)
        fate = self.shaper.submit(self.moment, length, pipe=pipe, proto=6, src=src, dst=dst, sport=sport, dport=dport)
        if fate.packet is not None:
            self.carried[fate.packet] = pipe, content

    def hand_over(self, pipe: int, content: int) -> None:
        """Hands a packet that left a pipe to its receiver: a segment to the client, or an acknowledgement to the server."""
        if pipe == DOWN:
            self.arrived.append(content)
            self.submit(UP, ACK, len(self.arrived))
        else:
            self.sender.acknowledged(self.arrived[:content])

    def run(self) -> None:
        """Downloads all segments, by going from each moment at which something happens on a link to the next. If both links are
        idle, a timeout passes."""
        while self.sender.waiting or self.sender.under_way:
            while (segment := self.sender.next()) is not None:
                self.submit(DOWN, SEGMENT, segment)
            wake = self.shaper.wake()
            if wake is None:
                self.sender.lose(list(self.sender.under_way))
                self.moment += TIMEOUT
                continue
            self.moment = wake
            for delivery in self.shaper.collect(wake):
                self.hand_over(*self.carried.pop(delivery.packet))
        self.shaper.close()


def panel(name: str, values: list[float]) -> Iterator[str]:
    """Yields a text panel's lines: its name, and a column for each step."""
    most = max(values)
    yield f"{name}, at most {most:,.4g}:"
    for low in reversed(range(HEIGHT)):
        bars = "".join(bar(value / most * HEIGHT - low) for value in values)
        yield f"  |{bars}".rstrip()


def bar(height: float) -> str:
    """Returns the letter for a bar that fills this part of a line, from 0 for empty to 1 for full."""
    letters = f" {blocks()}"
    part = min(max(height, 0), 1)
    return letters[math.ceil(part * (len(letters) - 1))]


def picture(replay: Replay, span: int) -> Iterator[str]:
    """Yields the picture's lines: received bytes, the queue, and drops, over a replay of `span` ns."""
    step = span // STEPS + 1
    rates = [0.0] * STEPS
    drops = [" "] * STEPS
    waits = list[tuple[int, int]]()
    columns = (replay.event, replay.packets.length, replay.at, replay.start, replay.due)
    for event, length, at, start, due in zip(*(column.tolist() for column in columns)):
        if length != SEGMENT:
            continue  # an acknowledgement
        if event == OUT:
            rates[due // step] += length * 8000 / step
            waits.append((at, start))
        else:
            drops[at // step] = "x"
    yield from panel("Mbit/s that arrive", rates)
    yield from panel("packets that wait for the link", longest_queues(waits, step))
    yield f"drops: {replay.count(FULL):,} by a full queue, {replay.count(LOST):,} by the loss rate"
    yield f"  |{''.join(drops)}".rstrip()
    end = f"{span / SECOND:.2f} s"
    yield f"  0 s{end:>{STEPS - 2}}"


def longest_queues(waits: list[tuple[int, int]], step: int) -> list[float]:
    """Returns the longest queue in each step, from the beginnings and ends of all waits."""
    queues = [0.0] * STEPS
    changes = [(begin, 1) for begin, _ in waits] + [(end, -1) for _, end in waits]
    waiting = 0
    for moment, change in sorted(changes):
        waiting += change
        queues[moment // step] = max(queues[moment // step], waiting)
    return queues


def longest(replay: Replay) -> int:
    """Returns the row of the packet that waited longest, counted from 1."""
    waits = [start - at if event == OUT else -1 for event, start, at in zip(replay.event, replay.start, replay.at)]
    return waits.index(max(waits)) + 1


def output(path: Path, name: str, links: tuple[str, str], kept: Optional[str]) -> Iterator[str]:
    """Downloads, and yields the command's output. Writes the history to `path`, which the user keeps as `kept`."""
    began = time.monotonic()
    transfer = Download(path, links)
    transfer.run()
    source = read_history_source(str(path))
    replay = source.replay
    row = longest(replay)
    yield f"3 MB come down over the preset {name}: {links[1]}.\nAcknowledgements go up over {links[0]}.\n"
    yield from picture(replay, transfer.moment)
    yield "\n" + filled(f"Why did packet {row} take so long? {Explainer(source.explained()).paragraph(row)}")
    yield f"\nThe answer took {time.monotonic() - began:.1f} s. What next:"
    if kept:
        yield next_line(f"hinge look {kept} -o try.png", "draws it")
    else:
        yield next_line("hinge try --transcript try.history", "keeps what hinge look and hinge why read")
    yield next_line(f"hinge run --preset {name} -- ping -c 3 server", "puts any program behind that link")
    yield next_line("hinge doctor", "says what works on this machine")


def next_line(command: str, effect: str) -> str:
    """Returns a line of the output with a command that the user may try next."""
    return f"  {command:<44}  {effect}"


def main() -> None:
    parser = new_parser(WHAT, "hinge try\n  hinge try --preset 3g --transcript try.history")
    parser.add_argument("--preset", metavar="NAME", default="lte", help="the link (lte); hinge run --list-presets has all")
    parser.add_argument("--transcript", metavar="FILE", help="keep the history, for hinge look and hinge why")
    arguments = parser.parse_args()
    try:
        link = preset(arguments.preset)
    except ValueError as wrong:
        parser.error(str(wrong))
    with scratch() as place:
        path = place / "history"
        for text in output(path, arguments.preset, (link.up, link.down), arguments.transcript):
            show(text)
        if arguments.transcript:
            with written(arguments.transcript) as target:
                shutil.copyfile(path, target)
