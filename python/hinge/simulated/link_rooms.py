"""The rooms (network namespaces) of a run in a simulated machine. The machine's first process creates them from texts, and writes
messages."""

from __future__ import annotations

import struct
from pathlib import Path
from typing import Callable, Iterable, NamedTuple, Optional

from hinge.run.interfaces import LINK_NAME, all_dropped
from hinge.run.order import RunOrder, report
from hinge.run.page import Counts, size_of_page
from hinge.run.plan_of_options import draws, limit_of, plan_of
from hinge.run.processes import SIGNALLED, Ended
from hinge.run.rooms import Rooms
from hinge.run.settings import RunOptions
from hinge.run.steps import Steps
from hinge.run.two_hosts import two_ends
from hinge.run.words import duration
from hinge.simulated.job import root_of
from hinge.simulated.verdict import MachineVerdict, of_wait

LINK = "/run/hinge/link"  # a copy of the link's program, whose path doesn't depend on hinge's installation
TERMINATED = SIGNALLED + 15
Tell = Callable[[str], None]


class KeptPage(NamedTuple):
    """Holds a copy of the memory page in which the link's program counted packets, for reading after the run's end."""

    bytes_: bytes

    def read(self) -> Counts:
        return Counts(struct.unpack(f"{len(self.bytes_) // 8}Q", self.bytes_))


def page_of(folder: Path) -> KeptPage:
    return KeptPage((folder / "page").read_bytes())


def counts_of(folder: Path, network: int) -> str:
    """Returns the common beginning of the file names with a network's system counters."""
    return f"{folder}/net-{network}-"


def rooms_texts(kind: str, steps: Steps, interfaces: Iterable[int], plan: str, links: int) -> "list[str]":
    """Returns the texts with which a machine's first process creates the rooms and starts the link's program. `kind` is `run` or
    `net`, `plan` tells the link's program what to emulate, and `links` determines the length of the page of counts."""
    return [kind, *steps.texts, "end", " ".join(map(str, interfaces)), LINK, plan, str(size_of_page(2 * links))]


def nanoseconds(seconds: float) -> str:
    return str(round(seconds * 1e9))


def first_process_lines(folder: Path) -> "list[str]":
    """Returns the first process's messages; an empty list if the process started no program."""
    try:
        return (folder / "ran").read_text().splitlines()
    except OSError:
        return []


class LinkRun(NamedTuple):
    """Describes a run of `hinge run` in a machine without Python."""

    options: RunOptions
    order: RunOrder

    def texts(self) -> "list[str]":
        """Returns the texts that the machine's first process reads: the rooms, the link and the server."""
        with Steps(root_of(self.options) or "") as steps:
            rooms = Rooms(self.options.mtu, False, two_ends(self.options.net))
        texts = rooms_texts("run", steps, rooms.interfaces, self.order.plan, 1)
        return [*texts, self.options.server or "", *map(nanoseconds, (self.order.server_wait, self.order.server_end))]

    def ended(self, folder: Path) -> Optional[MachineVerdict]:
        """Returns the program's verdict, if the program ended by itself."""
        words = "".join(first_process_lines(folder)).split()
        has_ended = bool(words) and int(words[0]) != 0
        return of_wait(int(words[1])) if has_ended else None

    def report(self, folder: Path, summary: Path, verdict: Optional[MachineVerdict], tell: Tell) -> int:
        """Reports on the links, writes the summary to a file, and returns the run's status."""
        _, _, by, server, after = "".join(first_process_lines(folder)).split()
        endings = None if by == "none" else Ended(of_wait(int(server)).status, round(int(after) / 1e9, 3), by)
        drops = [all_dropped(counts_of(folder, network)).get(LINK_NAME, 0) for network in (0, 1)]
        order = self.order._replace(options=self.order.options.but(json=str(summary)))
        return report(order, page_of(folder), drops, verdict.status if verdict else TERMINATED, endings)


def link_run(options: RunOptions, seed: int, transcript: Optional[str]) -> LinkRun:
    """Converts the options of `hinge run` into a run in a machine."""
    plan = plan_of(options, options.mtu)
    text = plan.text(seed, transcript, True, options.most, True)
    wait = duration(options.server_wait, "--server-wait") / 1e9
    end = duration(options.server_end, "--server-end") / 1e9
    order = RunOrder(options.but(transcript=None), text, limit_of(options.late), seed, draws(plan), set(), wait, end, plan)
    return LinkRun(options, order)
