"""The cause of the least case's failure: lost packets, all threads' calls around each pause, and the place in the program at which
each pause began."""

from __future__ import annotations

import re
from collections import Counter
from pathlib import Path
from typing import Iterator, NamedTuple, Optional

from hinge.net.description import read_description
from hinge.replays.replay import PROTOCOL_NAMES
from hinge.run.plan_of_options import WAY_NAMES
from hinge.searches.case import Case
from hinge.searches.runs import RunFiles, Runner, SummarizedRun
from hinge.simulated.calls_kept import CALLS, CallRow, around, call_rows, pauses_in
from hinge.simulated.machine import ALL_CORES, BOOTED, NO_CORES, OF_DEADLOCK, Machine
from hinge.simulated.pauses import given
from hinge.simulated.places import has_debugger, innermost
from hinge.simulated.start import MACHINE_HISTORY

SUBMIT = re.compile(r"c,\d+,submit,(pipe|queue),(\d+),")
LOST = "r,lost"
CONFIGURED = re.compile(r"c,\d+,configure,pipe (\d+) config(?P<cut>.* plr 1(?![.\d]))?")
MOST_LOST = 2000  # lost packets that a search leaves out one by one
WORDS = ("--loss up:list:", "--loss down:list:")  # the beginnings of options that lose a packet on each way
MOST_SHOWN = 4  # the lost packets and pauses that the cause lists


class Lost(NamedTuple):
    """Describes a lost packet."""

    way: int
    packet: int  # the number among the way's packets, from 1
    row: str  # the fields of the submit in the transcript after the pipe

    def text(self, name: str) -> str:
        source, target, protocol, port, to, length, _, moment = self.row.split(",")
        protocol_name = PROTOCOL_NAMES.get(int(protocol), f"protocol {protocol}")
        if (port, to) == ("0", "0"):
            ends = f"{source} > {target}"
        elif ":" in source:
            ends = f"[{source}]:{port} > [{target}]:{to}"
        else:
            ends = f"{source}:{port} > {target}:{to}"
        return f"lost: {name} packet {self.packet} at {int(moment) / 1e9:.9f} s, {protocol_name} {ends}, {length} bytes"


def way_names(what: "list[str]") -> "list[str]":
    """Returns the names of all ways in a net or in `hinge run` (a way is one direction of a link)."""
    return read_description(what[1]).ways() if what[0] == "net" else [*WAY_NAMES]


def packets_lost(paths: "list[Path]", ways: int) -> "Optional[list[Lost]]":
    """Returns the packets that were lost on the first ways, from the files of a transcript. Omits losses by cuts, which a search
    leaves out separately. None: packets also met queues, which changes their numbers, or too many packets were lost."""
    count = Counter[int]()
    losses = list[Lost]()
    way = -1
    cuts = set[int]()
    row = ""
    for line in (line for path in paths for line in path.open(encoding="utf-8", errors="replace")):
        submit = SUBMIT.match(line)
        setting = CONFIGURED.match(line)
        if submit:
            if submit[1] == "queue":
                return None
            way = int(submit[2]) - 1
            row = line[submit.end() :].rstrip()
            count[way] += 1
        elif setting:
            cut_way = int(setting[1]) - 1
            cuts = cuts | {cut_way} if setting["cut"] else cuts - {cut_way}
        elif line.startswith(LOST) and way < ways and way not in cuts:
            losses.append(Lost(way, count[way], row))
    return losses if len(losses) <= MOST_LOST else None


def lines_of_losses(what: "list[str]", losses: "list[Lost]") -> Iterator[str]:
    """Yields an option or a net's line that loses this packet alone, for each packet."""
    names = way_names(what)
    for loss in losses:
        begin = f"loss {names[loss.way].replace(' > ', ' ')} up:list:" if what[0] == "net" else WORDS[loss.way]
        yield f"{begin}{loss.packet}"


def losses_in(what: "list[str]", machine: Machine) -> "Optional[list[Lost]]":
    """Returns the lost packets in a machine's transcript, as packets_lost does."""
    paths = sorted(machine.room.kept.glob(f"{MACHINE_HISTORY}*"), key=lambda path: (len(path.name), path.name))
    return packets_lost(paths, len(way_names(what)))


class Repetition(NamedTuple):
    """Holds the least run's repetition, with the calls and the lost packets."""

    ran: SummarizedRun
    rows: "list[CallRow]"
    losses: "list[Lost]"


def repetition_of(runner: Runner, case: Case) -> Repetition:
    """Repeats the least run. A second repetition, with a transcript, shows the lost packets; in the first, a transcript would
    change the summary."""
    rows = list[CallRow]()
    losses = list[Lost]()
    cores = OF_DEADLOCK if has_debugger() else NO_CORES
    ran = runner.case(case, RunFiles((f"keep {CALLS}",), cores), lambda machine: rows.extend(call_rows(machine.folder / "calls")))
    if case.of_kind("losses"):
        what = runner.settings.what
        runner.case(case, RunFiles(transcript=MACHINE_HISTORY), lambda machine: losses.extend(losses_in(what, machine) or ()))
    return Repetition(ran, rows, losses)


def pause_place(runner: Runner, case: Case, call: int, process: int) -> str:
    """Returns the place in the program at which a thread paused at this call, from a run that ends there; an empty text if no
    debugger finds the place."""
    texts = list[str]()

    def look(machine: Machine) -> None:
        texts.append(innermost(machine.folder, process, machine.root))

    if has_debugger():
        runner.case(case, RunFiles((f"core {call}",), ALL_CORES), look)
    return "".join(texts)


def cause_lines(runner: Runner, case: Case, look: Repetition) -> Iterator[str]:
    """Yields the lines of the cause: lost packets, then pauses with the calls around them."""
    names = way_names(runner.settings.what)
    for loss in look.losses[:MOST_SHOWN]:
        yield loss.text(names[loss.way])
    if len(look.losses) > MOST_SHOWN:
        yield f"and {len(look.losses) - MOST_SHOWN} more lost packets"
    pauses = given(case.pauses() or "")
    for pause, place in list(zip(pauses, pauses_in(look.rows)))[:MOST_SHOWN]:
        text = pause_place(runner, case, pause.call, look.rows[place].process)
        yield f"pause {pause.word()}, in {text}:" if text else f"pause {pause.word()}:"
        yield from (f"  {line}" for line in around(look.rows, place, BOOTED * 10**9))
    if len(pauses) > MOST_SHOWN:
        yield f"and {len(pauses) - MOST_SHOWN} more pauses"
