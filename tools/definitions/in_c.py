"""What C is told, by the text of crates/hingetulip_c/specs: the C library does it, and what wrong definitions say is something else.

The library makes the calls of sessions, and gets packets that are out of range. From the replies of dn_types follow, by the
definitions for C, a packet's call and fate, each call's status, and the moment that an Advance reports.
"""

import ctypes
import subprocess
import sys
from collections.abc import Iterator, Sequence
from functools import cache
from pathlib import Path
from struct import Struct
from typing import NamedTuple, Optional

from emulator import CRATE, Emulator, texts
from evaluator import Definitions
from records import Entry, call_of
from source import declared, read
from values import NIL, Data, Value, apply, data, record

TOP = Path(__file__).resolve().parents[2]
sys.path[:0] = [str(TOP / "tools" / "gate"), str(TOP / "tools" / "laws")]

import wrong_definitions  # noqa: E402
from tally import Tally, stated  # noqa: E402

SPECS = TOP / "crates" / "hingetulip_c" / "specs"
PACKET = Struct("=QIIIHHHHBBH")
FATE = Struct("=QQQII")
HANDLE = 16
PACKET_FIELDS = ("moment", "src", "dst", "word", "sport", "dport", "length", "number", "kind", "proto", "reserved")
FATE_FIELDS = ("at", "flow", "packet", "outcome", "reserved")
OLD = (7, 7, 7, 7, 7)  # a fate before the call
GOOD = (0, 1, 2, 3, 4, 5, 6, 7, 0, 17, 0)  # a packet
FAULTY = [  # what stands in the place of its moment, length, number, kind or reserved field
    GOOD[:place] + (value,) + GOOD[place + 1 :] for place, value in ((0, 2**62 + 1), (6, 0), (7, 0), (8, 2), (10, 1))
]
# Commands of which each has another status, and packets of which each has another fate.
LINES = ("pipe 1 config", "queue 1 config pipe 1", "queue 2 config pipe 2", "pipe delete 1", "queue delete 2", "queue delete 1")
LINES += ("pipe 2 config plr 1", "pipe 3 config bw 8bit/s queue 1", "queue 3 config pipe 3")
EACH = [Entry(f"c,0,configure,{line}", []) for line in LINES]
EACH += [
    Entry(f"c,0,submit,{target},10.0.0.1,10.0.0.2,17,1,2,1,0,5", [])
    for target in ("pipe,3", "pipe,3", "pipe,3", "pipe,2", "pipe,9", "queue,3")
]
EACH += [Entry("c,0,advance,9", [])]
# The statuses of calls behind the 2^62nd, which no session reaches: DN_EXHAUSTED by the header.
EXHAUSTED = data("Reply.Exhausted")
STATUSES = [
    ("Submits", "fate_status"),
    *(("Statuses", f"{call}_status") for call in ("configure", "clock", "collect", "show", "list")),
]
# What is wrong, the file, the right text, and the wrong one.
ROWS: list[tuple[str, str, object, object]] = [
    ("lost and full are exchanged", "Submits", ("= 1;", "= 2;", "= 9;"), ("= 9;", "= 1;", "= 2;")),
    ("flow and packet of a fate are exchanged", "Submits", "flow = flow; packet = packet", "flow = packet; packet = flow"),
    (
        "a queued packet has the moment 0",
        "Submits",
        "(Queued at flow packet) = record { at = at",
        "(Queued at flow packet) = record { at = 0",
    ),
    ("a packet's addresses are exchanged", "Submits", "src = p.src; dst = p.dst", "src = p.dst; dst = p.src"),
    ("a packet's ports are exchanged", "Submits", "sport = p.sport; dport = p.dport", "sport = p.dport; dport = p.sport"),
    ("each packet is to a pipe", "Submits", "(cond (nat_eq p.kind 0) (Pipe p.number) (Queue p.number))", "(Pipe p.number)"),
    ("a random word is the length", "Submits", "len = p.length;", "len = p.word;"),
    ("a packet without a target is no answer", "Submits", "fate_status (NoTarget at) = 0", "fate_status (NoTarget at) = 1"),
    ("a missing length is told as a missing number", "Submits", "(status ≡ 13)", "(status ≡ 12)"),
    ("a missing pipe is told as a missing queue", "Statuses", "configure_status NoSuchPipe = 2", "configure_status NoSuchPipe = 4"),
    ("a pipe with queues is told as a missing one", "Statuses", "PipeHasQueues = 3", "PipeHasQueues = 2"),
    ("an Advance tells no moment", "Statuses", "clock_of old (Advanced at) = at", "clock_of old (Advanced at) = old"),
    ("a faulty packet counts as answered", "Statuses", "nat_eq status 1", "nat_le status 14"),
    ("an Advance behind the last is told as good", "Statuses", "clock_status _ = 1", "clock_status _ = 0"),
    ("no target is told as a full queue", "Submits", "outcome = 3;", "outcome = 2;"),
]


class Done(NamedTuple):
    """A call, its reply by the definitions of dn_types, the status, and what the library read and wrote."""

    line: str
    call: Data
    reply: Value
    status: int
    packet: Optional[Data] = None
    written: Value = 0


def packet_of(call: Data) -> tuple[int, ...]:
    """The numbers of C's packet for a Submit."""
    target, packet, moment = call.parts
    assert isinstance(target, Data) and isinstance(packet, Data) and isinstance(moment, int)
    five = packet["tuple"]
    assert isinstance(five, Data)
    kind = int(target.constructor == "Target.Queue")
    ends = (five["src"], five["dst"], packet["word"], five["sport"], five["dport"], packet["len"], target.parts[0])
    return tuple(number for number in (moment, *ends, kind, five["proto"], 0) if isinstance(number, int))


@cache
def library() -> ctypes.CDLL:
    script = TOP / "tools" / "release" / "library"
    folder = subprocess.run([script], stdout=subprocess.PIPE, text=True, check=True).stdout.strip()
    return ctypes.CDLL(f"{folder}/libhingetulip.so.1")


class Handle:
    """A handle of the C library."""

    def __init__(self) -> None:
        self.calls, self.handle = library(), ctypes.create_string_buffer(HANDLE)
        self.calls.dn_open(self.handle, 0)

    def close(self) -> None:
        self.calls.dn_close(self.handle)

    def submit(self, numbers: tuple[int, ...]) -> tuple[int, Data, Data]:
        """The status, the packet and the fate."""
        fate = ctypes.create_string_buffer(FATE.pack(*OLD), FATE.size)
        status: int = self.calls.dn_submit(self.handle, PACKET.pack(*numbers), fate)
        told = FATE.unpack(fate.raw)
        return status, record(dict(zip(PACKET_FIELDS, numbers))), record(dict(zip(FATE_FIELDS, told)))

    def advance(self, moment: int) -> tuple[int, int]:
        at = ctypes.c_uint64(OLD[0])
        return self.calls.dn_advance(self.handle, ctypes.c_uint64(moment), ctypes.byref(at)), at.value

    def done(self, line: str, call: Data, reply: Value) -> Optional[Done]:
        """Makes a call. A Collect counts as an Advance here, since their replies tell one moment, and a Show as none."""
        kind = str(call.constructor)
        if kind == "Call.Submit":
            status, packet, fate = self.submit(packet_of(call))
            return Done(line, call, reply, status, packet, fate)
        if kind == "Call.Configure":
            text = line.split(",", 3)[3].encode()
            fault = ctypes.create_string_buffer(16)
            return Done(line, call, reply, self.calls.dn_configure(self.handle, text, ctypes.c_size_t(len(text)), fault))
        if kind in ("Call.Advance", "Call.Collect"):
            assert isinstance(reply, Data)
            status, at = self.advance(int(line.rpartition(",")[2]))
            return Done(line, call, data("Reply.Advanced", reply.parts[0]), status, None, at)
        return None


def of_sessions(sessions: Sequence[Sequence[Entry]]) -> Iterator[Done]:
    """Yields sessions' calls, each on a separate handle, and packets out of range. Nothing is forgotten between them, since equal
    values are one object."""
    emulator = Emulator(texts())
    reply = emulator.definitions.value("Replies", "reply")
    under = data("Rule.Ordered")
    for entries in sessions:
        handle, calls = Handle(), NIL
        for line in (entry.call for entry in entries):
            call = call_of(line)
            assert isinstance(call, Data)
            done = handle.done(line, call, apply(reply, under, calls, call))
            calls = data("∷", call, calls)
            if done:
                yield done
        for numbers in FAULTY:
            status, packet, fate = handle.submit(numbers)
            yield Done(f"packet {numbers}", NIL, NIL, status, packet, fate)
        handle.close()


def difference(definitions: Definitions, done: Done) -> str:
    """What the definitions of C say otherwise of a call."""

    def said(file: str, name: str, *given: Value) -> Value:
        return apply(definitions.value(file, name), *given)

    old = record(dict(zip(FATE_FIELDS, OLD)))
    is_faulty = done.reply is NIL
    wanted: list[tuple[Value, Value]] = []
    if done.call.constructor == "Call.Configure":
        wanted = [(said("Statuses", "configure_status", done.reply), done.status)]
    elif done.packet is None:
        wanted = [
            (said("Statuses", "clock_status", done.reply), done.status),
            (said("Statuses", "clock_of", OLD[0], done.reply), done.written),
        ]
    elif is_faulty:
        wanted = [(said("Submits", "Faulty", done.packet, done.status), True), (old, done.written)]
    else:
        wanted = [(said("Submits", "submit_of", done.packet), done.call), (said("Submits", "fate_status", done.reply), done.status)]
        wanted += [(said("Submits", "fate_of", old, done.reply), done.written)]
    if done.packet:
        wanted += [(said("Statuses", "answered", done.status), not is_faulty)]
    wanted += [(said(file, name, EXHAUSTED), 1) for file, name in STATUSES]
    return "" if all(one == other for one, other in wanted) else f"{done.line}: status {done.status}"


def definitions_of(changed: dict[str, str]) -> Definitions:
    files = {name: changed.get(name) or (SPECS / f"{name}.antt").read_text() for name in ("Submits", "Statuses")}
    return Definitions({name: read(text, declared(CRATE / "src"), "hingetulip_c") for name, text in files.items()})


def first_difference(definitions: Definitions, all_done: Sequence[Done]) -> str:
    return next(filter(None, (difference(definitions, done) for done in all_done)), "")


def compare(tally: Tally, sessions: Sequence[Sequence[Entry]]) -> None:
    """The right definitions say what the library does, and each wrong one something else."""
    all_done = list(of_sessions([EACH, *sessions]))
    print(f"C: {len(sessions)} sessions, {len(all_done)} calls, {len(ROWS)} wrong definitions")
    stated(tally, "docs/TRUST.md", f"tested: {len(sessions)} sessions and", f"{len(ROWS)} wrong definitions tell something else")
    tally.note("the definitions of C", first_difference(definitions_of({}), all_done))
    for wrong, file, right_text, wrong_text in ROWS:
        changed = wrong_definitions.changed((SPECS / f"{file}.antt").read_text(), right_text, wrong_text)
        tally.note(f"{wrong}, in C", "" if first_difference(definitions_of({file: changed}), all_done) else "no call differs")
