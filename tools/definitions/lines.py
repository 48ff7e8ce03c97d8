"""Configuration lines by the text of crates/dn_config/specs: the C library reads each as the definitions say."""

import ctypes
from collections.abc import Iterator, Sequence
from functools import cache
from struct import Struct
from typing import Optional

from changes import NO_DEFINITION, Change, all_changes, reached, try_changes
from commands import command
from emulator import CRATE
from evaluator import Definitions
from in_c import library
from source import declared, read
from tally import Tally, stated
from values import NONE, Value, apply, data, some, to_list

CONFIG = CRATE.parent / "dn_config"
FAULT, LINE_FAULT, ROOM = Struct("=QII"), 8, 1024
KINDS = ("", "UnknownWord", "MissingValue", "BadNumber", "OutOfRange", "LeftOut", "NeedsPipe")
NUMBERS = ("", *"0 1 01 x 16 50 100 101 1024 1025 3600000 3600001 10000 10001 65535 65536 65537".split())
VALUES = {
    "bw": ("0", "1", "8bit/s", "8bits/s", "8byte/s", "8bytes/s", "8Kbit/s", "8Mbyte/s", "8gbit/s", "1000Gbit/s", "1001Gbit/s", "8k", "8kk", "8x", "eth0", "bit/s",
           "1000000000000", "1000000000001", "[", "01bit/s"),
    "delay": ("0", "5ms", "5MS", "5s", "3600000", "3600001", "ms"),
    "queue": ("0", "1", "10000", "10001", "1K", "1KB", "1Kbyte", "1024Kbytes", "1025Kbytes", "1kbit", "0kb"),
    "plr": ("0", "1", "0.5", ".5", "5.", ".", "1.0", "1.1", "0.1x", "0.123456789012345678", "0.1234567890123456789", "1234567890123456789", "0.0000000004", "2"),
    "buckets": ("16", "15", "65536", "65537"),
    "weight": ("1", "100", "0", "101"),
    "pipe": ("1", "65535", "0", "65536"),
    "mask": ("", "all", "all all", "src-ip 0xff", "src-ip 255", "dst-ip 0xffffffff", "dst-ip 4294967296", "proto 0xFF", "proto 256", "src-ip 4294967295", "src-ip 4294967296", "src-port 65535 dst-port 1", "src-port 65536",
             "dst-port 65536", "src-port 0x", "src-ip /8", "src-ip", "src-ip6 1", "src-ip 0Xg", "src-ip 1 src-ip 2", "all src-ip6", "foo", "proto 1 foo",
             "proto all", "src-ip src-ip6", "dst-ip 0x0000000000000000f", "proto 08"),
}  # fmt: skip
HEADS = (
    "", "#", " \t\r", "pipe", "queue", "sched", "ipfw", "ipfw pipe 1 delete", "ipfw pipe", "ipfw ipfw pipe 1 delete", "pipe 1", "pipe x", "pipe 1 x", "pipe 1 show",
    "pipe show", "queue list", "pipe 1 list", "sched 1 config", "pipe delete", "pipe delete 1", "queue delete 1", "queue 1 delete", "pipe delete 1 x", "pipe 1 delete x",
    "pipe delete x", "pipe delete 0", "pipe delete show", "x", "PIPE 1 config", "pipe 1 config", "queue 1 config", "queue 1 config pipe 2", "pipe 1 config # bw x",
    "pipe\t1\rconfig", "pipe 1 config#", "pipe 1 config ecn", "pipe 1 config delay 5 ecn", "pipe 1 config x", "pipe 1 config bw bw", "queue 1 config weight 5 queue 7",
    "pipe 1 config delay 5 delay 6", "queue 1 config pipe 2 weight 3 buckets 64 plr 0.25 mask all", "pipe 1 config mask all bw 1", "pipe 1 config mask proto 1 mask all",
    "pipe 1 config mask src-ip 1 mask", "pipe 1 config bw 1 delay 2 queue 3 plr 0.5 buckets 32 mask src-ip 1 dst-ip 2 proto 3 src-port 4 dst-port 5",
    "pipe 1 config mask src-ip6 1", "pipe 1 config src-ip 1", "pipe 1 config flow-id 1", "pipe 1 config mask flow-id", "queue 1 config pipe 2 bw 1", "pipe 1 config delay",
    "pipe 1 config mask src-ip 1 dst-ip x", "pipe 1 config mask src-ip 1 proto 2 dst-ip", "pipe 1 config plr 000000000000000001", "pipe 1 config mask src-ip 1xf", "pipe 1 config mask src-ip 0Xf", "pipe 1 config mask src-ip 0x0", "pipe 1 config mask all proto 300", "pipe 1 config mask all all src-ip x",
    "queue 1 config x pipe", "pipe 1 config mask proto queue 5", "pipe 1 config bw eth0 x", "queue 1 config bw 1", "pipe 1 config weight 1",
)  # fmt: skip


FOREIGN = "red gred ecn codel pie fq_codel fq_pie sched burst profile noerror src-ip6 dst-ip6 flow-id".split()


# The changes that no line shows, by definition and number, each with the reason.
AT_FAULT, NO_VALUE = "the word behind is refused where it stands", "`all` has no value"
UNSEEN = {
    "Groups.field_goes_on 1": AT_FAULT,
    "Groups.mask_len_after 1": "no more words are there to take",
    "Groups.group_len 1": AT_FAULT,
    "Groups.field_then 1": NO_VALUE,
    "Groups.last_field 1": NO_VALUE,
    "Values.rate_parts 1": "a loss rate from 10 is out of range",
}


def corpus() -> Iterator[str]:
    """Yields lines: heads, each number as a pipe's number, and each option by itself, after another option and before another."""
    yield from HEADS
    yield from (f"pipe 1 config {words}{word}" for word in FOREIGN for words in ("", "mask proto 1 "))
    yield from (f"{kind} {number} config pipe 1" for kind in ("pipe", "queue") for number in NUMBERS)
    for option, values in VALUES.items():
        for value in ("", *values, *NUMBERS):
            yield f"pipe 1 config {option} {value}".rstrip()
        for value in ("", *values[:6]):
            yield f"queue 1 config pipe 2 {option} {value}"
            yield f"pipe 1 config delay 7 {option} {value} queue 9"


def told(line: str) -> Value:
    """Returns what the C library reads of a line."""
    fault = ctypes.create_string_buffer(FAULT.size)
    text = ctypes.create_string_buffer(ROOM)
    length = ctypes.c_uint64()
    given = line.encode()
    words = (ctypes.c_uint64(0), given, ctypes.c_size_t(len(given)), ctypes.c_uint32(0), fault, text, ctypes.c_size_t(ROOM))
    if library().dn_configure_text(*words, ctypes.byref(length)) == LINE_FAULT:
        word, kind, _ = FAULT.unpack(fault.raw)
        return data("Err", data(f"LineFault.{KINDS[kind]}", word))
    first = text.raw[: length.value].decode().split("\n", 1)[0]
    return data("Ok", some(command(first.split(",", 3)[3])) if first else NONE)


def texts() -> dict[str, str]:
    """Returns the specs by module."""
    top = CONFIG / "specs"
    return {".".join(path.relative_to(top).with_suffix("").parts): path.read_text() for path in sorted(top.rglob("*.antt"))}


@cache
def types() -> dict[str, dict[str, int]]:
    return {**declared(CRATE / "src"), **declared(CONFIG / "src")}


def definitions_of(of: dict[str, str]) -> Definitions:
    return Definitions({name: read(text, types(), "dn_config") for name, text in of.items()})


def first_difference(definitions: Definitions, lines: Sequence[tuple[str, Value]]) -> str:
    """Returns the first line that the definitions read otherwise."""
    answer = definitions.value("Line", "answer")
    return next((repr(line) for line, wanted in lines if apply(answer, to_list(line.encode())) is not wanted), "")


def all_of() -> list[Change]:
    return all_changes(texts(), reached(definitions_of(texts()).specs, ["Line.answer"]))


def compare(tally: Tally) -> None:
    """The right definitions read each line as the library does, and each change reads one otherwise."""
    read_by = [(line, told(line)) for line in corpus()]
    print(f"configuration: {len(read_by)} lines")
    tally.note("the definitions of lines", first_difference(definitions_of(texts()), read_by))

    def differs(change: Change) -> Optional[str]:
        try:
            return first_difference(definitions_of(change.specs(texts())), read_by)
        except NO_DEFINITION:
            return None

    seen, unseen = try_changes(tally, all_of(), differs, UNSEEN)
    of_changes = f"Of {seen + unseen} mechanical changes of the text {seen} read a line otherwise, and the other {unseen} "
    stated(tally, "docs/TRUST.md", f"tested: {len(read_by)} lines, as the library reads them. {of_changes}")
