"""A capture's IP packets from the program hinge-packets; hosts/packets/main.c describes the answers."""

from __future__ import annotations

import os
import socket
from array import array
from contextlib import ExitStack, contextmanager, suppress
from functools import cache, cached_property
from struct import Struct
from typing import BinaryIO, Callable, Iterator, NamedTuple, Optional, Sequence, cast

from hinge.border.files import Input, untrusted
from hinge.border.programs import PIPE, Process, begun, how_ended
from hinge.border.scratch import unnamed
from hinge.captures.capture_reader import plain_capture
from hinge.command import FILES, ROWS, Fault, say
from hinge.program import packets_program

NAME = "hinge-packets"
PORTED = {6: "tcp", 17: "udp", 132: "sctp", 136: "udp", 33: "dccp"}
# the records of the program's answer
HEAD = Struct("=6Q")
ADDRESS = Struct("=16sQ")
FLOW = Struct("=IIHHBBxx")
FRAME = Struct("=QqQII")
COUNTS = Struct("=7Q")
MEETING = Struct("=3I")
NOT_VALID = "a block of the capture isn't valid"
MAPPED = 0xFFFF << 32  # the bits above an IPv4 address in an IPv6 number
FASTEST = 1 << 62  # bit/s, at which any packet takes 1 ns
FAULT = 4  # the program's exit status for a fault
SYSTEM = (5, 6)  # the exit statuses if the system refuses a call


class Frame(NamedTuple):
    """The properties of a frame that rules look at. The frames of a flow differ only in their numbers."""

    number: int
    src: str
    dst: str
    proto: int
    sport: int
    dport: int
    dscp: int


class FrameColumns(NamedTuple):
    """The properties of many frames in columns. Addresses are indices into a list of IPv6 numbers, which `addresses` returns."""

    addresses: Callable[[], Sequence[int]]
    src: Sequence[int]
    dst: Sequence[int]
    proto: Sequence[int]
    sport: Sequence[int]
    dport: Sequence[int]
    dscp: Sequence[int]


class Packet(NamedTuple):
    """An IP packet. `time` is in ns since 1970. `length` is the IP packet's length, and `headers` the length of its IP and
    transport headers."""

    frame: Frame
    time: int
    length: int
    headers: int


class FrameCounts(NamedTuple):
    """Packet counts, with a field for each result."""

    rows: int
    bytes: int
    split: int
    cut: int
    strays: int  # frames without a target
    stand_ins: int
    meetings: int  # pairs of hosts with both directions in one pipe or queue


class RowPlan(NamedTuple):
    """How rows are written: `mtu` is the longest packet that a card cuts from a segment, in bytes, or 0 without segmentation;
    `rate` is the card's rate in bit/s, or 0 if the card sends the packets at once; the link adds `l2` bytes."""

    mtu: int = 0
    rate: int = 0
    l2: int = 0
    seed: int = 1


class Capture:
    """A capture that the program hinge-packets has read, and whose rows the program will write. Flows are in the order of their
    first frames."""

    def __init__(self, name: str, program: "Process[bytes]", by_frame: bool) -> None:
        self.name = name
        self.program = program
        self.read = cast(BinaryIO, program.stdout).read
        head = HEAD.unpack(self.whole(HEAD.size, f"{name}: "))
        self.frame_count, self.packet_count, self.long, self.is_cut, addresses, flows = head
        self.ends = self.whole(ADDRESS.size * addresses)
        self.address = cache(self.address_of)
        self.flows = self.whole(FLOW.size * flows)
        self.items = self.whole(FRAME.size * self.packet_count) if by_frame else None

    def whole(self, size: int, prefix: str = "") -> bytes:
        """Returns `size` bytes of the program's answer. Fault, or OSError if the system refused a call: the program ended
        before."""
        data = self.read(size)
        if len(data) < size:
            text = cast(BinaryIO, self.program.stderr).read().decode(errors="replace")
            status = self.program.wait()
            if status in SYSTEM:
                raise OSError(int(text), os.strerror(int(text)))
            if status == FAULT:
                raise Fault(prefix + text, ROWS)
            raise Fault(f"{NAME} {how_ended(status)}", FILES)
        return data

    def address_of(self, number: int) -> str:
        address, is_six = ADDRESS.unpack_from(self.ends, number * ADDRESS.size)
        if is_six:
            return socket.inet_ntop(socket.AF_INET6, address)
        return socket.inet_ntop(socket.AF_INET, address[12:])

    @cached_property
    def keys(self) -> list[int]:
        """Returns the addresses as IPv6 numbers, which only rules about hosts need."""
        numbers = list[int]()
        for address, is_six in ADDRESS.iter_unpack(self.ends):
            number = int.from_bytes(address if is_six else address[12:], "big")
            numbers.append(number if is_six else MAPPED | number)
        return numbers

    def frame(self, number: int, flow: int) -> Frame:
        src, dst, sport, dport, proto, dscp = FLOW.unpack_from(self.flows, flow * FLOW.size)
        return Frame(number, self.address(src), self.address(dst), proto, sport, dport, dscp)

    def packets(self) -> Iterator[Packet]:
        """Yields all packets in order of time, if the program answered by frame."""
        for low, high, number, flow, length in FRAME.iter_unpack(self.items or b""):
            yield Packet(self.frame(number & (1 << 48) - 1, flow), (high << 64) + low, length, number >> 48)

    def asked(self) -> FrameColumns:
        """Returns the properties of one frame for each flow."""
        flows = self.flows
        halves = array("H", self.flows)
        words = array("I", self.flows)
        return FrameColumns(lambda: self.keys, words[0::4], words[1::4], flows[12::16], halves[4::8], halves[5::8], flows[13::16])

    def write(self, targets: "array[int]") -> tuple[FrameCounts, list[str], list[tuple[int, str, str]]]:
        """Writes the rows of `frames` for these targets (0: no target). Returns the counts, the stand-ins' IPv6 addresses, and the
        meetings: a target, the host that sends first, and the other host. Fault: the program didn't end well."""
        questions = cast(BinaryIO, self.program.stdin)
        with suppress(BrokenPipeError):
            questions.write(targets.tobytes())
            questions.close()
        counts = FrameCounts(*COUNTS.unpack(self.whole(COUNTS.size)))
        originals = array("I", self.whole(4 * counts.stand_ins))
        meetings = MEETING.iter_unpack(self.whole(MEETING.size * counts.meetings))
        hosts = [(target, self.address(first), self.address(second)) for target, first, second in meetings]
        status = self.program.wait()
        if status:
            raise Fault(f"{NAME} {how_ended(status)}", FILES)
        return counts, [*map(self.address, originals)], hosts


@contextmanager
def read_capture(capture: Input, plan: RowPlan, out: int, index: Optional[int] = None, by_frame: bool = False) -> Iterator[Capture]:
    """Yields a capture that the program has read. `Capture.write` then writes the rows to descriptor `out`, and the rows' frame
    numbers to `index`."""
    with ExitStack() as files:
        with untrusted(capture.name, what=NOT_VALID):
            source, is_whole = plain_capture(capture, files)
        os.lseek(source.fileno(), 0, os.SEEK_SET)  # which Python's own reading has moved
        # copies, since the program has answers and faults at the descriptors of standard output and standard error
        copies = [os.dup(number) for number in (source.fileno(), out, index) if number is not None]
        for number in copies:
            files.callback(os.close, number)
        descriptors = copies if index is not None else [*copies, -1]
        numbers = [*descriptors, plan.mtu, min(plan.rate, FASTEST), plan.l2, plan.seed, int(by_frame)]
        words = [packets_program(), *map(str, numbers)]
        program = files.enter_context(begun(words, stdin=PIPE, stdout=PIPE, stderr=PIPE, pass_fds=copies))
        files.callback(program.kill)
        with untrusted(capture.name):
            result = Capture(capture.name, program, by_frame)
        if result.is_cut or not is_whole:
            say(f"{capture.name}: the capture is cut short in the middle of a frame")
        yield result


def frame_count(capture: Input) -> int:
    """Returns a capture's number of frames, up to its truncation."""
    with unnamed() as (nothing, _), read_capture(capture, RowPlan(), nothing.fileno()) as result:
        count: int = result.frame_count
    return count
