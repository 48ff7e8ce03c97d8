"""The plain values of the reference: commands, calls, replies and entries."""

from dataclasses import dataclass
from enum import Enum
from typing import NamedTuple, Optional, Union

MAX_MOMENT = 2**62
MAX_U64 = 2**64 - 1
MAX_LEN = 65535
MAX_NUMBER = 65535
MAX_CALLERS = 16
FREE = "free"
ORDERED = "ordered"


class FiveTuple(NamedTuple):
    """A five-tuple, or the bits of a mask."""

    src: int = 0
    dst: int = 0
    proto: int = 0
    sport: int = 0
    dport: int = 0


NO_BITS = FiveTuple()
ALL_BITS = FiveTuple(2**32 - 1, 2**32 - 1, 255, 65535, 65535)


def masked(mask: FiveTuple, t: FiveTuple) -> FiveTuple:
    return FiveTuple(*(bits & value for bits, value in zip(mask, t)))


class Limit(NamedTuple):
    slots: Optional[int] = 50
    kbytes: Optional[int] = None


DEFAULT_LIMIT = Limit(50, None)


class Target(NamedTuple):
    kind: str  # 'pipe' or 'queue'
    number: int


class Packet(NamedTuple):
    tuple: FiveTuple
    len: int
    word: int


# Commands, calls and replies of different kinds are never equal, whatever their values, so they aren't tuples.


@dataclass(frozen=True)
class Pipe:
    number: int
    bw: int = 0
    delay: int = 0
    limit: Limit = DEFAULT_LIMIT
    loss: int = 0
    buckets: Optional[int] = None
    mask: FiveTuple = NO_BITS


@dataclass(frozen=True)
class Queue:
    number: int
    pipe: int
    weight: int = 1
    limit: Limit = DEFAULT_LIMIT
    loss: int = 0
    buckets: Optional[int] = None
    mask: FiveTuple = NO_BITS


@dataclass(frozen=True)
class Delete:
    target: Target


Command = Union[Pipe, Queue, Delete]


@dataclass(frozen=True)
class Configure:
    command: Command


@dataclass(frozen=True)
class Submit:
    """A packet that is sent, in a call or by a row of a packet file."""

    target: Target
    packet: Packet
    moment: int


@dataclass(frozen=True)
class Advance:
    moment: int


@dataclass(frozen=True)
class Collect:
    moment: int


@dataclass(frozen=True)
class Show:
    pass


Call = Union[Configure, Submit, Advance, Collect, Show]


class Bare(Enum):
    """A reply without numbers, by its name in a record."""

    CONFIGURED = "configured"
    NO_SUCH_PIPE = "no-such-pipe"
    DELETED = "deleted"
    PIPE_HAS_QUEUES = "pipe-has-queues"
    NO_SUCH_QUEUE = "no-such-queue"
    EXHAUSTED = "exhausted"


@dataclass(frozen=True)
class Queued:
    at: int
    flow: int
    packet: int


@dataclass(frozen=True)
class Lost:
    at: int
    flow: int


@dataclass(frozen=True)
class Full:
    at: int
    flow: int


@dataclass(frozen=True)
class NoTarget:
    at: int


@dataclass(frozen=True)
class Advanced:
    at: int


class Delivery(NamedTuple):
    due: int
    packet: int
    flow: int
    start: int


@dataclass(frozen=True)
class Delivered:
    at: int
    list: tuple[Delivery, ...]


class FlowKey(NamedTuple):
    target: Target
    pipe: int
    mask: FiveTuple
    tuple: FiveTuple


class FlowStatus(NamedTuple):
    flow: int
    key: FlowKey
    queued: int
    bytes: int
    lost: int
    full: int
    started: int
    discarded: int


@dataclass(frozen=True)
class Status:
    list: tuple[FlowStatus, ...]


Reply = Union[Bare, Queued, Lost, Full, NoTarget, Advanced, Delivered, Status]


class Entry(NamedTuple):
    caller: int
    call: Call
    reply: Reply
