"""The messages of a control socket. Each message is a JSON object in a line; unknown kinds, parts or types are refused."""

from __future__ import annotations

import json
import socket
import time
from dataclasses import asdict, dataclass, fields, is_dataclass
from functools import lru_cache
from typing import Any, Optional, TypeVar, Union, get_args, get_origin, get_type_hints

Kind = TypeVar("Kind")


@dataclass(frozen=True)
class Order:
    """A client's request to a run. One of the fields after `number` is set; the reply repeats the number."""

    number: int = 0
    change: Optional[str] = None  # a change of a link or host, in the words of a timeline
    enter: Optional[str] = None  # the host whose room the client enters
    status: bool = False
    end: bool = False


@dataclass(frozen=True)
class ObeyedLine:
    """A configuration line, the moment in ns at which the link obeyed or refused the line, and the reason for a refusal."""

    moment: int
    line: str
    refused: str = ""


@dataclass(frozen=True)
class Reply:
    """A run's reply to an order. Only the fields that answer the order are set."""

    number: int = 0
    refused: Optional[str] = None  # why the run refuses the order
    told: Optional[list[ObeyedLine]] = None  # the configuration lines of a change
    status: Optional[dict[str, Any]] = None
    entered: Optional[dict[str, str]] = None  # the host's environment variables; the host's doors come with this reply
    ended: bool = False


hints_of = lru_cache(get_type_hints)  # without the cache, each call would evaluate a class's annotations anew


class Strange(Exception):
    """Raised for a message that has an unknown form or is too long."""


def fitted(value: object, kind: Any) -> Any:
    """Returns a JSON value converted to a type; a dataclass is built from an object. Strange: the value has another type. KeyError,
    TypeError: the object has an unknown key, or lacks a key."""
    origin = get_origin(kind)
    parts = get_args(kind)
    if kind is Any or (kind in (int, str, bool, type(None)) and type(value) is kind):
        return value
    if origin is Union:  # Optional, since messages contain no other union
        return None if value is None else fitted(value, next(part for part in parts if part is not type(None)))
    if origin is list and isinstance(value, list):
        return [fitted(item, parts[0]) for item in value]
    if origin is dict and isinstance(value, dict):
        return {fitted(key, parts[0]): fitted(item, parts[1]) for key, item in value.items()}
    if is_dataclass(kind) and isinstance(value, dict):
        hints = hints_of(kind)
        return kind(**{key: fitted(item, hints[key]) for key, item in value.items()})
    raise Strange


def read_message(kind: type[Kind], text: bytes) -> Kind:
    """Returns the message in a line. Strange: the line contains no message of this kind."""
    try:
        record: Kind = fitted(json.loads(text), kind)
        return record
    except (ValueError, KeyError, TypeError, RecursionError, Strange):
        raise Strange(f"no message of the form {', '.join(part.name for part in fields(kind))}") from None


def message_line(message: Union[Order, Reply]) -> bytes:
    """Returns a message as a line of JSON, without the fields that are None, False or 0."""
    parts = {key: value for key, value in asdict(message).items() if value not in (None, False)}
    return json.dumps(parts).encode() + b"\n"


class Lines:
    """Reads lines of at most `longest` bytes from a socket. If `most_doors` isn't 0, also keeps the descriptors that come with the
    bytes, at most `most_doors` in each reading, in `doors`."""

    def __init__(self, connection: socket.socket, longest: int, most_doors: int = 0) -> None:
        self.connection = connection
        self.longest = longest
        self.most_doors = most_doors
        self.rest = b""  # the bytes after the last line
        self.doors: list[int] = []

    def next(self, patience: float) -> Optional[bytes]:
        """Returns the next line; None if the other end was closed before the line ended. Strange: the line is too long.
        TimeoutError: the line takes longer than `patience` seconds."""
        until = time.monotonic() + patience
        while b"\n" not in self.rest:
            if len(self.rest) > self.longest:
                raise Strange(f"a line of more than {self.longest:,} bytes")
            remainder = until - time.monotonic()
            if remainder <= 0:
                raise TimeoutError("timed out")
            self.connection.settimeout(remainder)
            more = self.received()
            if not more:
                return None
            self.rest += more
        text, _, self.rest = self.rest.partition(b"\n")
        return text

    def received(self) -> bytes:
        """Waits for bytes and returns them; an empty result means that the other end was closed."""
        if not self.most_doors:
            return self.connection.recv(1 << 16)
        data, doors, _, _ = socket.recv_fds(self.connection, 1 << 16, self.most_doors, socket.MSG_CMSG_CLOEXEC)
        self.doors += doors
        return data
