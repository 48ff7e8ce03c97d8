"""Six clients of registers in ZooKeeper, two on each node. A client writes another register before each read, so that a quorum has answered,
unless READS is `alone`."""

from __future__ import annotations

import json
import os
import struct
import sys
from pathlib import Path
from typing import Optional

sys.path.insert(0, str(Path(__file__).parent.parent))
import operations as of
from operations import Refused, check_registers

CREATE, READ, WRITE = 1, 4, 5
NO_NODE, BAD_VERSION, NODE_EXISTS = -101, -103, -110
EVERYBODY = struct.pack("!iii5si6si", 1, 31, 5, b"world", 6, b"anyone", 0)  # may do all to the register, which has no flags
ANY_VERSION, STAT = -1, 32  # bytes behind a value, before its version
OPEN = dict[int, "Connection"]()


def text(data: bytes) -> bytes:
    return struct.pack("!i", len(data)) + data


class Connection(of.Connection):
    """A session with a node, by ZooKeeper's protocol. Refused: the node takes no sessions."""

    def __init__(self, host: str) -> None:
        try:
            super().__init__(host, 2181, 2)
            self.ask(struct.pack("!iqiq", 0, 0, 4000, 0) + text(bytes(16)))
        except OSError as error:
            raise Refused from error

    def ask(self, request: bytes) -> bytes:
        self.socket.sendall(text(request))
        if not (length := self.file.read(4)):
            raise OSError("the node closed the connection")
        return self.file.read(struct.unpack("!i", length)[0])


def ask(client: int, kind: int, key: object, words: bytes) -> tuple[int, bytes]:
    """Returns an error about the register, or 0, and the answer."""
    connection = OPEN.pop(client, None) or Connection(f"n{client % 3 + 1}")
    answer = connection.ask(struct.pack("!ii", 1, kind) + text(f"/{key}".encode()) + words)
    error: int = struct.unpack("!i", answer[12:16])[0]
    if error not in (0, NO_NODE, BAD_VERSION, NODE_EXISTS):
        raise OSError(f"error {error}")
    OPEN[client] = connection
    return error, answer[16:]


def set_to(client: int, key: object, value: int, version: Optional[int] = ANY_VERSION) -> int:
    """Returns 0 if the register had the version, or, for None, if there was no register."""
    kind, rest = (CREATE, EVERYBODY) if version is None else (WRITE, struct.pack("!i", version))
    return ask(client, kind, key, text(json.dumps(value).encode()) + rest)[0]


def write(client: int, key: object, value: int) -> None:
    while set_to(client, key, value) and set_to(client, key, value, None):
        pass


def get(client: int, key: object) -> tuple[Optional[int], Optional[int]]:
    """Returns the value and its version."""
    if os.environ.get("READS") != "alone":
        write(client, "other", 0)
    error, answer = ask(client, READ, key, b"\0")
    if error:
        return None, None
    end = 4 + struct.unpack("!i", answer[:4])[0]
    return json.loads(answer[4:end]), struct.unpack("!i", answer[end + STAT : end + STAT + 4])[0]


def swap(client: int, key: int, old: Optional[int], new: int) -> bool:
    """Compares versions, since each version has one value."""
    value, version = get(client, key)
    return value == old and not set_to(client, key, new, version)


check_registers(lambda client, key: get(client, key)[0], write, swap)
