"""Publishes numbers to a stream of three replicas for 50 s, and reads the stream once all nodes are back: each number that was
acknowledged has to be there."""

from __future__ import annotations

import base64
import json
import sys
import time
from pathlib import Path
from typing import Any

sys.path.insert(0, str(Path(__file__).parent.parent))
import operations as of
from operations import add_numbers, at_once, check_set, patiently

STREAM = {"name": "S", "subjects": ["s.>"], "num_replicas": 3, "storage": "file"}


class Connection(of.Connection):
    """Requests to a node of NATS, by its text protocol."""

    def __init__(self, host: str, seconds: float = 5) -> None:
        super().__init__(host, 4222, seconds)
        self.count = 0
        self.socket.sendall(b'CONNECT {"verbose":false,"headers":true,"no_responders":true}\r\nSUB answer.* 1\r\n')

    def ask(self, subject: str, data: bytes = b"") -> dict[str, Any]:
        self.count += 1
        self.socket.sendall(f"PUB {subject} answer.{self.count} {len(data)}\r\n".encode() + data + b"\r\n")
        while line := self.file.readline().split():
            if line[0] == b"PING":
                self.socket.sendall(b"PONG\r\n")
            elif line[0] in (b"MSG", b"HMSG"):
                body = self.file.read(int(line[-1]) + 2)
                if line[1] == b"answer.%d" % self.count:
                    answer: dict[str, Any] = json.loads(body) if line[0] == b"MSG" else {"error": body}
                    if "error" in answer:
                        raise OSError(answer["error"])
                    return answer
        raise OSError("the node closed the connection")


def publish(client: int, number: int) -> None:
    Connection(f"n{client + 1}", 2).ask("s.x", b"%d" % number)


def is_gone(error: OSError) -> bool:
    """Returns whether a node answered that there is no such message or stream."""
    return isinstance(error.args[0], dict) and error.args[0]["code"] == 404


def number_at(connection: Connection, place: int) -> set[int]:
    """The number at a place of the stream, none where the stream has no message there."""
    try:
        row = connection.ask("$JS.API.STREAM.MSG.GET.S", json.dumps({"seq": place}).encode())
        return {int(base64.b64decode(row["message"]["data"]))}
    except OSError as error:
        if is_gone(error):
            return set()
        raise


def everything() -> list[int]:
    """All numbers of the stream, each once."""
    connection = Connection("n1")
    state = connection.ask("$JS.API.STREAM.INFO.S")["state"]
    places = range(state["first_seq"], state["last_seq"] + 1) if state["messages"] else ()
    return sorted(set[int]().union(*(number_at(connection, place) for place in places)))


def all_that_is_left() -> list[int]:
    """A stream that isn't there after a minute without faults has lost all."""
    try:
        answer: list[int] = patiently(everything)
        return answer
    except OSError as error:
        if is_gone(error):
            return []
        raise


patiently(lambda: Connection("n1").ask("$JS.API.STREAM.CREATE.S", json.dumps(STREAM).encode()))
at_once(lambda client: add_numbers(client, publish, 50, 0.1), 3)
time.sleep(20)
check_set(all_that_is_left)
