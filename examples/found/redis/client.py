"""Three clients add numbers for 60 s to a set on the master that a sentinel names, and one reads it once all nodes are back: each
number that was acknowledged has to be there."""

from __future__ import annotations

import sys
import time
from pathlib import Path
from typing import Any

sys.path.insert(0, str(Path(__file__).parent.parent))
import operations as of
from operations import Refused, add_numbers, at_once, check_set, patiently


class Connection(of.Connection):
    """Requests to a node of redis, by its text protocol."""

    def ask(self, words: str) -> Any:
        self.socket.sendall(words.encode() + b"\r\n")
        return self.answer()

    def answer(self) -> Any:
        line = self.file.readline()
        if not line:
            raise OSError("the node closed the connection")
        if line[:1] == b"*":
            return [self.answer() for _ in range(int(line[1:]))]
        if line[:1] == b"$":
            return self.file.read(int(line[1:]) + 2)[:-2].decode()
        if line[:1] == b"-":
            raise Refused(line.decode())
        return line[1:].strip().decode()


def master(sentinel: str) -> Connection:
    host, port = Connection(sentinel, 26379, 1).ask("SENTINEL GET-MASTER-ADDR-BY-NAME m")
    return Connection(host, int(port), 1)


def add(client: int, number: int) -> None:
    master(f"n{client + 1}").ask(f"SADD s {number}")


patiently(lambda: master("n3").ask("PING"))
at_once(lambda client: add_numbers(client, add, 60, 0.2), 3)
time.sleep(20)
check_set(lambda: sorted(map(int, master("n1").ask("SMEMBERS s"))))
