"""Puts jobs into beanstalkd and takes all of them at the end: each job that was answered by `INSERTED` has to be there."""

from __future__ import annotations

import sys
from pathlib import Path

sys.path.insert(0, str(Path(__file__).parent.parent))
import operations as of
from operations import add_numbers, at_once, check_set


class Connection(of.Connection):
    """Requests by beanstalkd's text protocol."""

    def ask(self, line: str, expected: bytes) -> list[bytes]:
        self.socket.sendall(line.encode())
        words = self.file.readline().split()
        if not words or words[0] != expected:
            raise OSError(f"{line!r} was answered by {words}")
        return words

    def job(self) -> int:
        """What the next job holds."""
        _, _, size = self.ask("reserve-with-timeout 2\r\n", b"RESERVED")
        return int(self.file.read(int(size) + 2))


def put(client: int, number: int) -> None:
    Connection("n1", 11300).ask(f"put 1 0 600 {len(str(number))}\r\n{number}\r\n", b"INSERTED")


def everything() -> list[int]:
    """All jobs, which stay reserved until the connection ends."""
    connection, found = Connection("n1", 11300), set[int]()
    while True:
        try:
            found.add(connection.job())
        except OSError as error:
            if "TIMED_OUT" in str(error):
                return sorted(found)
            raise


at_once(lambda client: add_numbers(client, put), 3)
check_set(everything)
