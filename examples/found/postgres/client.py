"""Three clients insert numbers for 35 s into the primary of PostgreSQL, and an operator promotes the standby once the primary doesn't
answer twice; from then on nobody writes to the old one. Each number whose commit was acknowledged has to be in the table at the end."""

from __future__ import annotations

import struct
import sys
import time
from pathlib import Path

sys.path.insert(0, str(Path(__file__).parent.parent))
import operations as of
from operations import Refused, add_numbers, at_once, check_set, patiently, until

PRIMARY = ["n1"]  # and the standby behind it, once it was promoted
OPEN = dict[int, "Connection"]()


class Connection(of.Connection):
    """Statements of SQL to a node, by PostgreSQL's protocol."""

    def __init__(self, host: str, seconds: float = 10) -> None:
        super().__init__(host, 5432, seconds)
        self.host = host
        words = struct.pack("!i", 3 << 16) + b"user\0postgres\0database\0postgres\0\0"
        self.socket.sendall(struct.pack("!i", len(words) + 4) + words)
        self.rows()

    def rows(self) -> list[str]:
        """The first column of the answer. Refused: the node says that it did nothing. OSError: nobody knows."""
        found, kind = list[str](), b""
        while kind != b"Z":
            kind, length = struct.unpack("!ci", self.file.read(5) or b"E\0\0\0\4")
            body = self.file.read(length - 4)
            if kind in (b"E", b"N") and b"\0C57P03\0" not in body:
                raise OSError(body.decode() or "the node closed the connection")  # or a warning that only the primary has it
            if kind in (b"E", b"N"):
                raise Refused(body.decode())  # it is starting
            if kind == b"D":
                found.append(body[6:].decode())
        return found

    def ask(self, statement: str) -> list[str]:
        text = statement.encode() + b"\0"
        self.socket.sendall(b"Q" + struct.pack("!i", len(text) + 4) + text)
        return self.rows()


def ask(client: int, statement: str) -> None:
    """Asks the primary, by the client's connection or a new one."""
    host, connection = PRIMARY[-1], OPEN.pop(client, None)
    connection = connection if connection and connection.host == host else Connection(host, 2)
    connection.ask(statement)
    OPEN[client] = connection


def insert(client: int, number: int) -> None:
    ask(client, f"INSERT INTO s VALUES ({number})")


def operate() -> None:
    """Promotes the standby once the primary doesn't answer twice."""
    while until(35) and len(PRIMARY) == 1:
        try:
            patiently(lambda: ask(3, "SELECT 1"), 2, 0.2)
        except (OSError, Refused):
            patiently(lambda: Connection("n2").ask("SELECT pg_promote()"))
            PRIMARY.append("n2")
        time.sleep(0.5)


patiently(lambda: Connection("n1").ask("CREATE TABLE IF NOT EXISTS s (v int)"))
at_once(lambda client: add_numbers(client, insert, 35, 0.3) if client < 3 else operate(), 4)
time.sleep(10)
check_set(lambda: sorted(map(int, Connection(PRIMARY[-1]).ask("SELECT v FROM s"))))
