"""Three clients insert numbers into SQLite behind a server: each number whose commit was acknowledged has to be in the table at the end."""

from __future__ import annotations

import json
import sys
from pathlib import Path

sys.path.insert(0, str(Path(__file__).parent.parent))
from operations import Connection, add_numbers, at_once, check_set


def ask(line: str) -> list[int]:
    connection = Connection("n1", 2000)
    connection.socket.sendall(line.encode() + b"\n")
    answer: list[int] = json.loads(connection.file.readline())
    return answer


at_once(lambda client: add_numbers(client, lambda _, number: ask(str(number))), 3)
check_set(lambda: ask(""))
