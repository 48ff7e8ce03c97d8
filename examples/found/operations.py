"""What clients of all systems share: connections, loops of operations, and ops.jsonl, in which each operation is a line of JSON. Begin and end
are of the monotonic clock, in seconds."""

from __future__ import annotations

import json
import random
import socket
import subprocess
import sys
import threading
import time
from pathlib import Path
from typing import Any, Callable, NoReturn, Optional

LOCK = threading.Lock()
BEGIN = time.monotonic()
FILE = Path(sys.argv[0]).with_name("ops.jsonl").open("w")


class Refused(Exception):
    """The system said that the operation didn't take place."""


class Connection:
    """A TCP connection, which ends with the last reference to it."""

    def __init__(self, host: str, port: int, seconds: float = 10) -> None:
        self.socket = socket.create_connection((host, port), seconds)
        self.file = self.socket.makefile("rb")


def operation(client: int, key: Any, op: str, call: Callable[[], Any], **words: Any) -> Any:
    """What the call returns, which is the result of an operation that reads. An operation whose call fails may have taken place; the
    system's libraries have exceptions of many kinds."""
    row: dict[str, Any] = {"client": client, "key": key, "op": op, **words, "begin": round(time.monotonic() - BEGIN, 9)}
    result = None
    try:
        result = call()
        row["end"] = round(time.monotonic() - BEGIN, 9)
        if op in ("read", "cas", "get"):
            row["result"] = result
    except (Refused, ConnectionRefusedError):
        row["ok"] = False
    except Exception as error:
        row["error"] = repr(error)
    with LOCK:
        print(json.dumps(row), file=FILE, flush=True)
    return result


def judge(model: str) -> NoReturn:
    """Ends the program, and so the run, with the status of `hinge check`."""
    kit = Path(__file__).resolve().parents[2] / "hinge"
    sys.exit(subprocess.call([kit, "check", "ops.jsonl", "--model", model], cwd=Path(FILE.name).parent))


def at_once(work: Callable[[int], None], clients: int) -> None:
    """The work of clients numbered from 0, until all are done."""
    threads = [threading.Thread(target=work, args=(client,)) for client in range(clients)]
    for thread in threads:
        thread.start()
    for thread in threads:
        thread.join()


def until(seconds: float) -> bool:
    """Whether so many seconds of the run haven't passed."""
    return time.monotonic() - BEGIN < seconds


def patiently(call: Callable[[], Any], tries: int = 60, pause: float = 1) -> Any:
    """What the call returns at its first try that doesn't fail. The last failure ends the program, and so the run."""
    for _ in range(tries - 1):
        try:
            return call()
        except Exception:
            time.sleep(pause)
    return call()


def add_numbers(client: int, add: Callable[[int, int], Any], seconds: float = 40, pause: float = 0.05) -> None:
    """Adds every third number, from the client's own on, by calls that get the client and the number."""
    number = client
    while until(seconds):
        operation(client, "s", "add", lambda: add(client, number), value=number)
        number += 3
        time.sleep(pause)


def check_set(everything: Callable[[], list[int]]) -> NoReturn:
    """Reads all numbers that the system has, once it answers: each one that was acknowledged has to be there."""
    operation(9, "s", "read", lambda: patiently(everything))
    judge("set")


def check_registers(
    read: Callable[[int, int], Any], write: Callable[[int, int, int], Any], swap: Callable[[int, int, Optional[int], int], bool]
) -> NoReturn:
    """Six clients read, write, and compare and swap registers for 40 s, as chance decides, by calls that get the client and the register.
    Each second has a register, and each value is written once."""

    def work(client: int) -> None:
        draw = random.Random(random.SystemRandom().random())
        count = 0
        seen: Optional[int] = None
        while until(40):
            time.sleep(draw.random() * 0.2)
            key, count = int(time.monotonic() - BEGIN), count + 1
            new, choice = count * 6 + client, draw.random()
            if choice < 0.5:
                seen = operation(client, key, "read", lambda: read(client, key))
            elif choice < 0.75:
                operation(client, key, "write", lambda: write(client, key, new), value=new)
            else:
                operation(client, key, "cas", lambda: swap(client, key, seen, new), **{"from": seen, "value": new})

    at_once(work, 6)
    judge("cas")
