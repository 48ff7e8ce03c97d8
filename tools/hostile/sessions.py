"""Writes the calls of a session that a stranger would choose: deletes and links that could cost more than their count.

    python3 tools/hostile/sessions.py KIND COUNT FILE

Writes FILE, the standard input of `dummynet live`. The kinds are the functions of KINDS, each of which says what it makes.
"""

import argparse
import sys
from collections.abc import Callable, Iterator
from functools import partial
from pathlib import Path

sys.path.insert(0, str(Path(__file__).parent.parent / "oracle"))

from history import address_text  # noqa: E402

FIRST_ADDRESS = 10 << 24
LAST_NUMBER = 65_535
ROUNDS, ROUND = 20, 1_000_000  # of many links, and ns from one to the next


def configure(line: str) -> str:
    return f"c,0,configure,{line}\n"


def submit(target: str, source: int = FIRST_ADDRESS, length: int = 100, moment: int = 0) -> str:
    return f"c,0,submit,{target},{address_text(source)},10.0.0.1,17,1000,2000,{length},0,{moment}\n"


def queue_delete(flows: int) -> Iterator[str]:
    """Yields a slow pipe, a queue with `flows` flows of two packets each, its delete, and another packet on the link."""
    yield configure("pipe 1 config bw 1bit/s") + configure("queue 1 config pipe 1 mask all")
    yield configure("queue 2 config pipe 1")
    for flow in range(flows):
        yield 2 * submit("queue,1", FIRST_ADDRESS + flow)
    yield configure("queue delete 1") + submit("queue,2")


def delete_turns(flows: int) -> Iterator[str]:
    """Yields `flows` flows on a link, and as many rounds there: a queue, its packet, and its delete."""
    yield configure("pipe 1 config bw 1bit/s") + configure("queue 1 config pipe 1 mask all")
    for flow in range(flows):
        yield submit("queue,1", FIRST_ADDRESS + flow)
    for _ in range(flows):
        yield configure("queue 2 config pipe 1") + submit("queue,2") + configure("queue delete 2")


def emptied_pipes(links: int) -> Iterator[str]:
    """Yields `links` pipes with a waiting packet each, and their deletes."""
    for number in range(1, links + 1):
        yield configure(f"pipe {number} config bw 1bit/s") + 2 * submit(f"pipe,{number}")
    for number in range(1, links + 1):
        yield configure(f"pipe delete {number}")


def emptied_turns(links: int) -> Iterator[str]:
    """Yields `links` links of one pipe, and as many rounds at another: it is configured, gets two packets, and is deleted."""
    yield configure("pipe 1 config bw 1bit/s mask all")
    for flow in range(links):
        yield 2 * submit("pipe,1", FIRST_ADDRESS + flow)
    for _ in range(links):
        yield configure("pipe 2 config bw 1bit/s") + 2 * submit("pipe,2") + configure("pipe delete 2")


def idle_deletes(count: int) -> Iterator[str]:
    """So many flows, and as many queues on another pipe that are made and deleted without a packet."""
    yield configure("pipe 1 config bw 1bit/s mask all") + configure("pipe 2 config bw 1bit/s")
    for flow in range(count):
        yield submit("pipe,1", FIRST_ADDRESS + flow)
    for turn in range(count):
        queue = 1 + turn % LAST_NUMBER
        yield configure(f"queue {queue} config pipe 2") + configure(f"queue delete {queue}")


def reset_flows(kind: str, rounds: int) -> Iterator[str]:
    """Rounds of a queue with `mask all` on a slow pipe, a packet of a new address, and the delete. With `masks` the address
    stays, and each round has a new mask. With `pipe` the flows are a pipe's own. With `sent` each delete discards nothing."""
    rate = "bw 0" if kind == "sent" else "bw 1bit/s"
    target = "pipe" if kind == "pipe" else "queue"
    yield configure(f"pipe 1 config {rate}")
    for turn in range(rounds):
        mask = f"mask src-ip {FIRST_ADDRESS + turn:#x}" if kind == "masks" else "mask all"
        yield configure(f"pipe 1 config {rate} {mask}" if kind == "pipe" else f"queue 1 config pipe 1 {mask}")
        yield submit(f"{target},1", FIRST_ADDRESS + (0 if kind == "masks" else turn)) + configure(f"{target} delete 1")


def many_links(links: int) -> Iterator[str]:
    """So many pipes with a queue each, and rounds of a packet to each queue: no two in a row are on one link."""
    for number in range(1, links + 1):
        yield configure(f"pipe {number} config bw 8Mbit/s") + configure(f"queue {number} config pipe {number}")
    for turn in range(ROUNDS):
        for number in range(1, links + 1):
            yield submit(f"queue,{number}", length=1000, moment=turn * ROUND)
        yield f"c,0,collect,{turn * ROUND}\n"


KINDS: dict[str, Callable[[int], Iterator[str]]] = {
    **{
        kind.__name__.replace("_", "-"): kind
        for kind in (queue_delete, delete_turns, emptied_pipes, emptied_turns, idle_deletes, many_links)
    },
    **{f"reset-{kind}": partial(reset_flows, kind) for kind in ("queue", "masks", "pipe", "sent")},
}


def write(kind: str, count: int, file: Path) -> None:
    with file.open("w", encoding="ascii") as calls:
        calls.writelines(KINDS[kind](count))


if __name__ == "__main__":
    parser = argparse.ArgumentParser()
    parser.add_argument("kind", choices=KINDS)
    parser.add_argument("count", type=int)
    parser.add_argument("file", type=Path)
    words = parser.parse_args()
    write(words.kind, words.count, words.file)
