"""Writes packet files and histories that a stranger would choose.

    python3 tools/hostile/inputs.py KIND COUNT FOLDER

Writes FOLDER/config and FOLDER/packets, or FOLDER/history. COUNT counts rows, flows or bytes, by the kind:

    chosen, spread        flows whose keys have one hash in a table without a secret (below), and as many others
    known                 flows whose keys have one hash in our table where its key is 0 (known_key.py)
    rows, flows, entries  the shortest rows, the shortest of a flow each, and the shortest entries, of so many bytes in all
    moment, address       one row that has a run of so many digits in that field, and no line feed
    plain, returns, mark, quoted-first, quoted    rows in that form of CSV

The hash that `chosen` attacks is the toolchain's default, a folded multiply with a fixed start: each word of a key is
joined to the state by xor, and the two halves of the product with a constant are joined by xor. The word before the last
holds the ports, so whoever knows the constant computes the state after it, and joins it to the last word, the addresses:
each key then multiplies the same number.
"""

import argparse
import sys
from collections.abc import Callable, Iterator
from functools import partial
from itertools import count, repeat
from pathlib import Path

sys.path.insert(0, str(Path(__file__).parent.parent / "oracle"))

from files import PACKET_HEADER  # noqa: E402
from history import address_text  # noqa: E402
from known_key import colliding  # noqa: E402

WORD = 1 << 64
START, SAME = 0x243F_6A88_85A3_08D3, 0x0123_4567_89AB_CDEF  # what all keys multiply first and last
MULTIPLIER = 0x9E37_79B9_7F4A_7C15 ^ 16  # 16 is twice the count of a word's bytes
PROTOCOL = 17
HEADER = f"{PACKET_HEADER}\n"
ALL, ROOMY, PLAIN = "pipe 1 config bw 8Gbit/s mask all\n", "pipe 1 config queue 10000\n", "pipe 1 config\n"
FRONT, SHOW, END = "dummynet-history,3\n", "c,0,show\nr,status,0\n", "end,{}\n"


def folded(number: int) -> int:
    product = number * MULTIPLIER
    return product % WORD ^ product // WORD


def flow_row(number: int, source: int, destination: int, ports: int) -> str:
    addresses = f"{address_text(source)},{address_text(destination)}"
    return f"{number},pipe,1,{addresses},{PROTOCOL},{ports >> 16},{ports & 0xFFFF},40,0\n"


def chosen(is_spread: bool, flows: int) -> Iterator[str]:
    """The state before the ports is of the words that all keys share: target, pipe and protocols, and the mask's addresses."""
    before = folded(folded(START ^ (2 << 32 | 1 << 16 | 0xFF << 8 | PROTOCOL)) ^ WORD - 1)
    yield HEADER
    for ports in range(flows):
        both = ports * MULTIPLIER % WORD if is_spread else folded(before ^ (0xFFFF_FFFF << 32 | ports)) ^ SAME
        yield flow_row(ports, both >> 32, both % (1 << 32), ports)


def known(flows: int) -> Iterator[str]:
    yield HEADER
    for number, key in enumerate(colliding(flows)):
        yield flow_row(number, *key)


def fill(texts: Iterator[str], size: int) -> Iterator[str]:
    """Yields the header, and texts up to the size in all."""
    yield HEADER
    size -= len(HEADER)
    for text in texts:
        size -= len(text)
        if size < 0:
            return
        yield text


def shortest_flows() -> Iterator[str]:
    """Yields a row for each flow: with ten one-digit numbers in addresses and ports at first."""
    for digits in count():
        a, b, c, d, e, f, g, h = (digits // 10**place % 10 for place in range(8))
        yield f"0,pipe,1,{a}.{b}.{c}.{d},{e}.{f}.{g}.{h},0,{digits // 10**8},0,1,0\n"


def rows(size: int) -> Iterator[str]:
    return fill(repeat("0,pipe,1,0.0.0.0,0.0.0.0,0,0,0,1,0\n"), size)


def flows(size: int) -> Iterator[str]:
    return fill(shortest_flows(), size)


def digits(front: str, size: int) -> Iterator[str]:
    yield HEADER + front + "1" * size


def form(kind: str, rows: int) -> Iterator[str]:
    end = "\r\n" if kind == "returns" else "\n"
    yield "\ufeff" if kind == "mark" else ""
    for number in range(rows + 1):
        line = f"{number - 1},pipe,1,10.0.0.1,10.0.0.2,17,1000,2000,{(number - 1) % 1500 + 1},0" if number else PACKET_HEADER
        is_quoted = kind == "quoted" or (kind == "quoted-first" and number == 1)
        yield (",".join(f'"{field}"' for field in line.split(",")) if is_quoted else line) + end


def entries(size: int) -> Iterator[str]:
    number = (size - len(FRONT) - len(END.format(size))) // len(SHOW)
    yield FRONT
    yield from repeat(SHOW, number)
    yield END.format(number)


# The configuration, None for a history, and the packets.
KINDS: dict[str, tuple[str | None, Callable[[int], Iterator[str]]]] = {
    "chosen": (ALL, partial(chosen, False)),
    "spread": (ALL, partial(chosen, True)),
    "known": (ALL, known),
    "rows": (ROOMY, rows),
    "flows": ("pipe 1 config mask all\n", flows),
    "entries": (None, entries),
    "moment": (PLAIN, partial(digits, "")),
    "address": (PLAIN, partial(digits, "0,pipe,1,10.0.0.")),
    **{kind: (ROOMY, partial(form, kind)) for kind in ("plain", "returns", "mark", "quoted-first", "quoted")},
}


def write(kind: str, size: int, folder: Path) -> None:
    config, texts = KINDS[kind]
    folder.mkdir(parents=True, exist_ok=True)
    if config is not None:
        (folder / "config").write_text(config)
    with (folder / ("history" if config is None else "packets")).open("w", encoding="utf-8", newline="") as file:
        file.writelines(texts(size))


if __name__ == "__main__":
    parser = argparse.ArgumentParser()
    parser.add_argument("kind", choices=KINDS)
    parser.add_argument("count", type=int)
    parser.add_argument("folder", type=Path)
    words = parser.parse_args()
    write(words.kind, words.count, words.folder)
