"""Writes the inputs of a load: a configuration and a packet file.

    python3 bench/loads.py LOAD ROWS FOLDER

Writes FOLDER/LOAD.config and FOLDER/LOAD.csv. `pipe` is one pipe of 8 Gbit/s with 100 hosts on it, filled to nine tenths and more;
`queues` are 100 queues with weights 1 to 100 on such a pipe; `links` is a pipe with a link of its own for each of 16,384 flows;
`flows` are 40,000 flows over ten queues of 64 Kbytes that lose one packet of a hundred; `backlogged` are 10,000 flows of one queue to
which a tenth more is sent than the pipe carries, so that all of them wait; and `overload` and `crowd` are the same of 20,000 and of
320,000 flows. The same words give the same files.
"""

import sys
from collections.abc import Callable, Iterator
from functools import partial
from pathlib import Path

HEADER = "moment,target,number,src,dst,proto,sport,dport,len,word\n"
WORD = (1 << 64) - 1
SEED = 0x1234_5678_9ABC_DEF1


def draws() -> Iterator[int]:
    """Numbers of 64 bits by xorshift."""
    number = SEED
    while True:
        number ^= number << 13 & WORD
        number ^= number >> 7
        number ^= number << 17 & WORD
        yield number


def length(drawn: int, shift: int) -> int:
    return 64 + (drawn >> shift) % 1437


def pipe(r: int) -> tuple[int, str]:
    addresses = f"10.0.0.{r >> 8 & 255},10.0.1.{r >> 16 & 255}"
    return r % 1800, f"pipe,1,{addresses},17,{1000 + (r >> 24) % 100},2000,{length(r, 32)},{r >> 20 & 0xFFFFFFFF}"


def queues(r: int) -> tuple[int, str]:
    return (r >> 40) % 1560, f"queue,{1 + (r >> 20) % 100},10.0.0.1,10.0.0.2,17,1000,2000,{length(r, 32)},{r >> 16 & 0xFFFFFFFF}"


def links(r: int) -> tuple[int, str]:
    flow = f"10.0.0.{r >> 20 & 127},10.0.0.2,17,{r >> 30 & 127}"
    return (r >> 40) % 1800, f"pipe,1,{flow},2000,{length(r, 40)},{r >> 16 & 0xFFFFFFFF}"


def flows(r: int) -> tuple[int, str]:
    flow = f"10.0.{(r >> 9) % 4}.{(r >> 11) % 250},10.0.0.2,17,{1000 + (r >> 22) % 4}"
    return r % 1500, f"queue,{1 + r % 10},{flow},2000,{length(r, 32)},{r >> 20 & 0xFFFFFFFF}"


def backlogged(r: int) -> tuple[int, str]:
    flow = f"10.0.0.{(r >> 9) % 100},10.0.0.2,17,{1000 + (r >> 22) % 100}"
    return r % 1400, f"queue,1,{flow},2000,{length(r, 32)},{r >> 20 & 0xFFFFFFFF}"


def overload(flows: int, r: int) -> tuple[int, str]:
    flow = r % flows
    source = f"10.{flow >> 16}.{flow >> 8 & 255}.{flow & 255}"
    return (r >> 40) % 1400, f"queue,1,{source},10.0.0.2,17,1,2,{length(r, 32)},{r >> 20 & 0xFFFFFFFF}"


ONE_QUEUE = "pipe 1 config bw 8Gbit/s delay 5ms\nqueue 1 config pipe 1 queue 100 mask all\n"
CONFIGS = {
    "pipe": "pipe 1 config bw 8Gbit/s delay 5ms queue 1000\n",
    "queues": "pipe 1 config bw 8Gbit/s delay 5ms\n"
    + "".join(f"queue {n} config pipe 1 weight {n} queue 1000\n" for n in range(1, 101)),
    "links": "pipe 1 config bw 8Mbit/s queue 10 mask all\n",
    "flows": "pipe 1 config bw 8Gbit/s delay 20ms\n"
    + "".join(
        f"queue {n} config pipe 1 weight {n * 10} queue 64Kbytes plr 0.01 mask src-ip 0xffff src-port 0xffff\n"
        for n in range(1, 11)
    ),
    **dict.fromkeys(("backlogged", "overload", "crowd"), ONE_QUEUE),
}
ROWS: dict[str, Callable[[int], tuple[int, str]]] = {
    "pipe": pipe,
    "queues": queues,
    "links": links,
    "flows": flows,
    "backlogged": backlogged,
    "overload": partial(overload, 20_000),
    "crowd": partial(overload, 320_000),
}


def rows(load: str, count: int) -> Iterator[str]:
    moment = 0
    for _, drawn in zip(range(count), draws(), strict=False):
        later, row = ROWS[load](drawn)
        moment += later
        yield f"{moment},{row}\n"


def write(load: str, count: int, folder: Path) -> tuple[Path, Path]:
    """The configuration and the packet file of a load."""
    config, packets = folder / f"{load}.config", folder / f"{load}.csv"
    config.write_text(CONFIGS[load])
    with packets.open("w") as file:
        file.write(HEADER)
        file.writelines(rows(load, count))
    return config, packets


if __name__ == "__main__":
    write(sys.argv[1], int(sys.argv[2]), Path(sys.argv[3]))
