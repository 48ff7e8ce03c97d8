"""Writes the examples: for each a configuration, a packet file, and the report by the independent reference.

    python3 tools/release/examples.py FOLDER

The random words and the jitter come from a generator that is seeded by the example's name and SEED, so they are the same in each run.
"""

import sys
from io import BytesIO
from pathlib import Path
from random import Random
from typing import Iterator, NamedTuple

sys.path.insert(0, str(Path(__file__).parent.parent / "oracle"))

from files import PACKET_HEADER  # noqa: E402
from program import outcome  # noqa: E402

MS = 1_000_000
# One by which the mobile link loses as many packets as its rate says.
SEED = 2


class Sender(NamedTuple):
    """A stream's target, with its addresses, protocol and ports."""

    target: str
    tuple: str


class Stream(NamedTuple):
    """Packets of equal length, one every `gap` ns from `first` on, each delayed by up to `jitter` ns."""

    sender: Sender
    count: int
    first: int
    gap: int
    length: int
    jitter: int = 0


class Packet(NamedTuple):
    moment: int
    sender: Sender
    len: int


class Example(NamedTuple):
    """A name, streams, and configuration lines."""

    name: str
    streams: list[Stream]
    config: str


def to_pipe(number: int, host: int, port: int = 443, proto: int = 6) -> Sender:
    return Sender(f"pipe,{number}", f"192.168.1.{host},203.0.113.9,{proto},{40000 + host},{port}")


def to_queue(number: int, host: int, port: int = 443, proto: int = 6) -> Sender:
    return Sender(f"queue,{number}", to_pipe(1, host, port, proto).tuple)


def burst(sender: Sender, count: int, moment: int, length: int) -> Stream:
    """Packets that are sent at once."""
    return Stream(sender, count, moment, 0, length)


def bulk_and_voice(bulk: Sender, voice: Sender) -> list[Stream]:
    return [burst(bulk, 40, 0, 1500), Stream(bulk, 90, 6 * MS, 6 * MS, 1500, MS), Stream(voice, 30, 5 * MS, 20 * MS, 200)]


# fmt: off
EXAMPLES = (
    Example("dsl", [Stream(to_pipe(1, 10), 120, 0, MS, 1500, MS // 4), Stream(to_pipe(2, 10), 60, 0, 2 * MS, 52, MS // 4),
                    Stream(to_pipe(2, 11), 20, 10 * MS, 12 * MS, 1500)],
            "# A DSL line: 16 Mbit/s towards the house, 1 Mbit/s from it\npipe 1 config bw 16Mbit/s delay 12ms queue 60\n"
            "pipe 2 config bw 1Mbit/s delay 12ms queue 30\n"),
    Example("cable", [*(burst(to_pipe(1, 10), 40, turn * 10 * MS, 1500) for turn in range(4)),
                      Stream(to_pipe(2, 10), 40, 0, MS, 52, MS // 10)],
            "# A cable modem: 100 Mbit/s down, 10 Mbit/s up, queues by bytes\n"
            "pipe 1 config bw 100Mbit/s delay 8ms queue 50Kbytes\npipe 2 config bw 10Mbit/s delay 8ms queue 50Kbytes\n"),
    Example("satellite", [Stream(to_pipe(1, 10), 100, 0, 7 * MS, 1500, MS), Stream(to_pipe(1, 11, 5004, 17), 60, 0, 20 * MS, 200, MS)],
            "# One way over a geostationary satellite\npipe 1 config bw 2Mbit/s delay 270ms queue 40\n"),
    Example("mobile", [Stream(to_pipe(1, 10), 200, 0, 2 * MS, 1400, 2 * MS)],
            "# A mobile link that loses two packets in a hundred, by their random words\n"
            "pipe 1 config bw 12Mbit/s delay 35ms queue 100 plr 0.02\n"),
    Example("bufferbloat", bulk_and_voice(to_pipe(1, 10), to_pipe(1, 20, 5004, 17)),
            "# A long queue that an upload and a call share\npipe 1 config bw 2Mbit/s delay 10ms queue 100\n"),
    Example("fair", bulk_and_voice(to_queue(1, 10), to_queue(1, 20, 5004, 17)),
            "# The cure: a queue for each sender, by a mask, and each has its share\npipe 1 config bw 2Mbit/s delay 10ms\n"
            "queue 1 config pipe 1 queue 100 mask src-ip 0xffffffff\n"),
    Example("weights", [Stream(to_queue(number, 10 * number), 60, 0, MS, 1000, MS // 10) for number in (1, 2, 3)],
            "# Three classes share 6 Mbit/s as 3 : 2 : 1\npipe 1 config bw 6Mbit/s\nqueue 1 config pipe 1 weight 3 queue 100\n"
            "queue 2 config pipe 1 weight 2 queue 100\nqueue 3 config pipe 1 weight 1 queue 100\n"),
    Example("bytes", [*(burst(to_pipe(1, 10), 10, turn * 40 * MS, 1500) for turn in range(6)),
                      Stream(to_pipe(1, 11, 53, 17), 120, MS, 2 * MS, 80)],
            "# A queue of 8 Kbytes: it takes a packet while what waits isn't more than that\n"
            "pipe 1 config bw 4Mbit/s queue 8Kbytes\n"),
    Example("policed", [Stream(to_pipe(1, 10), 120, 0, 2 * MS, 1000, MS),
                        *(burst(to_pipe(1, 11), 10, (20 + 60 * turn) * MS, 1000) for turn in range(4))],
            "# An uplink that holds nothing back: one packet may wait\npipe 1 config bw 5Mbit/s queue 1\n"),
    Example("leased", [Stream(to_pipe(pipe, 10 * pipe, 5004, 17), 90, 0, 5 * MS, 1024) for pipe in (1, 2)],
            "# A leased line of 2,048 kbit/s each way\npipe 1 config bw 2048Kbit/s delay 3ms\n"
            "pipe 2 config bw 2048Kbit/s delay 3ms\n"),
    Example("unlimited", [burst(to_pipe(1, 10), 20, turn * 3 * MS, 1500) for turn in range(5)],
            "# Delay alone: no bandwidth, so no packet waits\npipe 1 config delay 100ms\n"),
)
# fmt: on


def packets(stream: Stream, rng: Random) -> Iterator[Packet]:
    for i in range(stream.count):
        delay = rng.getrandbits(32) % stream.jitter if stream.jitter else 0
        yield Packet(stream.first + i * stream.gap + delay, stream.sender, stream.length)


def rows(example: Example) -> str:
    """Returns the packet file: rows by moment, each with its random word."""
    rng = Random(f"{example.name}, {SEED}")
    sent = sorted((packet for stream in example.streams for packet in packets(stream, rng)), key=lambda packet: packet.moment)
    lines = [f"{p.moment},{p.sender.target},{p.sender.tuple},{p.len},{rng.getrandbits(32)}" for p in sent]
    return "".join(f"{line}\n" for line in [PACKET_HEADER, *lines])


def main(folder: str) -> None:
    place = Path(folder)
    place.mkdir(exist_ok=True)
    for example in EXAMPLES:
        (place / f"{example.name}.config").write_text(example.config)
        (place / f"{example.name}.csv").write_text(rows(example))
        done = outcome(["replay", f"{example.name}.config", f"{example.name}.csv"], BytesIO(), place)
        if done.status:
            sys.exit(f"{example.name}: {done.stderr.decode()}")
        (place / f"{example.name}.report").write_bytes(done.stdout)


if __name__ == "__main__":
    main(*sys.argv[1:])
