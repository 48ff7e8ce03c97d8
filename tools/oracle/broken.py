"""Configuration lines that are mostly faulty, and records of CSV with one thing changed.

All is a function of the random.Random that is handed in.
"""

from random import Random

from scenarios import Style, first_commands
from spelling import spell

# fmt: off
HARD_FIELDS = (
    b"", b"0", b"1", b"01", b"+1", b"-1", b" 1", b"1 ", b"16", b"65535", b"65536", b"255", b"256", b"4294967295",
    b"4294967296", b"4611686018427387904", b"4611686018427387905", b"18446744073709551615", b"18446744073709551616",
    b"1" + b"0" * 50, b"pipe", b"queue", b"Pipe", b"10.0.0.1", b"10.0.0", b"10.0.0.256", b"10.0.0.01", b"10.0.0.1.",
    b"10..0.1", b"\xff\xfe", b"caf\xc3\xa9", b'"1"', b'"', b'""', b'a"b', b'"1"2', b'"1', b"1e3", b"0x10", b"\xd9\xa1",
)
# fmt: on


def damaged_record(rng: Random, line: bytes) -> bytes:
    """The record with a field or a byte taken out, put in or changed."""
    fields = line.split(b",")
    at = rng.randrange(len(fields))
    what = rng.randrange(6)
    if what == 0:
        fields.pop(at)
    elif what == 1:
        fields.insert(at, rng.choice(HARD_FIELDS))
    elif what == 2 and line:
        i = rng.randrange(len(line))
        return line[:i] + bytes([rng.choice(b'0123456789,."crdf \r\xc3#-x')]) + line[i + 1 :]
    elif what == 3:
        return line + rng.choice((b",", b"0", b" ", b",0", b"\r", b"\x00"))
    else:
        fields[at] = rng.choice(HARD_FIELDS)
    return b",".join(fields)


WORDS = (
    "pipe queue config delete show list sched ipfw bw delay plr buckets mask weight all dst-ip src-ip dst-port src-port "
    "proto red gred ecn codel pie fq_codel fq_pie burst profile noerror src-ip6 dst-ip6 flow-id pipes Pipe CONFIG"
).split()
VALUES = (
    "0 1 2 01 +1 -1 50 100 101 15 16 65535 65536 65537 10000 10001 0x10 0x 0Xff 0xfffffffff 4294967295 4294967296 255 256 "
    "1K 1Kbytes 1024KB 1025K 0K 20MBytes 8Mbit/s 1MByte/s 125GByte/s 126GByte/s 1000G 1001G 1.5Mbit/s 8mbit/S 8Mbps 8KK tun0 em0 bw "
    "/24 /0 5ms 5MS 3600000 3600001 3600000ms ms . .5 0.5 1. 1.0 1.1 00.5 0.0000000000000000001 1e-3 0,5 1.000000000000000001 "
    "0.999999999999999999 999999999999999999 9999999999999999999 / # \u212a 1\u212a \u0661 \u00a0 --"
).split(" ")


def bad_line(rng: Random, style: Style) -> str:
    """Returns a good line with one to three words inserted, removed or changed."""
    commands = first_commands(rng, style)
    words = spell(rng, rng.choice(commands)).split("#")[0].split()
    for _ in range(rng.choice((1, 1, 1, 2, 3))):
        at = rng.randint(0, len(words))
        what = rng.randrange(5)
        if what == 0:
            words.insert(at, rng.choice(WORDS))
        elif what == 1:
            words.insert(at, rng.choice(VALUES))
        elif what == 2 and words:
            words.pop(min(at, len(words) - 1))
        elif words:
            words[min(at, len(words) - 1)] = rng.choice(rng.choice((WORDS, VALUES)))
    return " ".join(words)


def random_words_line(rng: Random) -> str:
    """Returns a line of options, each with a value that may suit it."""
    kind = rng.choice(("pipe", "queue"))
    words = [kind, str(rng.randint(1, 3)), "config"]
    for _ in range(rng.randint(0, 4)):
        words.append(
            rng.choice(WORDS[8:] if rng.random() < 0.3 else ("bw", "delay", "queue", "plr", "buckets", "mask", "weight", "pipe"))
        )
        if words[-1] == "mask":
            for _ in range(rng.randint(0, 3)):
                words.append(rng.choice(("all", "dst-ip", "src-ip", "dst-port", "src-port", "proto")))
                if words[-1] != "all" and rng.random() < 0.9:
                    words.append(
                        rng.choice(("0", "1", "255", "256", "65535", "65536", "0xff", "0xFFFFFFFF", "0x100000000", "/8", "01"))
                    )
        elif rng.random() < 0.95:
            words.append(rng.choice(VALUES))
    return " ".join(words)
