"""Clocks of hosts in simulated time. A host's time of day may be ahead of or behind other hosts, and may run faster or slower."""

from __future__ import annotations

import re
from typing import Iterable

from hinge.net.statements import Statement
from hinge.run.system import try_to_write
from hinge.run.words import duration, placed

SKEW = "at TIME skew HOST +TIME|-TIME [PPM]"
PLACE = "/proc/clocks"  # of the simulated machine's kernel
MOST_CLOCKS = 255  # the kernel's CLOCKS
MOST_PPM = 100_000
IN_REAL_TIME = "hosts have clocks of their own in simulated time alone; add --simulated"


def read_skew(statement: Statement) -> str:
    """Reads a skew such as `+2s`, `-300ms 100ppm` or `+0s -50.5ppm`; returns the skew in the kernel's words: the ns by which the
    clock is ahead, and the ns that the clock gains in each second from then on. Wrong: the words describe no skew."""
    word = statement.take(SKEW)
    if word[0] not in "+-":
        raise statement.wrong(word, f"how far the clock is ahead, as +2s, or behind, as -2s: {SKEW}")
    with placed(statement.place):
        length = duration(word[1:])
    ahead = length if word[0] == "+" else -length
    rate = statement.take(SKEW) if statement.peek() else "0ppm"
    match = re.fullmatch(r"([+-]?\d{1,6}(?:\.\d{1,3})?)ppm", rate, re.ASCII)
    if not match or abs(float(match[1])) > MOST_PPM:
        raise statement.wrong(rate, f"what the clock gains, as 100ppm or -50.5ppm, at most {MOST_PPM}ppm: {SKEW}")
    gain = round(float(match[1]) * 1000)  # ns in a second
    return f"{ahead} {gain}"


def clock_number(host: str, hosts: Iterable[str]) -> int:
    """Returns the number of a host's clock. Hosts after the last clock share the machine's clock, which is 0."""
    number = list(hosts).index(host) + 1
    return number if number <= MOST_CLOCKS else 0


def take_clock(number: int) -> None:
    """Assigns a clock to this process and its future children, if the kernel supports clocks."""
    try_to_write(PLACE, str(number))


def set_clock(number: int, skew: str) -> None:
    """Sets a host's clock to a skew in the kernel's words, if the kernel supports clocks."""
    try_to_write(PLACE, f"{number} {skew}")
