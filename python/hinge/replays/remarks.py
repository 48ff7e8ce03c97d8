"""A live host's remarks in its transcript, which are records that begin with `#`: IPv6 addresses, the seed, flipped bits, and
lateness."""

from __future__ import annotations

import contextlib
from array import array
from typing import Iterator, Optional

from hinge.arguments import is_number
from hinge.captures.addresses import address_of_six
from hinge.lazy import Reals, few as np

NS_PER_S, NS_PER_MS = 10**9, 10**6
KINDS = ("late", "unread")
LEAST_LATE = 0.001  # ms, from which on lateness is reported and drawn; in simulated time lateness is less
# for each way (one direction of a link), and for `late` and `unread`: moments in s, and the maximum in ms up to each moment
Lateness = dict[str, dict[str, tuple[Reals, Reals]]]


def remarks_of(data: bytes, kind: bytes) -> Iterator[list[str]]:
    """Yields the fields after `#,KIND,` in each remark of this kind."""
    begin = b"\n#," + kind + b","
    at = data.find(begin)
    while at >= 0:
        end = data.find(b"\n", at + 1)
        yield data[at + len(begin) : end if end >= 0 else len(data)].decode("ascii", "replace").split(",")
        at = data.find(begin, at + 1)


def addresses_in(data: bytes) -> dict[str, str]:
    """Returns each stand-in's IPv6 address, from the remarks `#,address,STAND-IN,ADDRESS`."""
    table: dict[str, str] = {}
    for fields in remarks_of(data, b"address"):
        with contextlib.suppress(ValueError):
            table[fields[0]] = address_of_six(fields[-1])
    return table


def seed_in(data: bytes) -> Optional[str]:
    """Returns the seed of the host's draws, from the first remark `#,seed,N`."""
    return next((fields[0] for fields in remarks_of(data, b"seed") if fields[0].isdecimal()), None)


def words_in(data: bytes) -> dict[str, str]:
    """Returns each option's words in a run, from the last remark `#,asked,OPTION,LINE,WORDS`."""
    return {fields[0]: ",".join(fields[2:]) for fields in remarks_of(data, b"asked")}


def flips_in(data: bytes) -> dict[int, tuple[int, int]]:
    """Returns the flipped bit and the number of bits for each packet with a flipped bit, from the remarks
    `#,corrupt,PACKET,BIT,BITS,CONTENT`."""
    flips = (fields[:3] for fields in remarks_of(data, b"corrupt") if all(map(is_number, fields[:3])) and len(fields) == 4)
    return {int(packet): (int(bit), int(bits)) for packet, bit, bits in flips if int(bits)}


def lateness_in(data: bytes) -> Lateness:
    """Returns the host's lateness from the remarks `#,late,MOMENT`. Each remark continues with LATE and UNREAD for each way (one
    direction of a link), in ns."""
    numbers, width = array("q"), 1
    for fields in remarks_of(data, b"late"):
        if all(map(is_number, fields)) and len(fields) == (width if numbers else len(fields) | 1):
            width = len(fields)
            numbers.extend(map(int, fields))
    if not numbers:
        return {}
    moments, *columns = (np.array(numbers[place::width], np.int64) for place in range(width))
    return {
        way_name(number, len(columns) // 2): {
            kind: (moments / NS_PER_S, columns[2 * number + place] / NS_PER_MS) for place, kind in enumerate(KINDS)
        }
        for number in range(len(columns) // 2)
    }


def late_remark(late: float, unread: float) -> Iterator[str]:
    """Yields a text on a live host's maximum lateness, and the maximum time that packets lay unread, in ms, if either is
    noticeable."""
    if max(late, unread) >= LEAST_LATE:
        yield f"the host was late by {late:,.4g} ms and packets lay unread for {unread:,.4g} ms at most: the picture has each second"


def way_name(number: int, count: int) -> str:
    """Returns a way's name, `up` or `down`, with the link's number if there are several links. A way is one direction of a link."""
    way = "down" if number % 2 else "up"
    return way if count == 2 else f"link {number // 2 + 1} {way}"
