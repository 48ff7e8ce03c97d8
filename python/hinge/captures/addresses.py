"""The IPv6 addresses behind a packet file's IPv4 stand-ins, in a second file such as `packets.csv.addresses`."""

from __future__ import annotations

import csv
import ipaddress
from pathlib import Path
from typing import Callable, Container

from hinge.border.files import is_beside, lines_in, read_front, untrusted
from hinge.command import FILES, ROWS, Fault
from hinge.outputs import written

NAMES = ["stand-in", "address"]
FORM = f"it isn't of the form {','.join(NAMES)}"
FIRST_OF_240 = 0xF0000001


class StandIns:
    """IPv4 addresses for packet files without IPv6: each IPv6 address gets the next address from 240.0.0.0/4."""

    def __init__(self) -> None:
        self.stand_ins: dict[str, str] = {}

    def of(self, address: str) -> str:
        if ":" not in address:
            return address
        if address not in self.stand_ins:
            self.stand_ins[address] = str(ipaddress.ip_address(FIRST_OF_240 + len(self.stand_ins)))
        return self.stand_ins[address]


def addresses_file(packets: str) -> Path:
    """Returns the path to the file beside a packet file."""
    return Path(f"{packets}.addresses")


def write_addresses(packets: str, addresses: StandIns) -> None:
    """Writes the file beside a packet file. Without IPv6 addresses, an old file is removed. Fault: a file of that name has other
    content."""
    path = addresses_file(packets)
    head = f"{','.join(NAMES)}\n"
    is_ours = path.is_file() and read_front(path, len(head)) == head.encode()
    if not addresses.stand_ins:
        if is_ours:
            path.unlink()
        return
    if path.exists() and not is_ours:
        raise Fault(f"{path}: addresses of IPv6 are to be in it, and it has something else: take it away", FILES)
    with written(path) as place:
        place.write_text(head + "".join(f"{own},{address}\n" for address, own in addresses.stand_ins.items()))


def address_of_six(text: str) -> str:
    """Returns an IPv6 address in its canonical form. ValueError: the text is none, or contains a zone, which may be any text."""
    if "%" in text:
        raise ValueError(text)
    return str(ipaddress.IPv6Address(text))


def read_addresses(packets: str, used: Callable[[], Container[str]]) -> dict[str, str]:
    """Returns the IPv6 address for each stand-in that is used, so that no other takes memory; an empty dict without a file.
    Fault: a line is malformed."""
    path = addresses_file(packets)
    if not is_beside(path):
        return {}
    table = dict[str, str]()
    wanted = used()
    with untrusted(path):
        rows = csv.reader(lines_in(path, errors="replace", said=None))
        if next(rows, []) != NAMES:
            raise Fault(f"{path}: {FORM}", ROWS)
        for row in rows:
            if len(row) != len(NAMES):
                raise Fault(f"{path}: {FORM}", ROWS)
            address = checked_address(path, row[1])
            if row[0] in wanted:
                table[row[0]] = address
    return table


def checked_address(path: Path, address: str) -> str:
    try:
        address_of_six(address)
    except ValueError:
        raise Fault(f"{path}: {address!r} isn't an address of IPv6", ROWS) from None
    return address
