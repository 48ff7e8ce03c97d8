"""Describes the structs of hingetulip.h as bytes: their fields follow each other in this order and without gaps."""

from __future__ import annotations

from struct import Struct, calcsize
from typing import Union


class Layout:
    """The layout of a struct's fields."""

    def __init__(self, text: str) -> None:
        """Reads the fields from a text such as `Q moment, I src dst, 2x`: codes of the module `struct`, each before the names of
        its fields. The code `x` stands for reserved bytes."""
        self.codes: dict[str, str] = {}  # the fields' codes, by name
        for code, *names in map(str.split, text.split(",")):
            self.codes.update(dict.fromkeys(names or ["reserved"], code))
        self.record = Struct("=" + "".join(self.codes.values()))
        self.size = self.record.size

    def width(self, name: str) -> int:
        """Returns the length of a field in bytes."""
        return calcsize("=" + self.codes[name])

    def column(self, name: str, records: Union[bytearray, memoryview]) -> memoryview:
        """Returns a view of the field in all records of a buffer, which reads and writes the records."""
        earlier_codes = list(self.codes.values())[: list(self.codes).index(name)]
        offset = calcsize("=" + "".join(earlier_codes))
        width = self.width(name)
        return memoryview(records).cast("B").cast(self.codes[name])[offset // width :: self.size // width]


PIPE, QUEUE = 0, 1  # a target's kind, in the fields `kind` of packets and flows
PACKET = Layout("Q moment, I src dst word, H sport dport length number, B kind proto, 2x")
FATE = Layout("Q at flow packet, I outcome, 4x")
DELIVERY = Layout("Q due packet flow start, 8x")
FLOW = Layout("Q flow queued bytes lost full started discarded, I src dst, H sport dport number pipe, B kind proto, 6x")
FAULT = Layout("Q word, I kind, 4x")
ENTRY = Layout(f"{PACKET.size}s packet, {FATE.size}s fate, Q caller line size first count, I status, B call reply, 2x")
HISTORY = Layout("Q entries bytes deliveries flows, I rule, 4x")
VERDICT = Layout("Q entries first, I finding, 4x")
