"""Reads packet files, which `dummynet replay` accepts, as packets for `submit_many`."""

from __future__ import annotations

import re
from ctypes import byref, c_char, c_char_p, c_size_t, c_uint64, c_void_p, cast
from pathlib import Path
from typing import Union

from hingetulip.batches import Packets
from hingetulip.errors import RowError
from hingetulip.layout import PACKET
from hingetulip.library import BAD_ROW, CALLS, failure

HEADER = b"moment,target,number,src,dst,proto,sport,dport,len,word"
MARK = b"\xef\xbb\xbf"  # a byte order mark, which the program skips too
QUOTED = re.compile(rb'(?<![^,])"([^",\r\n]*)(?:"(?!")|\Z)')  # a field that begins in quotes; the text's end closes them too


def rows_of(text: bytes) -> bytes:
    """Returns the text after the header. RowError: the first record isn't the header."""
    header, *rest = re.split(rb"([\r\n])", text.removeprefix(MARK).lstrip(b"\r\n"), maxsplit=1)
    line_end, rows = rest or (b"", b"")
    if header and QUOTED.sub(rb"\1", header + line_end).rstrip(b"\r\n") != HEADER:
        raise RowError(0, 0)
    return rows


def address(text: bytes) -> int:
    """Returns the address of a text in memory."""
    return cast(c_char_p(text), c_void_p).value or 0


def read_packets(file: Union[str, Path, bytes]) -> Packets:
    """Returns a packet file's packets, from its path or bytes, in row order.

    RowError: a row isn't in the packet format, or the first line isn't the header.
    """
    rows = rows_of(file if isinstance(file, bytes) else Path(file).read_bytes())
    records = bytearray(PACKET.size * (rows.count(b"\n") + rows.count(b"\r") + 1))
    text = address(rows)
    packets = (c_char * len(records)).from_buffer(records)
    count, length, row, field = (c_uint64() for _ in range(4))
    results = byref(count), byref(length), byref(row), byref(field)
    at = 0  # the bytes that are read
    total = 0  # the packets that are read
    while at < len(rows):
        room = len(records) // PACKET.size - total
        rest = c_void_p(text + at), c_size_t(len(rows) - at)
        status = CALLS.dn_read_packets(*rest, byref(packets, PACKET.size * total), c_size_t(room), *results)
        if status == BAD_ROW:
            raise RowError(total + row.value, field.value)
        if status:
            raise failure(status)
        at += length.value
        total += count.value
    return Packets.of_records(memoryview(records)[: PACKET.size * total])
