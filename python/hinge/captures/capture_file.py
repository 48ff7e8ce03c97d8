"""Frames as bytes, for writing classic pcap files with nanoseconds."""

from __future__ import annotations

import mmap
import os
import struct
from contextlib import ExitStack, contextmanager
from dataclasses import dataclass
from typing import IO, BinaryIO, Iterator, NamedTuple

from hinge.border.files import read_again, untrusted
from hinge.border.programs import asked
from hinge.border.scratch import unnamed
from hinge.captures.capture_reader import OF_EDITCAP, counted_alike
from hinge.captures.frames import frame_count
from hinge.command import ROWS, Fault, path_of_program

FILE_HEADER, RECORD = struct.Struct("<IHHiIII"), struct.Struct("<IIII")
NANOSECONDS = 0xA1B23C4D
NS_PER_S, SECONDS_END = 10**9, 2**32


class Record(NamedTuple):
    """A frame: its time in ns since 1970, its original length, and its bytes' place in the file."""

    time: int
    length: int
    begin: int
    end: int


@dataclass(frozen=True)
class CaptureFile:
    """The frames of a capture, in order."""

    link_type: int
    data: mmap.mmap
    records: list[Record]


def read_frames(file: IO[bytes]) -> CaptureFile:
    data = mmap.mmap(file.fileno(), 0, access=mmap.ACCESS_READ)
    *_, link_type = FILE_HEADER.unpack_from(data)
    records = []
    at = FILE_HEADER.size
    while at + RECORD.size <= len(data):
        seconds, ns, part, length = RECORD.unpack_from(data, at)
        at += RECORD.size
        records.append(Record(seconds * NS_PER_S + ns, length, at, at + part))
        at += part
    return CaptureFile(link_type, data, records)


@contextmanager
def capture_file(name: str) -> Iterator[CaptureFile]:
    """Yields a capture of any format, converted by editcap to a classic pcap file with nanoseconds. Fault: editcap fails, or counts
    frames differently."""
    with read_again(name, None) as capture, unnamed() as (plain, place), ExitStack() as files:
        editcap = path_of_program("editcap", "wireshark-common")
        with untrusted(capture.name):
            words = [editcap, "-F", "nsecpcap", counted_alike(capture, files), place]
        answer = asked(words, statuses=OF_EDITCAP)
        is_there = os.fstat(plain.fileno()).st_size >= FILE_HEADER.size
        if not is_there or (answer.status != 0 and "cut short" not in answer.told):
            raise Fault(f"{capture.name}: {' '.join(answer.told.split())[:300]}", ROWS)
        with untrusted(capture.name):
            frames = read_frames(plain)
        count = frame_count(capture)
        if len(frames.records) != count:
            raise Fault(f"{capture.name}: it has {count:,} frames, and editcap writes {len(frames.records):,}", ROWS)
        yield frames


def write_header(out: IO[bytes], link_type: int) -> None:
    out.write(FILE_HEADER.pack(NANOSECONDS, 2, 4, 0, 0, 262_144, link_type))


def write_frame(out: BinaryIO, time: int, length: int, payload: bytes) -> None:
    seconds, ns = divmod(time, NS_PER_S)
    if seconds >= SECONDS_END:
        raise Fault("a frame arrives after the year 2106, which a pcap file can't say", ROWS)
    out.write(RECORD.pack(seconds, ns, len(payload), length) + payload)
