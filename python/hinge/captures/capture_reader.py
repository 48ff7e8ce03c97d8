"""Captures as pcap or pcapng files that aren't compressed."""

from __future__ import annotations

import mmap
import os
import shutil
from contextlib import ExitStack
from typing import IO, BinaryIO, Iterator, cast

from hinge.border.files import GZIP, Input, Unpacked, opened
from hinge.border.programs import asked
from hinge.border.scratch import unnamed
from hinge.command import ROWS, Fault

# the first bytes of pcapng, and of pcap with us, with ns, and in Kuznetzov's format, in each byte order
FRONTS = ("0a0d0d0a", "a1b2c3d4", "a1b23c4d", "a1b2cd34", "d4c3b2a1", "4d3cb2a1", "34cdb2a1")
SECTION = 0x0A0D0D0A  # the kind of a pcapng section's header
LITTLE = b"\x4d\x3c\x2b\x1a"  # the byte order of a section with little-endian numbers
SHORTEST = 12  # the bytes of the shortest pcapng block
KNOWN = (SECTION, 1, 2, 3, 4, 5, 6, 10)  # sections, interfaces, packets, names, statistics and secrets
OF_EDITCAP = range(128)  # editcap's exit statuses, also for a refusal
FRONT = 4  # the bytes that show a capture's format
PART = 1 << 16  # the bytes that are unpacked at once


def as_pcapng(capture: Input, files: ExitStack) -> IO[bytes]:
    """Converts a capture to pcapng with Wireshark's editcap; returns the file. Fault: editcap is missing, or can't read the
    capture."""
    editcap = shutil.which("editcap")
    if editcap is None:
        needs = "and other captures need editcap: apt-get install wireshark-common"
        raise Fault(f"{capture.name}: neither pcap nor pcapng, {needs}", ROWS)
    product, path = files.enter_context(unnamed())
    answer = asked([editcap, "-F", "pcapng", capture.path, path], statuses=OF_EDITCAP)
    if answer.status != 0:
        raise Fault(f"{capture.name}: neither pcap nor pcapng; {' '.join(answer.told.split())[:300]}", ROWS)
    return product


def blocks_of(data: mmap.mmap) -> Iterator[tuple[int, int, int]]:
    """Yields the blocks of a pcapng file: kind, start and end. Invalid data counts as part of the last block."""
    at = 0
    order = "little"
    while at + SHORTEST <= len(data):
        kind = int.from_bytes(data[at : at + 4], order)  # type: ignore[arg-type]
        if kind == SECTION:
            order = "little" if data[at + 8 : at + 12] == LITTLE else "big"
        length = int.from_bytes(data[at + 4 : at + 8], order)  # type: ignore[arg-type]
        end = at + length if length >= SHORTEST else len(data)
        yield kind, at, min(end, len(data))
        at = end


def front_of(file: IO[bytes]) -> bytes:
    file.seek(0)
    front = file.read(FRONT)
    file.seek(0)
    return front


def unpack(name: str, archive: BinaryIO, plain: IO[bytes]) -> bool:
    """Writes the content of a gzip archive to `plain`; returns whether the archive is complete."""
    source = Unpacked(name, archive)
    try:
        while part := source.read(PART):
            plain.write(part)
    except EOFError:
        return False
    return True


def plain_capture(capture: Input, files: ExitStack) -> tuple[IO[bytes], bool]:
    """Opens a capture in any format; returns the file, and whether a compressed capture is complete. Fault: the file is empty."""
    file: IO[bytes] = files.enter_context(opened(capture.path, None))
    front = front_of(file)
    is_whole = True
    if front[:2] == GZIP:
        archive, (file, _) = file, files.enter_context(unnamed())
        is_whole = unpack(capture.name, cast(BinaryIO, archive), file)
        front = front_of(file)
    if not front and is_whole:
        raise Fault(f"{capture.name}: an empty file, and no capture", ROWS)
    is_known = front.hex() in FRONTS or not is_whole and len(front) < FRONT
    return (file if is_known else as_pcapng(capture, files)), is_whole


def counted_alike(capture: Input, files: ExitStack) -> str:
    """Returns the path of a capture without those pcapng blocks that some programs count as frames, unlike the kit."""
    file, _ = plain_capture(capture, files)
    if front_of(file).hex() == FRONTS[0]:
        data = files.enter_context(mmap.mmap(file.fileno(), 0, access=mmap.ACCESS_READ))
        if any(kind not in KNOWN for kind, _, _ in blocks_of(data)):
            file, _ = files.enter_context(unnamed())
            file.writelines(data[begin:end] for kind, begin, end in blocks_of(data) if kind in KNOWN)
            file.flush()
    return f"/proc/{os.getpid()}/fd/{file.fileno()}"
