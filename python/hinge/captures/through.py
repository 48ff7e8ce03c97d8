"""A capture as seen from the far end of the emulated link, or with comments on each frame's course."""

from __future__ import annotations

import struct
from typing import BinaryIO, Callable

from hinge.captures.capture_file import CaptureFile, capture_file, write_frame, write_header
from hinge.command import ROWS, Fault, working
from hinge.lazy import Integers, np
from hinge.outputs import Format, format_of, written
from hinge.replays.columns import read_index
from hinge.replays.explain import Explainer
from hinge.replays.replay import Replay
from hinge.replays.source import Source

SECTION, INTERFACE, PACKET = 0x0A0D0D0A, 1, 6
BYTE_ORDER, UNKNOWN_LENGTH = 0x1A2B3C4D, -1
END, COMMENT, TIME_RESOLUTION = 0, 1, 9
NANOSECONDS = b"\x09"
MOST_BYTES = 65_000  # the longest comment, since a comment's length has 16 bits
MOST_COMMENTS = 3  # the most comments on a frame, which may have been split into more packets


def frames_of_rows(path: str, replay: Replay) -> Integers:
    """Returns the frame of each row from the index of `hinge packets`. Fault: the index is of other rows."""
    table = read_index(path)
    if not np.array_equal(table["row"], np.arange(1, len(replay.packets) + 1)):
        raise Fault(f"{path}: its rows aren't those of {replay.packets.path}", ROWS)
    if (table["frame"] < 1).any():
        raise Fault(f"{path}: frames are counted from 1", ROWS)
    return table["frame"]


def arrivals(replay: Replay, frames: Integers) -> list[tuple[int, int]]:
    """Returns the moment and number of each frame that arrives, in order of arrival.

    A frame that was split into packets arrives with its last packet, or never if a packet doesn't leave."""
    count = int(frames.max()) + 1 if len(frames) else 0
    last = np.zeros(count, np.int64)
    rows = np.bincount(frames, minlength=count)
    departures = np.zeros(count, np.int64)
    np.maximum.at(last, frames[replay.is_out], replay.due[replay.is_out])
    np.add.at(departures, frames[replay.is_out], 1)
    whole = np.flatnonzero((rows > 0) & (departures == rows))
    order = np.lexsort((whole, last[whole]))
    return list(zip(last[whole][order].tolist(), whole[order].tolist()))


def refuse_other(capture: CaptureFile, frames: Integers) -> None:
    """Refuses the index of another capture. Fault: the index contains a frame that the capture lacks."""
    if len(frames) and frames.max() > len(capture.records):
        raise Fault(f"the index has frame {frames.max()}, and the capture {len(capture.records)} frames", ROWS)


def write_arrivals(capture: CaptureFile, replay: Replay, frames: Integers, path: str) -> int:
    """Writes the frames that arrive, and returns their number."""
    records = capture.records
    began = records[frames[0] - 1].time - int(replay.packets.moment[0]) if len(frames) else 0
    arrival = arrivals(replay, frames)
    with written(path) as place, open(place, "wb") as out:
        write_header(out, capture.link_type)
        for moment, frame in arrival:
            record = records[frame - 1]
            write_frame(out, began + moment, record.length, capture.data[record.begin : record.end])
    return len(arrival)


def block(kind: int, body: bytes) -> bytes:
    """Returns a pcapng block: its kind and length, its content padded to 32 bits, and the length again."""
    body += bytes(-len(body) % 4)
    length = struct.pack("<I", 12 + len(body))
    return struct.pack("<I", kind) + length + body + length


def option(code: int, data: bytes) -> bytes:
    return struct.pack("<HH", code, len(data)) + data + bytes(-len(data) % 4)


def comment(text: str) -> bytes:
    """Returns a comment, truncated after a whole letter if it is too long."""
    return option(COMMENT, text.encode()[:MOST_BYTES].decode(errors="ignore").encode())


def write_head(out: BinaryIO, link_type: int) -> None:
    out.write(block(SECTION, struct.pack("<IHHq", BYTE_ORDER, 1, 0, UNKNOWN_LENGTH)))
    out.write(block(INTERFACE, struct.pack("<HHI", link_type, 0, 0) + option(TIME_RESOLUTION, NANOSECONDS) + option(END, b"")))


def write_commented(capture: CaptureFile, frames: Integers, tell: Callable[[int], str], out: BinaryIO) -> int:
    """Writes all frames at their original times, each with a comment on its rows; returns the number of comments."""
    rows: dict[int, list[int]] = {}
    for row, frame in enumerate(frames.tolist(), 1):
        rows.setdefault(frame, []).append(row)
    write_head(out, capture.link_type)
    for number, record in enumerate(capture.records, 1):
        data = capture.data[record.begin : record.end]
        options = b"".join(comment(tell(row)) for row in rows.get(number, [])[:MOST_COMMENTS])
        if options:
            options += option(END, b"")
        head = struct.pack("<IIIII", 0, record.time >> 32, record.time & 0xFFFFFFFF, len(data), record.length)
        out.write(block(PACKET, head + data + bytes(-len(data) % 4) + options))
    return len(rows)


def write_through(source: Source, capture_name: str, index: str, path: str) -> str:
    """Writes the frames that arrive, at their moments of arrival, or all frames with comments; returns a sentence that counts
    them."""
    frames = frames_of_rows(index, source.replay)
    explainer = Explainer(source.explained()) if format_of(path) is Format.COMMENTED else None
    with capture_file(capture_name) as capture:
        refuse_other(capture, frames)
        if explainer is None:
            count = write_arrivals(capture, source.replay, frames, path)
            return f"{len(capture.records)} frames, of which {count} arrive"
        with written(path) as place, working("commenting"), open(place, "wb") as out:
            comments = write_commented(capture, frames, explainer.paragraph, out)
        return f"{len(capture.records)} frames, of which {comments} have a comment"
