"""A machine's output, copied during the run, and its input."""

from __future__ import annotations

import ctypes
import os
import shutil
import threading
import time
from pathlib import Path
from typing import Optional

from hinge.border.files import opened
from hinge.command import CLOSED, say
from hinge.run.system import libc

PAUSE = 0.02  # s between looks at a file
PIECE = 1 << 20  # bytes
MOST_AHEAD = 64 << 20  # bytes by which a machine may be ahead of its output's reader
KEEP_SIZE, PUNCH_HOLE = 1, 2  # flags of fallocate(2)
PATIENCE = 2.0  # s until a message that the input hasn't ended


class Copier(threading.Thread):
    """Copies a growing file to a descriptor in a thread. Copied parts are removed from the file's memory, unless `keeps`."""

    def __init__(self, path: Path, to: int, keeps: bool) -> None:
        super().__init__(daemon=True)
        self.file = os.open(path, os.O_RDWR | os.O_CLOEXEC)
        self.to = to
        self.keeps = keeps
        self.copied = 0  # bytes
        self.is_last = False  # whether the file is complete
        self.fault: Optional[OSError] = None  # the error if nobody reads the output any more, or the disk is full
        self.start()

    def ahead(self) -> int:
        """Returns the number of bytes that are still to be copied."""
        return os.fstat(self.file).st_size - self.copied

    def copy(self) -> bool:
        """Copies new output; returns whether there was any."""
        data = os.pread(self.file, PIECE, self.copied)
        rest = memoryview(data)
        while rest:
            rest = rest[os.write(self.to, rest) :]
        if data and not self.keeps:
            libc.fallocate(self.file, KEEP_SIZE | PUNCH_HOLE, ctypes.c_long(self.copied), ctypes.c_long(len(data)))
        self.copied += len(data)
        return bool(data)

    def run(self) -> None:
        try:
            while True:
                last = self.is_last
                if self.copy():
                    continue
                if last:
                    return
                time.sleep(PAUSE)
        except OSError as fault:
            self.fault = fault

    def finish(self) -> None:
        """Copies the rest of the file, which is complete now, and ends the thread."""
        self.is_last = True
        self.join()
        os.close(self.file)


def is_same_file(one: int, other: int) -> bool:
    """Returns whether two descriptors refer to the same file, so that the order of their output matters."""
    try:
        first, second = os.fstat(one), os.fstat(other)
    except OSError:
        return False
    return (first.st_dev, first.st_ino) == (second.st_dev, second.st_ino)


def has_terminal() -> bool:
    try:
        return os.isatty(0)
    except OSError:
        return False


def read_input(into: Path) -> None:
    """Saves the whole standard input, since simulated time can't wait for it. A terminal or closed input counts as empty."""
    with open(into, "wb") as file:
        if 0 in CLOSED or has_terminal():
            return
        waiting = threading.Timer(PATIENCE, say, ["--simulated begins when standard input has ended"])
        waiting.daemon = True
        waiting.start()
        try:
            with opened("-", None) as source:
                shutil.copyfileobj(source, file)
        finally:
            waiting.cancel()
