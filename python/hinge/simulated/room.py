"""The folders of a machine: one with the memory, which the system must permit to execute, and one for files that remain."""

from __future__ import annotations

import mmap
import os
import shutil
import tempfile
from pathlib import Path
from typing import Optional

from hinge.border.scratch import IN_MEMORY, Folder, temporary_place
from hinge.run.system import Missing


def may_be_executed(folder: str) -> bool:
    """Returns whether files in a folder can be mapped as code, like a machine's memory."""
    try:
        with tempfile.TemporaryFile(dir=folder) as file:
            file.truncate(mmap.PAGESIZE)
            mmap.mmap(file.fileno(), mmap.PAGESIZE, mmap.MAP_SHARED, mmap.PROT_READ | mmap.PROT_EXEC).close()
    except OSError:
        return False
    return True


def memory_folder(size: int) -> str:
    """Returns a folder with `size` free bytes that permits execution, preferably in memory. Missing: there is no such folder."""
    places = [IN_MEMORY, temporary_place(), "/var/tmp"]
    for place in places:
        if os.path.isdir(place) and may_be_executed(place) and shutil.disk_usage(place).free >= size:
            return place
    raise Missing(
        f"--simulated: none of {', '.join(places)} has {size >> 20} MB free and may be executed; " "--memory asks for less"
    )


class Room:
    """The folder that a machine shares with its launcher, and a folder for files that remain."""

    def __init__(self, size: int, place: Optional[str] = None) -> None:
        """Creates the folders for a machine with `size` bytes of memory. `place`, if given, is the caller's folder for files that
        remain; `remove` leaves this folder."""
        self.memory = memory_folder(size)
        self.scratch = Folder(self.memory)
        self.folder = self.scratch.path
        self.own = Folder() if place is None else None
        self.kept = self.own.path if self.own else Path(place or "")
        (self.folder / "kept").symlink_to(self.kept)

    def remove(self) -> None:
        """Removes the folders, except for the caller's."""
        self.scratch.remove()
        if self.own:
            self.own.remove()
