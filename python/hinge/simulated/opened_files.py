"""The files that a run opened or failed to find, as the machine's kernel reports them, with lengths and checksums (of a folder, for
its names). They are compared with another run's."""

from __future__ import annotations

import hashlib
import os
import stat
from pathlib import Path
from typing import Any, Iterator, Optional

from hinge.simulated.job import OWN_FOLDERS

PIECE = 1 << 20
OWN_ROOT = "//proc/self/cwd/root/"  # the kernel's name for the folder of --root
ABSENT = "-"  # before the name of a file that a program didn't find
known: "dict[tuple[int, int, int, int], str]" = {}  # the checksums of files, since this process may launch many runs


def sha256_of(path: "str | Path") -> str:
    digest = hashlib.sha256()
    with open(path, "rb") as file:
        while piece := file.read(PIECE):
            digest.update(piece)
    return digest.hexdigest()


def checksum(path: str, status: os.stat_result) -> str:
    """Returns the first digits of a file's SHA-256 checksum; a file that didn't change since the last call isn't read again."""
    key = (status.st_dev, status.st_ino, status.st_size, status.st_mtime_ns)
    if key not in known:
        known[key] = sha256_of(path)[:16]
    return known[key]


def file_record(path: str, start: int) -> "Optional[list[Any]]":
    """Returns a file's length and checksum, or the number and checksum of a folder's names. Returns an empty list if the file or
    folder changed after the moment `start` (in ns, by the system's clock for files); None if reading fails."""
    try:
        status = os.stat(path)
        if status.st_ctime_ns > start:
            return []
        if stat.S_ISREG(status.st_mode):
            return [status.st_size, checksum(path, status)]
        names = sorted(os.fsencode(name) for name in os.listdir(path))
        return [len(names), hashlib.sha256(b"\0".join(names)).hexdigest()[:16]]
    except OSError:
        return None


def paths_told(folder: Path, root: Optional[str]) -> "Iterator[tuple[str, bool]]":
    """Yields the paths that the machine's kernel reported, and whether each path existed. Omits the machine's own files; with a
    root, all files outside the root, too. Paths are as programs in the machine see them."""
    begin = "/" if root is None else OWN_ROOT
    for text in (folder / "opened").read_bytes().split(b"\0"):
        path = os.fsdecode(text).removeprefix(ABSENT)
        place = os.path.normpath("/" + path[len(begin) :].lstrip("/"))
        if path.startswith(begin) and not f"{place}/".startswith((f"{folder}/", *(f"{own}/" for own in OWN_FOLDERS))):
            yield place, not text.startswith(os.fsencode(ABSENT))


def portable_name(path: str) -> str:
    """Returns a path in the form that is the same for other users and folders: `./` is the current folder, and `~/` is HOME."""
    for place, begin in ((os.getcwd(), "./"), (os.environ.get("HOME", ""), "~/")):
        if len(place) > 1 and path.startswith(f"{place}/"):
            return begin + path[len(place) + 1 :]
    return path


def files_record(folder: Path, root: Optional[str] = None) -> "dict[str, Any]":
    """Returns two entries of the summary: `files`, with a record of each file in the order of opening, and `absent`, with the paths
    that didn't exist."""
    paths = dict.fromkeys(paths_told(folder, root))
    start = os.stat(folder / "job").st_ctime_ns
    records = ((path, file_record(f"{root or ''}{path}", start)) for path, is_there in paths if is_there)
    files = {portable_name(path): record for path, record in records if record is not None}
    return {"files": files, "absent": [portable_name(path) for path, is_there in paths if not is_there]}
