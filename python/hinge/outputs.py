"""The files that a command writes. None is also an input, and each is either complete or missing."""

from __future__ import annotations

import errno
import os
import signal
import stat
from contextlib import contextmanager, suppress
from enum import Enum
from pathlib import Path
from typing import Iterable, Iterator, Mapping, Optional, TextIO, Union

from hinge.border.scratch import holding
from hinge.border.terminal import standard_output
from hinge.command import NO_SPACE, WRITING, Fault

COMMAND_LINE = 2  # the exit status
Name = Union[str, Path, None]


class Format(Enum):
    """An output file's format, chosen by its extension."""

    PNG = ".png"
    SVG = ".svg"
    PDF = ".pdf"
    PAGE = ".html"
    ARRIVED = ".pcap"
    COMMENTED = ".pcapng"

    @property
    def kind(self) -> str:
        """Returns the extension without its dot, such as png."""
        return self.value[1:]


PICTURES = (Format.PNG, Format.SVG, Format.PDF)
CAPTURES = (Format.ARRIVED, Format.COMMENTED)


def format_of(name: str) -> Format:
    """Returns the format for a name. ValueError: the extension is unknown."""
    return Format(Path(name).suffix.lower())


def refuse_inputs(outputs: Iterable[Name], inputs: Iterable[Name]) -> None:
    """Refuses outputs that are inputs or other outputs, under any name. Fault: there is such an output. Call this before
    reading."""
    names = {place(name): str(name) for name in inputs if is_file(name)}
    for name in filter(is_file, outputs):
        other = names.get(place(name))
        if other is not None:
            raise Fault(f"{name} would be written over {other}: give the output a name of its own", COMMAND_LINE)
        names[place(name)] = str(name)


def is_file(name: Name) -> bool:
    """Returns whether a name refers to a regular file or to no file yet, rather than to a standard stream, a folder or a device."""
    return name not in (None, "-") and (not Path(str(name)).exists() or Path(str(name)).is_file())


def place(name: Name) -> tuple[object, ...]:
    """Returns a file's identity: its device and number, or its path if the file doesn't exist."""
    path = Path(str(name))
    if path.exists():
        result = path.stat()
        return result.st_dev, result.st_ino
    return (os.path.realpath(path),)


def is_planted(name: Union[str, Path]) -> bool:
    """Returns whether a name belongs to a third user, in a folder such as /tmp: a link there could lead to any file of this user.
    The kernel refuses these only with the settings protected_symlinks and protected_fifos of proc(5)."""
    try:
        entry = os.lstat(name)
        folder = os.stat(os.path.dirname(name) or ".")
    except OSError:
        return False
    is_for_all = folder.st_mode & stat.S_ISVTX and folder.st_mode & stat.S_IWOTH
    return bool(is_for_all) and entry.st_uid not in (os.geteuid(), folder.st_uid)


@contextmanager
def written(name: Union[str, Path]) -> Iterator[Path]:
    """Yields the path to write to. A regular file gets its name when complete, and an older file stays until then. Before, the new
    file is unnamed if the file system allows that, so that an interrupted process leaves no file. Devices, FIFOs, and files in a
    folder that this user can't change are written in place. PermissionError: the name is planted."""
    if is_planted(name):
        raise PermissionError(errno.EACCES, "another user made it, in a folder for all users", str(name))
    if not is_file(name):
        with read_by_somebody(Path(name)):
            yield Path(name)
        return
    path = Path(os.path.realpath(name))
    if not os.access(path.parent, os.W_OK):
        yield path
        return
    mode = stat.S_IMODE(path.stat().st_mode) if path.exists() else None
    beside = path.with_name(f".{os.getpid()}-{path.name}")
    nameless = unnamed_file(path.parent)
    try:
        new = beside if nameless is None else Path(f"/proc/{os.getpid()}/fd/{nameless}")
        yield new
        if mode is not None:
            new.chmod(mode)
        if nameless is None:
            beside.replace(path)
        else:
            give_name(new, path, beside)
    except OSError as error:
        if error.errno in NO_SPACE or (error.filename is None and error.errno in WRITING):
            error.filename = str(name)  # the user's name, and not that of the new file or of the file that is copied
        raise
    finally:
        if nameless is None:
            beside.unlink(missing_ok=True)
        else:
            os.close(nameless)


@contextmanager
def read_by_somebody(path: Path) -> Iterator[None]:
    """Keeps a FIFO open for writing. OSError: there is no reader, so a writer might wait forever without a signal."""
    file = os.open(path, os.O_WRONLY | os.O_NONBLOCK | os.O_CLOEXEC) if path.is_fifo() else None
    try:
        yield
    finally:
        if file is not None:
            os.close(file)


def unnamed_file(folder: Path) -> Optional[int]:
    """Returns a new file without a name, or None if the folder's file system doesn't support that."""
    try:
        descriptor = os.open(folder, os.O_TMPFILE | os.O_RDWR | os.O_CLOEXEC, 0o666)
    except OSError:
        return None
    if os.path.exists(f"/proc/self/fd/{descriptor}"):
        return descriptor
    os.close(descriptor)
    return None


def give_name(place: Path, path: Path, beside: Path) -> None:
    """Names a complete file. The system can do that atomically only for a free name, so a replacement gets the name `beside` first,
    for a moment in which only SIGKILL ends this process."""
    with suppress(FileExistsError):
        link(place, path)
        return
    mask = signal.pthread_sigmask(signal.SIG_BLOCK, signal.valid_signals())
    try:
        link(place, beside)
        beside.replace(path)
    finally:
        beside.unlink(missing_ok=True)
        signal.pthread_sigmask(signal.SIG_SETMASK, mask)


def link(place: Path, name: Path) -> None:
    """Links a file to a name. Python follows the file's name in /proc only if the call has a folder's descriptor."""
    with holding(name.parent) as folder:
        os.link(place, name.name, dst_dir_fd=folder, follow_symlinks=True)


@contextmanager
def writing(name: Optional[str]) -> Iterator[TextIO]:
    """Yields the named output file, or standard output for None or `-`."""
    if name is None or name == "-":
        yield standard_output()
        return
    with written(name) as path, open(path, "w", encoding="utf-8", errors="surrogateescape", newline="\n") as file:
        yield file


def write_json(path: str, record: Mapping[str, object]) -> None:
    """Writes a JSON record, to a file or to standard output."""
    import json  # a help must not load this slow module

    with writing(path) as file:
        json.dump(record, file, indent=1)
        file.write("\n")
