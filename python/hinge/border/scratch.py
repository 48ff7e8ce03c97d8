"""Temporary files and folders. Files have no names, so none remains. A folder is removed even if SIGTERM or SIGHUP ends the
process. If the process was killed, the next process that creates such a folder removes the old folder, which a marking file
identifies."""

from __future__ import annotations

import errno
import fcntl
import mmap
import os
import shutil
import signal
import threading
import time
from contextlib import contextmanager, suppress
from pathlib import Path
from types import FrameType
from typing import IO, ContextManager, Iterator, Optional, Sequence, Union

PREFIX = ".hinge-"
IN_MEMORY = "/dev/shm"
MANY = 1 << 20  # bytes from which on `memory` uses large pages
MARK = ".mark"  # the name of a file that marks a folder as the kit's, since other programs may use the same folder names
PAUSE = 0.05  # s between attempts to lock a folder
TOGETHER = 1.0  # s in which several signals raise one exception
# The signals that end a process, with the handlers that Python sets first.
USUAL = {signal.SIGINT: signal.default_int_handler, signal.SIGTERM: signal.SIG_DFL, signal.SIGHUP: signal.SIG_DFL}


def held(path: Union[str, Path]) -> int:
    """Opens a folder or namespace; returns the descriptor. A namespace exists at least until the descriptor is closed."""
    return os.open(path, os.O_RDONLY | os.O_NONBLOCK | os.O_CLOEXEC)


@contextmanager
def holding(path: Union[str, Path]) -> Iterator[int]:
    """Yields a descriptor of a folder or namespace, and closes the descriptor afterwards."""
    descriptor = held(path)
    try:
        yield descriptor
    finally:
        os.close(descriptor)


@contextmanager
def alone(folder: str, patience: float) -> Iterator[None]:
    """Locks a folder for the guarded code, against other callers of this function. BlockingIOError: another process keeps the lock
    for `patience` seconds."""
    until = time.monotonic() + patience
    with holding(folder) as descriptor:
        while True:
            try:
                fcntl.flock(descriptor, fcntl.LOCK_EX | fcntl.LOCK_NB)
                break
            except BlockingIOError:
                if time.monotonic() > until:
                    raise
                time.sleep(PAUSE)
        yield


class SignalEnd(BaseException):
    """Raised when a signal ends this process."""


def takes_files(folder: str) -> bool:
    """Returns whether this process can write a temporary file in a folder. Tries an unnamed file; if the file system doesn't
    support unnamed files, checks the folder's permissions instead."""
    try:
        with open(os.open(folder, os.O_TMPFILE | os.O_WRONLY | os.O_CLOEXEC, 0o600), "wb") as file:
            file.write(b"x")
    except OSError as fault:
        return fault.errno in (errno.EOPNOTSUPP, errno.EISDIR) and os.access(folder, os.W_OK | os.X_OK)
    return True


def temporary_place() -> str:
    """Returns the folder for temporary files, and sets it as `tempfile`'s folder. `tempfile` itself would test the folder with a
    named file, which would remain if the process was killed."""
    import tempfile  # here, since it takes longer to load than `--help` may take

    if tempfile.tempdir is None:
        names = [os.environ.get(name) for name in ("TMPDIR", "TEMP", "TMP")]
        places = [os.path.abspath(place) for place in (*names, "/tmp", "/var/tmp", "/usr/tmp") if place]
        tempfile.tempdir = next((place for place in places if takes_files(place)), None)
    return tempfile.gettempdir()


@contextmanager
def unnamed() -> Iterator[tuple[IO[bytes], str]]:
    """Yields a temporary file without a name, and a path by which other programs can open the file."""
    import tempfile

    with tempfile.TemporaryFile(dir=temporary_place()) as file:
        yield file, f"/proc/{os.getpid()}/fd/{file.fileno()}"


class Folder:
    """A temporary folder, whose mark stays locked until the folder is removed, or until this process and its forks have ended."""

    def __init__(self, within: Union[str, Path, None] = None) -> None:
        import tempfile

        place = str(within or temporary_place())
        remove_left(place)
        self.path = Path(tempfile.mkdtemp(prefix=PREFIX, dir=place))
        self.lock = -1
        try:
            self.lock = marked(self.path)
        except OSError:
            self.remove()
            raise

    def remove(self) -> None:
        """Removes the folder. A second call completes a removal that a signal interrupted."""
        remove_all(self.path)
        lock, self.lock = self.lock, -1
        if lock >= 0:
            os.close(lock)


def mark_of(folder: Union[str, Path]) -> bytes:
    """Returns the content that a folder's mark must have: the folder's device, inode and name. A copied or renamed folder therefore
    has a wrong mark."""
    result = os.lstat(folder)
    return f"a temporary folder of hinge: {result.st_dev}:{result.st_ino} {os.path.basename(folder)}\n".encode()


def marked(folder: Path) -> int:
    """Marks a folder; returns the mark's locked descriptor. Renames the mark last, so that other processes only see a locked and
    complete mark."""
    new_mark = folder / f"{MARK}.new"
    lock = os.open(new_mark, os.O_WRONLY | os.O_CREAT | os.O_EXCL | os.O_CLOEXEC, 0o600)
    try:
        fcntl.flock(lock, fcntl.LOCK_EX)
        os.write(lock, mark_of(folder))
        new_mark.rename(folder / MARK)
    except OSError:
        os.close(lock)
        raise
    return lock


def remove_all(folder: Union[str, Path]) -> None:
    """Removes a folder with its mark last, so that another process can complete an interrupted removal."""
    with suppress(OSError), os.scandir(folder) as entries:
        for entry in entries:
            if entry.is_dir(follow_symlinks=False):
                shutil.rmtree(entry.path, ignore_errors=True)
            elif entry.name != MARK:
                with suppress(OSError):
                    os.unlink(entry.path)
    shutil.rmtree(folder, ignore_errors=True)


def remove_left(within: Union[str, Path]) -> None:
    """Removes the marked folders in `within` whose processes have ended."""
    with os.scandir(within) as entries:
        for entry in entries:
            if entry.name.startswith(PREFIX):
                with suppress(OSError):
                    remove_unlocked(entry.path)


def remove_all_left() -> None:
    """Removes the folders of killed processes in /dev/shm and in the folder for temporary files, if these can be read."""
    with suppress(OSError):
        remove_left(IN_MEMORY)
    with suppress(OSError):
        remove_left(temporary_place())


def remove_unlocked(folder: str) -> None:
    """Removes a folder with this user's right mark. OSError: the folder has no mark, or the mark's process is still running."""
    mark = os.open(os.path.join(folder, MARK), os.O_RDONLY | os.O_NOFOLLOW | os.O_NONBLOCK | os.O_CLOEXEC)
    try:
        own_mark = mark_of(folder)
        if os.fstat(mark).st_uid == os.geteuid() and os.read(mark, len(own_mark) + 1) == own_mark:
            fcntl.flock(mark, fcntl.LOCK_EX | fcntl.LOCK_NB)
            remove_all(folder)
    finally:
        os.close(mark)


@contextmanager
def deferred(numbers: Sequence[int], cuts: bool) -> Iterator[None]:
    """Defers these signals: restores their handlers after the guarded code, and only then raises the signals again. With `cuts`, a
    signal also raises an exception in the guarded code. Signals within a second raise one exception; a later signal raises
    another, since some Python code drops exceptions."""
    arrivals: list[int] = []
    handlers = {number: signal.getsignal(number) for number in numbers}
    until = 0.0  # the moment from which on a signal raises an exception

    def note(number: int, frame: Optional[FrameType]) -> None:
        nonlocal until
        arrivals.append(number)
        if cuts and time.monotonic() > until:
            until = time.monotonic() + TOGETHER
            raise KeyboardInterrupt if number == signal.SIGINT else SignalEnd

    try:
        for number in handlers:
            signal.signal(number, note)
        yield
    finally:
        cuts = False
        for number, handler in handlers.items():
            signal.signal(number, handler)
        for number in arrivals:
            signal.raise_signal(number)


def is_main_thread() -> bool:
    """Returns whether this is the main thread, since Python refuses handlers for signals in other threads."""
    return threading.current_thread() is threading.main_thread()


def clean_end() -> ContextManager[None]:
    """Guards code that cleans up at its end: SIGINT, SIGTERM and SIGHUP raise exceptions in the code, and afterwards end this
    process as usual. Changes nothing in other threads than the main one, and for signals with unusual handlers."""
    numbers = [number for number, usual in USUAL.items() if is_main_thread() and signal.getsignal(number) == usual]
    return deferred(numbers, cuts=True)


def undisturbed() -> ContextManager[None]:
    """Guards code that no signal may interrupt, such as a cleanup: SIGINT, SIGTERM and SIGHUP take effect afterwards."""
    numbers = [number for number in USUAL if is_main_thread() and signal.getsignal(number) not in (signal.SIG_IGN, None)]
    return deferred(numbers, cuts=False)


def memory(size: int) -> memoryview:
    """Returns `size` writable bytes, in large pages if they are many and the system has such pages."""
    if size < MANY:
        return memoryview(bytearray(size))
    data = mmap.mmap(-1, size, mmap.MAP_PRIVATE)
    with suppress(AttributeError, OSError):
        data.madvise(mmap.MADV_HUGEPAGE)
    return memoryview(data)


@contextmanager
def scratch(within: Union[str, Path, None] = None) -> Iterator[Path]:
    """Yields a temporary folder, and removes the folder afterwards, even if a signal interrupts the guarded code or the removal."""
    folder: Optional[Folder] = None
    with clean_end():
        try:
            with undisturbed():
                folder = Folder(within)
            yield folder.path
        finally:
            if folder:
                try:
                    folder.remove()
                finally:
                    with undisturbed():
                        folder.remove()
