"""Reads the file of a failure that a search found. `hinge run --like` and `hinge net --like` repeat the failure, here or on another
machine. The file contains the run's summary, the command line and the net."""

from __future__ import annotations

import fcntl
import os
import time
from contextlib import contextmanager, suppress
from typing import TYPE_CHECKING, Any, BinaryIO, Iterator, Optional

from hinge.command import FILES, USAGE, Fault

if TYPE_CHECKING:
    from pathlib import Path

LIKE = "--like"
WORDS_KEY, NET_KEY = "words", "net"  # the file's entries that a summary lacks
TRIES = 100  # to share a file that another run is writing or removing


def shared(file: Path, data: bytes) -> BinaryIO:
    """Creates a file with these bytes, or opens the file if another run created the same; returns the file under a shared lock.
    Fault: a file with other bytes uses the name."""
    for _ in range(TRIES):
        try:
            with file.open("xb") as new:
                fcntl.flock(new, fcntl.LOCK_EX)
                new.write(data)
        except FileExistsError:
            if file.is_symlink() or not file.is_file():
                break
        try:
            held = file.open("rb")
        except FileNotFoundError:  # the last run of the text has just removed it
            continue
        fcntl.flock(held, fcntl.LOCK_SH)
        is_there = os.fstat(held.fileno()).st_nlink > 0
        text = held.read(len(data) + 1)
        if is_there and text == data:
            return held
        held.close()
        if is_there and not data.startswith(text):
            break
        time.sleep(0.01)
    raise Fault(f"{file}: the net of this failure needs the name; give your file another one", FILES)


@contextmanager
def file_beside(path: Path, text: str) -> Iterator[Path]:
    """Yields a file with a net's text in the folder of `path`, on which the net's commands may depend. The file's name depends only
    on the text. Runs with the same text share the file, even a file left by a killed run, and the last run removes the file. Fault:
    a file with another text uses the name."""
    import hashlib  # which loads OpenSSL, and other runs need none of it

    data = text.encode("utf-8", "surrogateescape")
    file = path.parent / f".failure-{hashlib.sha256(data).hexdigest()[:8]}.net"
    with shared(file, data) as held:
        try:
            yield file
        finally:
            with suppress(OSError):  # another run still uses the file
                fcntl.flock(held, fcntl.LOCK_EX | fcntl.LOCK_NB)
                file.unlink()


def like_file(words: "list[str]") -> Optional[str]:
    """Returns the value of the option --like, if given. Words after `--` are a command's, and don't count."""
    options = words[: words.index("--")] if "--" in words else words
    separate_values = [value for word, value in zip(options, options[1:]) if word == LIKE]
    values = [word.partition("=")[2] for word in options if word.startswith(f"{LIKE}=")]
    return next(iter([*separate_values, *values]), None)


def failure_in(words: "list[str]") -> "dict[str, Any]":
    """Returns the contents of the failure's file that --like names. Returns an empty dict without --like, if the file can't be
    read, or if the file is an ordinary summary."""
    path = like_file(words)
    if not path:
        return {}
    from hinge.border.files import read_object

    try:
        record = read_object(path, "no summary")
    except (OSError, Fault):
        return {}  # the comparison with the file reports the error
    return record if isinstance(record.get(WORDS_KEY), list) else {}


def failure_command(words: "list[str]", command: str) -> "list[str]":
    """Returns a command line that repeats the failure in the file that --like names: the file's options, the given words, then the
    file's command. Without such a file, returns the given words unchanged. Fault: the given words contain another command after
    `--`, or the failure is of another `hinge` command."""
    record = failure_in(words)
    if not record:
        return words
    first, *others = map(str, record[WORDS_KEY])
    if first != command:
        raise Fault(
            f"{LIKE} {like_file(words)}: it is a failure of `hinge {first}`: hinge {first} {LIKE} {like_file(words)}", USAGE
        )
    if "--" in words:
        raise Fault(f"{LIKE} {like_file(words)}: it has a command of its own; leave out yours", USAGE)
    place = others.index("--") if "--" in others else len(others)
    return [*others[:place], *words, *others[place:]]


@contextmanager
def repeated_net(words: "list[str]") -> "Iterator[list[str]]":
    """Yields the command line of `hinge net`, as failure_command returns it. The failure's file contains the net's text; meanwhile,
    a separate file beside the failure's contains the text, too."""
    lines = failure_in(words).get(NET_KEY)
    result = failure_command(words, "net")
    if not isinstance(lines, list):
        yield result
        return
    from pathlib import Path

    with file_beside(Path(os.path.abspath(str(like_file(words)))), "".join(f"{line}\n" for line in lines)) as net:
        yield [str(net), *result[1:]]
