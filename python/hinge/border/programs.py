"""The programs that the kit runs. A program's output counts only after an expected exit status, because a killed program's output
may be cut."""

from __future__ import annotations

import errno
import os
import select
import signal
import subprocess
from os.path import basename
from typing import IO, TYPE_CHECKING, Any, Callable, Iterable, Iterator, Mapping, NamedTuple, Optional, Sequence, Union

from hinge.border.terminal import tell
from hinge.command import FILES, MOST_TOLD, NOT_FOUND, Fault, say

if TYPE_CHECKING:
    from _typeshed import HasFileno

Process = subprocess.Popen
CompletedProcess = subprocess.CompletedProcess
CalledProcessError = subprocess.CalledProcessError
TimeoutExpired = subprocess.TimeoutExpired
NOTHING, PIPE, SAME = subprocess.DEVNULL, subprocess.PIPE, subprocess.STDOUT
SHORT = (errno.EAGAIN, errno.ENOMEM, errno.EMFILE, errno.ENFILE)  # the system lacks processes, memory or descriptors
NOUGHT = (0,)
CANNOT_EXECUTE = 126  # a shell's status for a program that can't be executed, as NOT_FOUND is for a missing program


class Answer(NamedTuple):
    """A program's exit status and output."""

    status: int
    data: bytes  # from standard output
    told: str  # from standard error

    @property
    def text(self) -> str:
        return self.data.decode("utf-8", "replace")


def name_of(words: Sequence[str]) -> str:
    """Returns a program's name for messages, with a subcommand if there is one, such as `dummynet audit`."""
    return " ".join([basename(words[0]), *(word for word in words[1:2] if word.isalpha())])


def how_ended(status: int) -> str:
    """Returns a phrase about a program's end: with the exit status, or with the signal whose negative number `status` is."""
    if status >= 0:
        return f"ended with status {status}"
    try:
        return f"was ended by {signal.Signals(-status).name}"
    except ValueError:
        return f"was ended by signal {-status}"


def begun(words: Sequence[str], **how: Any) -> "Process[Any]":
    """Starts a program without waiting for its end; returns the process. `how` are subprocess.Popen's options. Fault: the system
    lacks processes, memory or descriptors. OSError: the program can't be executed."""
    try:
        return subprocess.Popen(words, **how)
    except OSError as error:
        if error.errno in SHORT:
            raise Fault(f"{name_of(words)}: it can't begin: {error.strerror}", FILES) from None
        raise


def asked(
    words: Sequence[str],
    data: Optional[bytes] = None,
    statuses: Iterable[int] = NOUGHT,
    out: Union[int, IO[bytes]] = PIPE,
    limit: Optional[float] = None,
    env: Optional[Mapping[str, str]] = None,
    begin: Optional[Callable[[], None]] = None,
) -> Answer:
    """Runs a program to its end, with `data` as standard input; returns its answer. The new process calls `begin` before the
    program. Fault: a signal ended the program, or its status isn't one of `statuses`. TimeoutExpired: the program ran for more than
    `limit` seconds, and was killed."""
    stdin = NOTHING if data is None else PIPE
    with begun(words, stdin=stdin, stdout=out, stderr=PIPE, env=env, preexec_fn=begin) as process:
        try:
            answer, complaints = process.communicate(data, limit)
        except BaseException:
            process.kill()
            raise
    return Answer(process.returncode, answer or b"", end_of(words, process.returncode, statuses, complaints))


def end_of(words: Sequence[str], status: int, statuses: Iterable[int], complaints: bytes) -> str:
    """Returns what a program wrote to standard error. Fault: a signal ended the program, or its status isn't one of `statuses`."""
    text = complaints.decode("utf-8", "replace").strip()
    if status in statuses:
        return text
    message = f"{name_of(words)} {how_ended(status)}"
    if text:
        message += f": {' '.join(text.split())[:MOST_TOLD]}"
    raise Fault(message, FILES)


def lines_from(words: Sequence[str], file: IO[bytes], statuses: Iterable[int] = NOUGHT) -> Iterator[bytes]:
    """Yields the lines that a program prints when `file` is its standard input, one at a time, to save memory. Fault: as for
    `asked`, but after the whole lines. A last line without a line end may be cut, so it follows only after an expected status."""
    last_line = b""
    with begun(words, stdin=file, stdout=PIPE, stderr=PIPE) as process:
        try:
            assert process.stdout and process.stderr
            for line in process.stdout:
                if line.endswith(b"\n"):
                    yield line
                else:
                    last_line = line
            complaints = process.stderr.read()
        except BaseException:
            process.kill()
            raise
    end_of(words, process.returncode, statuses, complaints)
    if last_line:
        yield last_line


def forked(work: Callable[[], Optional[int]]) -> int:
    """Forks this process. The child calls `work` and exits with the status that `work` returns; if `work` raises an exception, the
    child prints a report and exits with status FILES. Returns the child's process number to the parent. Fault: the system can't
    start another process."""
    try:
        process = os.fork()
    except OSError as error:
        raise Fault(f"a process can't begin: {error.strerror}", FILES) from None
    if process:
        return process
    status = FILES
    try:
        status = work() or 0
    except Fault as fault:
        say(str(fault))
    except OSError as error:
        say(f"{error.filename or 'the system'}: {error.strerror}")
    except Exception:  # a defect of the kit, which os._exit would hide
        import traceback

        tell(traceback.format_exc(), "")
    finally:
        os._exit(status)


def become(words: Sequence[str], why: Callable[[OSError], str] = lambda error: str(error.strerror)) -> int:
    """Executes a program in this process. On failure, reports the reason and returns the status that a shell would return."""
    try:
        os.execvp(words[0], list(words))
    except OSError as error:
        say(f"{error.filename or words[0]}: {why(error)}")
        return NOT_FOUND if error.errno == errno.ENOENT else CANNOT_EXECUTE


def can_be_read(descriptor: Union[int, HasFileno], seconds: float) -> bool:
    """Waits up to `seconds` until a pipe, socket or process descriptor can be read; returns whether it can. Uses poll(2), since
    select(2) refuses descriptors from 1,024 on."""
    poll = select.poll()
    poll.register(descriptor, select.POLLIN)
    return bool(poll.poll(seconds * 1000))
