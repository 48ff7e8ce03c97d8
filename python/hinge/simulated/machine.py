"""A simulated machine: a User-Mode Linux that runs one job, and whose clock skips the times in which all processes wait."""

from __future__ import annotations

import os
import shutil
import signal
import time
from contextlib import suppress
from pathlib import Path
from typing import NamedTuple, Optional

from hinge.border.files import read_system
from hinge.border.programs import NOTHING, SAME, Process, begun, can_be_read
from hinge.run.host import program
from hinge.run.system import Missing, die_with_parent
from hinge.simulated.interrupts import Interrupts
from hinge.simulated.job import Job
from hinge.simulated.kernel import Kernel
from hinge.simulated.not_begun import raise_limits, too_few, why
from hinge.simulated.one_processor import OneProcessor
from hinge.simulated.pauses import Pauses
from hinge.simulated.room import Room
from hinge.simulated.stood import Stood, make_place, stood
from hinge.simulated.streams import MOST_AHEAD, Copier

BOOTED = 1000  # s of uptime with which a job begins
LOG_LINES = 3  # the last lines of the kernel's log that an error contains
TIMED_OUT = 124  # the status of a run that --real-limit ended, like that of timeout(1)
SIGNALLED = 128  # with a signal's number, the status of a run that the signal ended
NO_LIFE = signal.SIGUSR1  # a machine ends its job with this signal if no process can wake any more
OVER = signal.SIGALRM  # a machine ends its job with this signal at --limit
LIBRARIES = "/etc/ld.so.cache"
LIBRARIES_SIZE = 1 << 20
NO_CORES, OF_DEADLOCK, ALL_CORES = "none", "deadlock", "all"  # which processes leave a core for the launcher


class Settings(NamedTuple):
    """Holds the properties of a machine."""

    seed: int
    at: int  # the clock at the job's begin, in s since 1970
    memory: int  # bytes
    cpu: str
    scratch: bool  # whether the machine throws away all written files
    pauses: Optional[Pauses] = None  # the pauses of the machine's processes
    limit: int = 0  # ns of simulated time; 0 means no limit
    root: Optional[str] = None  # a folder that is the machine's root, and isn't written to
    more: "tuple[str, ...]" = ()  # lines for /proc/pauses: `keep CALLS`, and `core CALL`
    cores: str = NO_CORES  # the kind of processes that leave a core


class MachineEnded(NamedTuple):
    """Describes how a job ended; times are in ns of simulated time."""

    status: int
    simulated: int  # the job's length
    spun: int  # the part of it that spinning processes got
    waited: int = 0  # the status of wait(2)
    cut: int = 0  # the signal with which the machine ended the job: NO_LIFE, OVER or 0


def kernel_words(kernel: Kernel, settings: Settings) -> list[str]:
    """Returns the kernel's command line. The kernel's random numbers depend on these words, so the machine's folder isn't among
    them."""
    return [
        str(kernel.linux),
        f"mem={settings.memory >> 20}M",
        *"uml_dir=. umid=machine root=/dev/root rootfstype=hostfs rootflags=/ rw init=/proc/self/cwd/init".split(),
        "time-travel=inf-cpu",
        f"time-travel-start={(settings.at - BOOTED) * 10**9}",
        f"hinge_seed={settings.seed}",
        f"hinge_cpu={settings.cpu}",
        *"norandmaps null_blk.nr_devices=0 con=null ssl=null stderr=1 noreboot panic=-1".split(),
    ]


def put_loader(folder: Path) -> None:
    """Copies this system's dynamic loader and C library into a folder, so that the link's program can start with any root."""
    paths = {line.split()[-1] for line in read_system("/proc/self/maps").splitlines()}
    for path in map(Path, paths):
        if path.name.startswith(("ld-linux", "libc.so")):
            shutil.copy(path, folder / ("ld.so" if path.name.startswith("ld-") else path.name))


def put_libraries(path: Path, root: str) -> None:
    """Copies a root's cache of the dynamic loader, padded with zeros to a multiple of LIBRARIES_SIZE. Each program maps the cache,
    so another size would move all later mappings, and installing an unrelated package would change the run."""
    with suppress(OSError):
        shutil.copyfile(f"{root}{LIBRARIES}", path)
        size = path.stat().st_size
        os.truncate(path, -(-size // LIBRARIES_SIZE) * LIBRARIES_SIZE)


class Machine:
    """Describes a machine, which runs from this object's creation on, until `remove` removes the machine and its files."""

    def __init__(self, kernel: Kernel, settings: Settings, job: Job, place: Optional[str] = None) -> None:
        """Starts a machine. The caller's folder `place`, if given, keeps the job's files after `remove`. Missing: a limit of this
        process is too low, or no folder can hold the machine's memory."""
        fault = too_few()
        if fault:
            raise Missing(fault)
        self.room = Room(settings.memory, place)
        self.job = job
        self.root = settings.root
        self.processor = OneProcessor()
        self.memory = settings.memory
        try:
            self.furnish(kernel, settings)
            self.begun = time.monotonic()
            self.process = self.started(kernel, settings)
        except BaseException:
            self.room.remove()
            raise
        self.interrupts = Interrupts(self.process.pid)
        self.copiers = list[Copier]()
        self.is_held = False
        self.cut: Optional[int] = None  # the run's status if `end` killed the machine

    @property
    def folder(self) -> Path:
        return self.room.folder

    def furnish(self, kernel: Kernel, settings: Settings) -> None:
        """Writes the files for the machine's first process (init). Init's program is a new copy in each run, since a file's age
        could influence the run."""
        pauses = "\n".join([*(settings.pauses.lines() if settings.pauses else ()), *settings.more])
        kind = "scratch" if settings.scratch else "files"
        if settings.root:
            kind = "own"
        (self.folder / "job").write_bytes(self.job.text(kind, pauses, str(settings.limit), settings.cores))
        if settings.root:
            (self.folder / "root").symlink_to(settings.root)
            put_loader(self.folder)
        if self.job.rooms:
            shutil.copy(program(), self.folder / "link")
        make_place(self.folder)
        put_libraries(self.folder / "libraries", settings.root or "")
        for name in ("opened", "unbegun", "out", "err"):
            (self.folder / name).touch()
        if self.job.is_one_stream:
            (self.folder / "err").unlink()
            (self.folder / "err").symlink_to("out")
        shutil.copyfile(self.job.input, self.folder / "in")
        shutil.copyfile(kernel.init, self.folder / "init")
        (self.folder / "init").chmod(0o755)

    def started(self, kernel: Kernel, settings: Settings) -> "Process[bytes]":
        """Starts the kernel and returns its process. The kernel runs with glibc's restartable sequences switched off: a static
        kernel with glibc 2.35 or later registers memory for them, and crashes when the machine's first process unmaps that
        memory.
        """
        names = {**os.environ, "TMPDIR": self.room.memory, "GLIBC_TUNABLES": "glibc.pthread.rseq=0"}

        def begin() -> None:
            die_with_parent()
            raise_limits()
            self.processor.take()

        words = kernel_words(kernel, settings)
        how = {"cwd": self.folder, "env": names, "preexec_fn": begin}
        with open(self.folder / "log", "wb") as log:
            return begun(words, stdin=NOTHING, stdout=log, stderr=SAME, start_new_session=True, **how)

    def copy_to(self, out: int, err: int, keeps: bool) -> None:
        """Copies the job's output and errors to two descriptors while the job runs. If `keeps`, the machine's files keep the copied
        parts."""
        self.copiers = [Copier(self.folder / "out", out, keeps)]
        if not self.job.is_one_stream:
            self.copiers.append(Copier(self.folder / "err", err, keeps))

    def hold_back(self) -> None:
        """Stops a machine, and so its simulated time, while the machine is far ahead of its output's reader."""
        ahead = max((copier.ahead() for copier in self.copiers), default=0)
        if not self.is_held and ahead > MOST_AHEAD:
            self.is_held = True
            self.process.send_signal(signal.SIGSTOP)
        elif self.is_held and ahead <= MOST_AHEAD / 2:
            self.is_held = False
            self.process.send_signal(signal.SIGCONT)

    def wait(self, limit: Optional[float] = None) -> None:
        """Waits for the machine's end. The machine is killed after `limit` seconds, or if its output loses the reader."""
        descriptor = os.pidfd_open(self.process.pid)
        try:
            while self.process.poll() is None:
                can_be_read(descriptor, self.interrupts.look())
                self.processor.look(self.process.pid)
                self.hold_back()
                if self.lost():
                    self.end(SIGNALLED + signal.SIGPIPE)
                elif limit is not None and self.real() > limit:
                    self.end(TIMED_OUT)
        finally:
            os.close(descriptor)
        for copier in self.copiers:
            copier.finish()

    def lost(self) -> Optional[OSError]:
        """Returns the error because of which output was lost, if any."""
        return next((copier.fault for copier in self.copiers if copier.fault), None)

    def real(self) -> float:
        """Returns the real seconds since the start."""
        return time.monotonic() - self.begun

    def end(self, status: int) -> None:
        """Kills the machine, and records the status for the run. A signal handler may call this."""
        if self.process.returncode is None:
            self.cut = status
            os.killpg(self.process.pid, signal.SIGKILL)

    @property
    def has_begun(self) -> bool:
        """Returns whether the job's command could be executed."""
        return not (self.folder / "unbegun").stat().st_size

    def ended(self) -> Optional[MachineEnded]:
        """Returns the job's result, unless the machine was killed or failed."""
        try:
            return MachineEnded(*map(int, (self.folder / "status").read_text().split()))
        except (OSError, TypeError, ValueError):
            return None

    def stood(self) -> Optional[Stood]:
        """Returns the state in which the machine was killed, if the kernel reported a state."""
        return stood(self.folder, BOOTED * 10**9)

    def log(self) -> str:
        return (self.folder / "log").read_text(errors="replace")

    def fault(self) -> Missing:
        """Returns the error and its cause for a machine that ended before its job, although nobody killed the machine."""
        report = self.folder / "fault"
        if report.exists():
            text = report.read_text()
        else:
            text = why(self.log(), self.memory) or "; ".join(self.log().splitlines()[-LOG_LINES:])
        return Missing(f"the simulated machine ended by itself: {text.strip()}")

    @property
    def hides_the_processor(self) -> bool:
        """Returns whether the machine can intercept a process's questions to the processor."""
        return "can't trap cpuid" not in self.log()

    def remove(self) -> None:
        """Kills the machine if necessary, and removes the folders."""
        self.end(SIGNALLED + signal.SIGKILL)
        self.process.wait()
        self.room.remove()
