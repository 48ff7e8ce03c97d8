"""The job of a simulated machine: a command with the user, folder and environment of the caller."""

from __future__ import annotations

import hashlib
import json
import os
import sys
from pathlib import Path
from typing import NamedTuple, Optional, Sequence

from hinge.run.rooms import may_ping
from hinge.run.settings import NetOptions, SimulatedOptions
from hinge.run.system import Missing
from hinge.run.words import Wrong, duration

PACKAGES = str(Path(__file__).resolve().parents[2])
OWN_FOLDERS = ("/dev", "/proc", "/run", "/sys")  # folders that the machine has of its own
# Variables that depend on the way in which a shell starts a command.
OF_SHELLS = {"_", "OLDPWD", "SHLVL"}
# Variables that name sockets and terminals of the system, which a machine lacks, or that differ from login to login.
OF_SESSIONS = set(
    """DBUS_SESSION_BUS_ADDRESS DISPLAY GPG_TTY SSH_AGENT_PID SSH_AUTH_SOCK SSH_CLIENT SSH_CONNECTION SSH_TTY STY TMUX TMUX_PANE
    WAYLAND_DISPLAY WINDOWID XDG_RUNTIME_DIR XDG_SESSION_ID""".split()
)
SHELLS = {"bash", "dash", "fish", "ksh", "sh", "zsh"}
CLEAN = {"HOME", "LANG", "LOGNAME", "USER"}  # the user's variables that --clean-env keeps
PATH = "/usr/local/sbin:/usr/local/bin:/usr/sbin:/usr/bin:/sbin:/bin"  # the variable PATH with --clean-env
BEGIN = "import sys; sys.path.insert(0, sys.argv.pop(1)); from hinge.net.begun import begin_inside; begin_inside()"


class Job(NamedTuple):
    """Describes a machine's job: a command with its standard input, environment and rooms."""

    words: Sequence[str]
    input: Path  # the file that is the command's standard input
    is_one_stream: bool  # whether output and errors are one stream
    names: Sequence[str]  # the environment, as NAME=value
    rooms: Sequence[str] = ()  # the texts from which the first process creates the command's rooms, if any

    def text(self, *settings: str) -> bytes:
        """Returns the settings, user, folder, command, environment and rooms as NUL-terminated strings, which the machine's first
        process reads."""
        user = [str(os.getuid()), str(os.getgid()), " ".join(map(str, os.getgroups())), f"{current_mask():o}"]
        words = [*settings, *user, folder(), str(len(self.words)), *self.words, *self.names, "", *(self.rooms or ["command"])]
        return words_in_bytes(words)

    def given(self) -> "dict[str, str]":
        """Returns a checksum for each kind of data in the programs' memory. Only runs with equal checksums can be the same."""
        parts = {
            "words": words_in_bytes(self.words),
            "environment": words_in_bytes(self.names),
            "user": words_in_bytes([str(os.getuid()), str(os.getgid())]),
            "folder": words_in_bytes([folder()]),
            "input": self.input.read_bytes(),
        }
        if self.rooms:
            parts["link"] = words_in_bytes([text for text in self.rooms if text != may_ping()])
        return {name: hashlib.sha256(part).hexdigest()[:16] for name, part in parts.items()}


def words_in_bytes(words: Sequence[str]) -> bytes:
    return b"".join(os.fsencode(word) + b"\0" for word in words)


def current_mask() -> int:
    """Returns this process's file mode creation mask (umask)."""
    present = os.umask(0o022)
    os.umask(present)
    return present


def environment(is_clean: bool) -> list[str]:
    """Returns the job's variables as NAME=value; if `is_clean`, only a few, in a fixed order."""
    if is_clean:
        return [f"PATH={PATH}", *(f"{name}={os.environ[name]}" for name in sorted(CLEAN) if name in os.environ)]
    return [f"{name}={value}" for name, value in os.environ.items() if name not in OF_SHELLS | OF_SESSIONS]


def folder() -> str:
    """Returns the current folder. Missing: the folder's path is below /dev, /proc, /run or /sys, which a machine doesn't share."""
    place = os.getcwd()
    if any(place == own or place.startswith(f"{own}/") for own in OWN_FOLDERS):
        raise Missing(f"--simulated: {place} isn't in the machine, whose {', '.join(OWN_FOLDERS)} are its own")
    return place


def words_of_net(options: NetOptions) -> list[str]:
    """Returns the command with which Python runs a net inside a machine. Python ignores its environment variables there, and writes
    no byte code."""
    return [sys.executable, "-I", "-S", "-B", "-c", BEGIN, PACKAGES, json.dumps(vars(options))]


def refuse_outside(options: SimulatedOptions, has_terminal: bool) -> None:
    """Refuses options that lead outside the machine, and a shell that would need a terminal. Wrong: there is such an option or
    shell."""
    if options.leads_outside():
        raise Wrong("--outside, --to: simulated time has no way to the rest of the network, whose time is real")
    if options.control:
        raise Wrong("--control: nothing speaks to a machine of its own from outside; simulated time has --timeline")
    command = options.command
    if has_terminal and len(command) == 1 and os.path.basename(command[0]) in SHELLS:
        raise Wrong(
            f"--simulated: there is no terminal in simulated time; give {command[0]} its commands by -c or on standard input"
        )


def root_of(options: SimulatedOptions) -> Optional[str]:
    """Returns the folder of --root, if given. Wrong: there is no such folder, or the folder doesn't contain the current one, in
    which the program starts."""
    if options.root is None:
        return None
    place = os.path.realpath(options.root)
    if not os.path.isdir(place):
        raise Wrong(f"--root {options.root}: there is no such folder")
    if not os.path.isdir(place + os.getcwd()):
        raise Wrong(
            f"--root {options.root}: it has no folder {os.getcwd()}, in which the program would begin: cd to one that it has, as /"
        )
    return place


def limit_in_ns(options: SimulatedOptions) -> int:
    """Returns --limit in ns; 0 without the option."""
    return 0 if options.limit is None else duration(options.limit, "--limit")


def real_limit_of(options: SimulatedOptions) -> Optional[float]:
    """Returns --real-limit in seconds, if given."""
    return None if options.real_limit is None else duration(options.real_limit, "--real-limit") / 1e9
