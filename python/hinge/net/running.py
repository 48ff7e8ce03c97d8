"""A net controlled from Python.

    with Net() as net:
        net.host("store", "exec redis-server --save ''", port=6379)
        net.host("client")
        net.link("client", "store", "10Mbit/s 20ms")
        assert net.run("client", "redis-cli -h store ping").stdout == "PONG
"
        net.cut("store", 2)

The net is a `hinge net` process, which ends when this process ends, even after SIGKILL. Times are seconds, or words such as
600ms.
"""

from __future__ import annotations

import os
import re
import shlex
import time
from pathlib import Path
from types import TracebackType
from typing import IO, Any, Mapping, NamedTuple, Optional, Sequence, Union

from hinge.border.asking import ask, is_answered
from hinge.border.files import read_log, read_object
from hinge.border.messages import Reply
from hinge.border.programs import NOTHING, PIPE, CalledProcessError, CompletedProcess, Process, TimeoutExpired, asked, begun
from hinge.border.scratch import Folder
from hinge.border.terminal import lines
from hinge.net.described import Command, Described, NetError, Time, spelled_time
from hinge.net.description import Description, read_description
from hinge.net.net_rooms import NetEnds
from hinge.program import HINGE, audit_of, in_background
from hinge.run.processes import SIGNALLED
from hinge.run.words import Wrong
from hingetulip_words.explained import explained

__tracebackhide__ = True  # of a test that fails, pytest shows its own line
POLL = 0.01  # s between two checks whether the net has begun
PATIENCE = 600.0  # s to wait for the net's replies; the waits for ports are shorter
END_PATIENCE = 60.0  # s to wait for the net's end
LAST_LINES = 10  # the lines of a host's output in an error message


class CommandFailed(CalledProcessError):
    """Raised if a command's status isn't 0; contains its output."""

    def __str__(self) -> str:
        output = "\n".join(text.rstrip() for text in (self.stdout, self.stderr) if isinstance(text, str) and text.strip())
        text = f"{self.cmd}: status {self.returncode}"
        return lines(f"{text}\n{output}" if output else text)


class Obeyed(NamedTuple):
    """Describes a configuration line or an act that took effect, with its moment on the links' clock."""

    seconds: float
    line: str


def words_with_length(*words: str, lasting: Optional[Time] = None) -> str:
    """Joins the words that aren't empty; returns the line, with a length at the end if there is one."""
    length = "" if lasting is None else spelled_time(lasting)
    return " ".join(word for word in (*words, length) if word)


class Net(Described):
    """Runs a net that Python describes and controls. Describe the net, then call `start`; `run`, and a change without a moment,
    start the net if needed."""

    def __init__(
        self,
        folder: Union[str, Path, None] = None,
        *,
        seed: Optional[int] = None,
        mtu: Optional[int] = None,
        late: Optional[Time] = None,
        outside: Optional[str] = None,
        link: str = "",
        back: Optional[str] = None,
    ) -> None:
        """`folder` receives the history, the summary and the hosts' output. Without `folder`, these files are deleted at the end.

        `link` and `back` are the words for links that are added without words. `outside` is a host to connect to the system's
        network.
        """
        self.temporary = Folder() if folder is None else None
        super().__init__(Path(self.temporary.path if self.temporary else str(folder)).absolute(), link, back)
        self.seed = seed
        self.mtu = mtu
        self.late = late
        self.outside = outside
        self.obeyed: list[Obeyed] = []
        self.description: Optional[Description] = None
        self.process: Optional["Process[bytes]"] = None
        self.leash = -1

    @property
    def history(self) -> Path:
        """The path to the links' transcript, for `dummynet audit` and `hinge look`."""
        return self.folder / "net.history"

    @property
    def socket(self) -> Path:
        """The path to the control socket, for `hinge change`, `hinge status` and `hinge exec`."""
        return self.folder / "control"

    # What is done to it.

    def obey(self, words: str, *, at: Optional[Time] = None) -> list[Obeyed]:
        """Applies an event's words: now, or, if the net hasn't started, at the moment `at`. Returns the applied lines. NetError:
        a line is refused."""
        if at is not None:
            self.describe(f"at {spelled_time(at)} {words}")
            return []
        self.start()
        obeyed = list[Obeyed]()
        for reply in self.asked(change=words).told or []:
            if reply.refused:
                raise NetError(f"{words}: {reply.line}: {explained(reply.line, reply.refused)}")
            obeyed.append(Obeyed(reply.moment / 1e9, reply.line))
        self.obeyed += obeyed
        return obeyed

    def change(
        self,
        one: str,
        two: str,
        link: Optional[str] = None,
        back: Optional[str] = None,
        *,
        preset: Optional[str] = None,
        at: Optional[Time] = None,
    ) -> list[Obeyed]:
        """Gives a link new words, now or at a moment; returns the applied lines."""
        return self.obey(f"{one} {two} {self.words(link, back, preset)}", at=at)

    def cut(
        self,
        host: str,
        lasting: Optional[Time] = None,
        *,
        off: Sequence[str] = (),
        way: str = "",
        port: str = "",
        at: Optional[Time] = None,
    ) -> list[Obeyed]:
        """Makes a host's links, or only the links to the hosts `off`, lose all packets, for a time or until a heal; returns the
        applied lines. The way "up" contains the packets that the host sends, and "down" the packets that the host receives. A
        port such as "tcp port 7001" restricts the cut to the port's packets."""
        return self.obey(words_with_length("cut", host, *(["from"] if off else []), *off, way, port, lasting=lasting), at=at)

    def heal(self, host: str, *, off: Sequence[str] = (), way: str = "", port: str = "", at: Optional[Time] = None) -> list[Obeyed]:
        """Ends a cut on the same links, way and port; returns the applied lines."""
        return self.obey(words_with_length("heal", host, *(["from"] if off else []), *off, way, port), at=at)

    def act(self, word: str, host: str, lasting: Optional[Time], at: Optional[Time]) -> list[Obeyed]:
        """Applies an event on a host, such as a kill; returns the applied acts."""
        return self.obey(words_with_length(word, host, lasting=lasting), at=at)

    def kill(self, host: str, lasting: Optional[Time] = None, *, at: Optional[Time] = None) -> list[Obeyed]:
        """Kills all processes on a host; returns the applied acts. The host's command starts again after `lasting`, or by
        `restart`."""
        return self.act("kill", host, lasting, at)

    def crash(self, host: str, lasting: Optional[Time] = None, *, at: Optional[Time] = None) -> list[Obeyed]:
        """Crashes a host: kills its processes and drops its disks' unsynced writes; returns the applied acts.

        The host's command starts again at once, or after `lasting`. A crash needs simulated time.
        """
        return self.act("crash", host, lasting, at)

    def restart(self, host: str, *, at: Optional[Time] = None) -> list[Obeyed]:
        """Starts a host's command again; if the command still runs, kills it first. Returns the applied act."""
        return self.act("restart", host, None, at)

    def stop(self, host: str, lasting: Optional[Time] = None, *, at: Optional[Time] = None) -> list[Obeyed]:
        """Pauses all processes on a host, for a time or until `cont`; returns the applied acts."""
        return self.act("stop", host, lasting, at)

    def cont(self, host: str, *, at: Optional[Time] = None) -> list[Obeyed]:
        """Continues the stopped processes on a host; returns the applied act."""
        return self.act("cont", host, None, at)

    # What runs there.

    def start(self) -> Net:
        """Starts the net unless it runs, and waits until its ports listen; returns the net. NetError: the net can't start, or
        ended early."""
        if self.process is not None:
            return self
        self.folder.mkdir(parents=True, exist_ok=True)
        if self.socket.exists() and is_answered(str(self.socket)):
            raise NetError(f"{self.folder}: it is that of a net that runs")
        file = self.folder / "described.net"
        file.write_text("".join(f"{line}\n" for line in self.lines))
        try:
            self.description = read_description(str(file))
        except Wrong as wrong:
            raise NetError(str(wrong)) from None
        inputs = {
            "seed": self.seed,
            "mtu": self.mtu,
            "late": None if self.late is None else spelled_time(self.late),
            "outside": self.outside,
        }
        read_end, self.leash = os.pipe()
        words = ["net", str(file), "--transcripts", str(self.folder), "--logs", str(self.folder / "logs")]
        for name, value in inputs.items():
            if value is not None:
                words += [f"--{name}", str(value)]
        words += ["--control", str(self.socket), "--while-open", str(read_end)]
        self.is_running = True
        self.process = in_background(words, self.folder / "net.log", read_end)
        os.close(read_end)
        self.wait_until_ready()
        return self

    def wait_until_ready(self) -> None:
        """Waits until the net replies. NetError: the net ended early; the message contains the reason."""
        assert self.process
        while not is_answered(str(self.socket)) and self.process.poll() is None:
            time.sleep(POLL)
        try:
            self.asked(status=True)
        except NetError:
            self.end()
            silent = re.findall(r"^void: ((\S+) doesn't listen at port .*)$", self.told(), re.MULTILINE)
            text = "\n".join(f"{line}\n{self.last_lines(host)}".rstrip() for line, host in silent)
            raise NetError(text or self.told() or "the net has ended") from None

    def asked(self, change: Optional[str] = None, status: bool = False) -> Reply:
        """Sends a request to the net; returns the reply. NetError: the net refuses the change, or doesn't reply."""
        try:
            return ask(str(self.socket), PATIENCE, change=change, status=status)
        except Wrong as wrong:
            raise NetError(str(wrong)) from None

    def popen(self, host: str, command: Command, **how: Any) -> "Process[Any]":
        """Starts a command on a host; returns the process, which ends with the net. `how` contains arguments for
        subprocess.Popen."""
        self.start()
        words = ["sh", "-c", command] if isinstance(command, str) else command
        return begun([*HINGE, "exec", str(self.socket), host, "--", *words], **how)

    def run(
        self,
        host: str,
        command: Command,
        *,
        check: bool = True,
        timeout: Optional[float] = None,
        input: Optional[str] = None,
        env: Optional[Mapping[str, str]] = None,
        cwd: Union[str, Path, None] = None,
    ) -> "CompletedProcess[str]":
        """Runs a command on a host; returns its output and status. CommandFailed: the status isn't 0, with `check`."""
        stdin: Union[int, IO[str]] = NOTHING if input is None else PIPE
        process = self.popen(host, command, stdin=stdin, stdout=PIPE, stderr=PIPE, text=True, env=env, cwd=cwd)
        try:
            stdout, stderr = process.communicate(input, timeout)
        except BaseException:
            process.kill()
            process.wait()
            raise
        words = f"{host}: {command if isinstance(command, str) else shlex.join(command)}"
        if check and process.returncode:
            raise CommandFailed(process.returncode, words, stdout, stderr)
        return CompletedProcess(words, process.returncode, stdout, stderr)

    def address(self, host: str, version: int = 4) -> str:
        """Returns a host's main address for this IP version."""
        self.start()
        return self.addresses()[host][1 if version == 6 else 0]

    def addresses(self) -> dict[str, list[str]]:
        """Returns all addresses of each host; the first two are the host's main addresses. Returns an empty dict before the
        start."""
        if self.description is None:
            return {}
        ends = NetEnds(self.description)
        return {name: ends.all_of(name) for name in ends.own}

    def output(self, host: str) -> str:
        """Returns the output of a host's command so far."""
        return read_log(self.folder / "logs" / f"{host}.log")

    def last_lines(self, host: str) -> str:
        """Returns the last lines that a host's command printed."""
        return lines("\n".join(f"  {line}" for line in self.output(host).splitlines()[-LAST_LINES:]))

    def status(self) -> dict[str, Any]:
        """Returns the net's counts so far, or the whole run's counts after its end."""
        if self.process is not None and self.process.poll() is None:
            return self.asked(status=True).status or {}
        return read_object(self.folder / "net.json", "no summary of hinge net")

    def drawn_seed(self) -> int:
        """Returns the seed for random losses, which `hinge net` draws if no seed was given."""
        return int(self.status()["seed"]) if self.seed is None else self.seed

    # Its end.

    def end(self) -> None:
        """Ends the net: the hosts' commands get SIGTERM, and `hinge net` completes the summary and the history."""
        if self.process is None or self.leash < 0:
            return
        os.close(self.leash)
        self.leash = -1
        try:
            self.process.wait(END_PATIENCE)
        except TimeoutExpired:
            self.process.kill()
            self.process.wait()

    def told(self) -> str:
        """Returns the messages that `hinge net` printed, such as each way's counts."""
        text = read_log(self.folder / "net.log")
        return lines("\n".join(line.replace("hinge net: ", "", 1) for line in text.splitlines()))

    def audit(self) -> str:
        """Ends the net; returns `dummynet audit`'s verdict on the links: `lawful N`, or the first wrong entry."""
        self.end()
        return audit_of(str(self.history))

    def paths(self) -> str:
        """Ends the net; returns `hinge look`'s verdict on the paths between links, such as `lawful between links`."""
        self.end()
        answer = asked([*HINGE, "look", str(self.folder)], statuses=range(SIGNALLED))
        return (answer.text.strip() or answer.told).rpartition("\n")[2]

    def __enter__(self) -> Net:
        return self

    def __exit__(self, kind: Optional[type[BaseException]], error: Optional[BaseException], trace: Optional[TracebackType]) -> None:
        self.close()

    def close(self) -> None:
        """Ends the net, and deletes the folder if this object created the folder."""
        self.end()
        if self.temporary:
            self.temporary.remove()
