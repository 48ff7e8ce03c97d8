"""The acts on hosts in a running net: each kills, stops, continues or restarts all processes on a host.

On a host run the host's command, all processes that the command starts, and commands from `hinge exec`. If the processes are in a
cgroup, the links' process stops and kills the cgroup at the exact moment. Otherwise the net's first process signals the processes
in the host's network namespace, in the thread that starts the commands.
"""

from __future__ import annotations

import os
import queue
import signal
import time
from typing import Callable, Iterator, NamedTuple, Optional

from hinge.border.messages import ObeyedLine
from hinge.events.forms import ENDS
from hinge.events.kinds import PlannedAct
from hinge.run.host_lines import LINK_PATIENCE, HostLines
from hinge.run.processes import Ticker, signal_group
from hinge.run.words import SECOND, Wrong

LONGEST_LOOK = 3600.0  # s, after which it is looked again
KILL_PATIENCE, KILL_POLL = 5.0, 0.001  # s


class FinishedAct(NamedTuple):
    """Describes a finished act, with its moment on the links' clock."""

    moment: int  # ns
    act: PlannedAct
    is_idle: bool = False  # whether nothing ran on the host, because the host's command had ended by itself


def act_line(act: PlannedAct) -> str:
    """Returns the line that requests an act from the links' process, in the format that acts.h describes."""
    return f"act {act.word} {act.host} {act.fault}"


class HostProcesses:
    """Stops, continues and kills the processes in the network namespace of a host without a cgroup."""

    def __init__(self, network: int) -> None:
        self.network = network

    def all(self) -> list[int]:
        """Returns the numbers of all processes in the namespace, except this process."""
        own = os.fstat(self.network)
        members = map(int, filter(str.isdecimal, os.listdir("/proc")))
        return [pid for pid in members if pid != os.getpid() and is_in(pid, own)]

    def send(self, number: int) -> None:
        """Sends a signal to all processes, including those that start in the meantime."""
        members: set[int] = set()
        while new := set(self.all()) - members:
            for pid in new:
                try:
                    os.kill(pid, number)
                except ProcessLookupError:
                    pass
            members |= new

    def stop(self) -> None:
        self.send(signal.SIGSTOP)

    def cont(self) -> None:
        self.send(signal.SIGCONT)

    def kill(self) -> None:
        """Freezes all processes before killing them, so that no process sees another die."""
        self.stop()
        until = time.monotonic() + KILL_PATIENCE
        while self.all() and time.monotonic() < until:
            self.send(signal.SIGKILL)
            time.sleep(KILL_POLL)


def is_in(pid: int, network: os.stat_result) -> bool:
    """Returns whether a process is in a network namespace."""
    try:
        return os.path.samestat(os.stat(f"/proc/{pid}/ns/net"), network)
    except OSError:
        return False  # it has ended


def sees_own_processes() -> bool:
    """Returns whether /proc shows this process under its own number. In a container, /proc may hide the process."""
    try:
        return os.readlink("/proc/self") == str(os.getpid())
    except OSError:
        return False


class GroupProcesses(HostProcesses):
    """Stops, continues and kills the process group of a host's command. Used if /proc doesn't show the other processes."""

    def __init__(self, process: int) -> None:
        self.process = process

    def send(self, number: int) -> None:
        signal_group(self.process, number)

    def kill(self) -> None:
        self.send(signal.SIGKILL)


class Acts(Ticker):
    """Carries out the acts of a plan at their moments, and acts that users request while the net runs."""

    def __init__(
        self,
        acts: list[PlannedAct],
        lines: HostLines,
        do: Callable[[PlannedAct], Optional[Callable[[], None]]],
        is_of_links: Callable[[PlannedAct], bool],
        has_nothing: Callable[[str], bool],
        beside: Optional[Ticker] = None,
    ) -> None:
        """`do` carries out an act, except the part of the links; the function that `do` may return completes the act.
        `is_of_links` tells whether the links carry out an act, and `has_nothing` whether no process runs on a host. `beside`
        is another ticker, which gets each tick too."""
        self.planned = acts
        self.lines = lines
        self.do_act = do
        self.is_of_links = is_of_links
        self.beside = beside
        self.has_nothing = has_nothing
        self.pending: list[tuple[float, PlannedAct]] = []  # the scheduled acts, with moments on the monotonic clock
        # The requested acts, and a queue for the reply.
        self.asked: queue.SimpleQueue[tuple[list[PlannedAct], queue.SimpleQueue[FinishedAct]]] = queue.SimpleQueue()
        self.done: list[FinishedAct] = []
        self.rests: list[tuple[str, Callable[[], None]]] = []  # the hosts with functions that complete acts on them
        self.killed_at: dict[str, float] = {}  # each host's last kill by the plan, on the monotonic clock
        self.lasting: dict[tuple[str, str], set[int]] = {}  # the numbers of ongoing faults, by the host and the word that ends them

    def begin(self, of_main: bool, moment: int) -> None:
        """Schedules the planned acts that count from the main command if `of_main`, otherwise from the links' start. The present
        time on that clock is `moment`, in ns."""
        self.add([act for act in self.planned if act.moment.of_main == of_main], moment)

    def add(self, acts: list[PlannedAct], moment: int) -> None:
        """Schedules acts. The present time on the clock of their moments is `moment`, in ns."""
        now = time.monotonic()
        self.pending += [(now + (act.moment.ns - moment) / SECOND, act) for act in acts]
        self.pending.sort(key=lambda due_act: due_act[0])

    def left(self) -> float:
        """Returns the seconds until the next act, or until the next tick of the ticker beside if that is earlier."""
        act = max(0.0, self.pending[0][0] - time.monotonic()) if self.pending else LONGEST_LOOK
        return min(act, self.beside.left()) if self.beside else act

    def tick(self) -> None:
        """Carries out all due acts, then completes their remaining work, and then carries out the acts that users request."""
        while True:
            if self.pending and self.pending[0][0] <= time.monotonic():
                due, act = self.pending.pop(0)
                if ENDS.get(act.word) == "restart":
                    self.killed_at[act.host] = due
                self.carry_out(act)
            elif self.rests:
                self.finish(self.rests[0][0])
            else:
                break
        if self.beside:
            self.beside.tick()
        while not self.asked.empty():
            acts, reply = self.asked.get()
            reply.put(self.carry_out_request(acts))
            self.add(acts[1:], acts[0].moment.ns)

    def carry_out_request(self, acts: list[PlannedAct]) -> FinishedAct:
        """Carries out the first of the requested acts, and requests all acts of the links from them; returns the finished act."""
        for act in filter(self.is_of_links, acts):
            length = act.moment.ns - acts[0].moment.ns
            self.lines.ask(f"at {length} {act_line(act)}" if length else f"line {act_line(act)}")
        result = self.carry_out(acts[0])
        self.finish(acts[0].host)
        return result

    def carry_out(self, act: PlannedAct) -> FinishedAct:
        """Carries out an act, unless the act would end a fault that other events continue; returns the finished act."""
        may_be_idle = act.word in ENDS and not self.goes_on(act.host, "restart")
        if self.note_fault(act):
            return FinishedAct(act.moment.ns, act)
        self.finish(act.host)
        is_idle = may_be_idle and not self.is_of_links(act) and self.has_nothing(act.host)
        rest = self.do_act(act)
        moment, met_nothing = self.record_act(act)
        self.done.append(FinishedAct(moment, act, is_idle or (may_be_idle and met_nothing)))
        if rest:
            self.rests.append((act.host, rest))
        return self.done[-1]

    def note_later(self, host: str, moment: int) -> None:
        """Changes the moment of a host's latest finished act to a later moment, at which the act's effect began."""
        place = max(place for place, record in enumerate(self.done) if record.act.host == host)
        self.done[place] = self.done[place]._replace(moment=moment)

    def record_act(self, act: PlannedAct) -> tuple[int, bool]:
        """Records an act in the transcript, or asks the links about an act that they carried out. Returns the act's moment in ns
        on the links' clock, and whether the links found no process for a fault."""
        if not self.is_of_links(act):
            return self.lines.ask(f"line remark act,{act.word} {act.host}").moment, False
        answer = self.lines.ask(f"acted {act.host}")
        moment, _, nothing = (answer.line or str(answer.moment)).partition(" ")
        return int(moment), bool(nothing)

    def finish(self, host: str) -> None:
        """Completes the remaining work of all acts on a host."""
        for rest in [rest for rest in self.rests if rest[0] == host]:
            self.rests.remove(rest)
            _, complete = rest
            complete()

    def note_fault(self, act: PlannedAct) -> bool:
        """Notes that a fault begins or ends. Returns whether the act has to be left out, because the act would end a fault while
        another such fault continues.

        An act without a fault number was written as a separate line, and ends all such faults.
        """
        lasting = self.lasting.setdefault((act.host, ENDS.get(act.word, act.word)), set())
        if act.word in ENDS:
            lasting.add(act.fault)
            return False
        if act.fault:
            is_own = act.fault in lasting
            lasting.discard(act.fault)
            return bool(lasting) or not is_own
        lasting.clear()
        return False

    def awaited(self) -> bool:
        """Returns whether any host's command is scheduled to start again."""
        return any(act.word == "restart" for _, act in self.pending)

    def ask(self, acts: list[PlannedAct]) -> ObeyedLine:
        """Makes the first process carry out the first act now, and schedule the other acts; returns the line and its moment. Runs
        in another thread than the acts.

        Wrong: the net is about to end.
        """
        reply: queue.SimpleQueue[FinishedAct] = queue.SimpleQueue()
        self.asked.put((acts, reply))
        os.kill(os.getpid(), signal.SIGCHLD)  # wakes the thread that carries out the acts
        try:
            result = reply.get(timeout=LINK_PATIENCE)
        except queue.Empty:
            raise Wrong("the net doesn't do it: it ends") from None
        return ObeyedLine(result.moment, f"{acts[0].word} {acts[0].host}")

    def goes_on(self, host: str, end: str) -> bool:
        """Returns whether the host has a fault that the word `end` (`cont` or `restart`) would end."""
        return bool(self.lasting.get((host, end)))

    def stopped(self) -> Iterator[str]:
        """Yields the names of all stopped hosts."""
        for host in dict.fromkeys(record.act.host for record in self.done):
            if self.goes_on(host, "cont"):
                yield host
