"""A net's first process, which creates the rooms, starts the links and the hosts' commands, and reports the result."""

from __future__ import annotations

import math
import os
import signal
from contextlib import suppress
from functools import partial
from itertools import chain
from typing import Optional

from hinge.command import say
from hinge.events.kinds import PlannedAct
from hinge.net.acts import act_line
from hinge.net.net_control import opened_control
from hinge.net.net_hosts import NetHosts
from hinge.net.net_summary import NetRan, report_net, silent, status_without
from hinge.net.order import NetOrder
from hinge.net.parts import Wait
from hinge.run.host import LinkProcess
from hinge.run.interfaces import something_listens
from hinge.run.outside import Outside
from hinge.run.page import HAS_IT, NOT_ALLOWED
from hinge.run.processes import SIGNALLED, Ended
from hinge.run.rooms import start
from hinge.run.system import enter, is_simulated, try_to_write

LISTEN_POLL = 0.01  # s
BEGIN_PATIENCE = 60.0  # s, within which all commands begin
WAITS = "/proc/waits"  # of a simulated machine
NOBODY = 0  # no process
BEFORE = 0.1  # s; a command that ended at most so long before a kill counts as killed
PRIORITY = 8  # of real time, below the priorities of the links and of their transcript's writer
NO_PRIORITY = "the links don't come before other programs, as the system doesn't allow it (as root, or with `ulimit -r 10`)"


class NetInside(NetHosts):
    """Runs a net in its first process."""

    def __init__(self, order: NetOrder, own_users: bool, outside: Optional[Outside]) -> None:
        super().__init__(order, own_users, outside)
        self.silent: list[str] = []  # messages about optional ports at which nothing listens
        self.missing = ""  # the message about a required port at which nothing listens, so that the net ends
        self.main_moment: Optional[int] = None  # the moment in ns on the links' clock when the main command began

    def started_links(self) -> LinkProcess:
        """Starts and returns the process that emulates all links. Acts on hosts don't affect this process."""
        enter(self.network)
        descriptors = [*self.rooms.descriptors(), *chain(*self.descriptors.values())]
        words = ["tun", *map(str, self.rooms.interfaces)]
        text = self.links_plan.text()
        control = opened_control(self)
        return LinkProcess(self.processes, self.page, words, descriptors, text, self.order.mask, control, self.lines)

    def begin_commands(self) -> Optional[int]:
        """Starts all commands except the main command, and waits until each has begun; returns the signal that ends the wait
        early, if any. The commands enter their cgroups one by one, and a due act would wait for all these entries."""
        read_end, write_end = os.pipe()  # each process holds the write end until its command begins
        os.set_blocking(read_end, False)
        for name, host in self.net.hosts.items():
            if host.command and name != self.net.main:
                self.begin(name)
        os.close(write_end)

        def have_begun() -> bool:
            self.acts.tick()
            with suppress(BlockingIOError):
                return not os.read(read_end, 1)
            return False

        came = self.processes.poll(have_begun, BEGIN_PATIENCE, LISTEN_POLL)
        os.close(read_end)
        return came

    def waited(self) -> Optional[int]:
        """Waits for the net's ports in turn, until a required port is missing. Returns the signal that ends the wait early, if
        any."""
        for wait in self.net.waits:
            enter(self.rooms.network[wait.host])

            def is_over() -> bool:
                self.acts.tick()
                return something_listens(wait.port) or self.has_ended(wait.host)

            came = self.processes.poll(is_over, wait.lasting, LISTEN_POLL)
            if not came and not something_listens(wait.port):
                self.note_silent(wait)
            if came or self.missing:
                return came
        return None

    def note_silent(self, wait: Wait) -> None:
        """Notes that nothing listens at a port. If the port is optional, says so, and the net goes on."""
        text = silent(self.net, wait, self.processes.ended.get(self.started.get(wait.host, NOBODY)))
        if wait.is_optional:
            self.silent.append(text)
            say(text)
        else:
            self.missing = text

    def has_ended(self, host: str) -> bool:
        """Returns whether a host's command has ended for good."""
        is_awaited = any(act.host == host and act.word == "restart" for _, act in self.acts.pending)
        return self.started.get(host) in self.processes.ended and not is_awaited

    def begin_main(self) -> Optional[int]:
        """Starts the main command, or --shell's shell; returns its process, or None if the net has neither."""
        if self.options.shell or self.net.main:
            self.main_moment = self.lines.ask("main").moment
            self.acts.begin(True, 0)
        if self.options.shell:
            return start([os.environ.get("SHELL", "sh")], self.order.mask, partial(self.enter, self.options.shell), self.own_users)
        if self.net.main:
            self.begin(self.net.main)
        return self.started.get(self.net.main or "")

    def lasted(self, link: LinkProcess) -> int:
        """Starts the commands, and waits until the main command ends (all commands, if there is no main command) or a signal
        arrives; returns the status."""
        came = self.begin_commands() or self.waited()
        if came:
            return SIGNALLED + came
        if self.missing:
            return status_without(self.missing)
        main = self.begin_main()
        if link.control:
            link.control.serve()  # starts a thread, and this thread starts no process from then on
        rest = self.waited_for(main)
        while rest and not came and link.process not in self.processes.ended:
            try_to_write(WAITS, "1" if self.acts.pending else "0")  # 1: an act is due later, so an idle machine isn't stuck
            came = self.processes.wait(rest[0], self.acts.left(), self.acts, link.process)
            self.acts.tick()
            rest = self.waited_for(main)
        if (self.options.stay or self.options.while_open is not None) and not came:
            came = self.processes.wait(link.process, ticker=self.acts)
        if main in self.processes.ended:
            return self.processes.ended[main]
        if came or main is not None:
            return SIGNALLED + (came or signal.SIGTERM)
        statuses = (self.processes.ended.get(pid) for name, pid in self.started.items() if not self.was_killed(name))
        return next((status for status in statuses if status), 0)

    def waited_for(self, main: Optional[int]) -> list[int]:
        """Returns the processes that the net still waits for, or NOBODY if a command will only be started again later."""
        processes = [*self.started.values()] if main is None else [main]
        rest = [process for process in processes if process not in self.processes.ended]
        if not rest and main is None and self.acts.awaited():
            return [NOBODY]
        return rest

    def was_killed(self, name: str) -> bool:
        """Returns whether an act ended a host's command. A command that ended long before the act wasn't killed."""
        ended = self.processes.ended_at.get(self.started.get(name, NOBODY), math.inf)
        return self.acts.goes_on(name, "restart") and ended > self.acts.killed_at.get(name, 0.0) - BEFORE

    def run(self) -> int:
        """Runs the net and reports the result; returns the status."""
        link = self.started_links()
        fault = link.failed()
        if fault is not None:
            return fault
        realtime = self.page.head("realtime")
        if realtime == NOT_ALLOWED:
            say(NO_PRIORITY)
        if realtime == HAS_IT and not is_simulated():
            with suppress(OSError):  # so that acts aren't late
                os.sched_setscheduler(0, os.SCHED_FIFO | os.SCHED_RESET_ON_FORK, os.sched_param(PRIORITY))
        self.acts.begin(False, self.lines.ask("moment").moment)
        status = self.lasted(link)
        endings = self.ended()
        link.end()
        counts = self.page.read()
        drops = self.rooms.dropped()
        unforwarded = self.rooms.unforwarded()
        ran = NetRan(status, counts, drops, endings, unforwarded, self.acts.done, self.main_moment, self.missing)
        return report_net(self.order, ran, None if is_simulated() else self.waits)

    def ended(self) -> dict[str, Ended]:
        """Ends the hosts' commands; returns how each ended. Stopped processes continue first, so that they can end."""
        if not is_simulated():
            self.look_at_waits(0.0)
        self.acts.pending.clear()
        self.acts.tick()
        names = list(self.acts.stopped())
        if names:
            self.lines.ask("line remark ending")
        for name in names:
            act = PlannedAct(self.order.net_plan.moment("0s"), "cont", name)
            if self.is_of_links(act):
                self.lines.ask(f"line {act_line(act)}")
            else:
                self.act(act)
        endings = self.processes.endings(self.started, self.begun, self.order.end_wait)
        self.cgroups.remove()
        victims = [name for name, ending in endings.items() if ending.by == "itself" and self.was_killed(name)]
        return endings | {name: endings[name]._replace(by="kill") for name in victims}
