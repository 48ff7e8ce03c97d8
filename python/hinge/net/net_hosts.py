"""The hosts of a running net, in its first process: their rooms, their commands, and the acts on them."""

from __future__ import annotations

import os
import signal
import time
from functools import partial
from typing import Callable, Optional

from hinge.border.files import opened_log
from hinge.border.terminal import silence
from hinge.border.programs import can_be_read
from hinge.events.kinds import PlannedAct
from hinge.net.acts import Acts, GroupProcesses, HostProcesses, sees_own_processes
from hinge.run.cgroups import LINKS_FILES, Cgroup, Cgroups
from hinge.net.clocks import clock_number, set_clock, take_clock
from hinge.net.disks import Disks
from hinge.net.net_rooms import NetRooms
from hinge.net.order import LinksPlan, NetOrder
from hinge.run.host_lines import HostLines
from hinge.run.outside import Outside
from hinge.run.page import Page
from hinge.run.processes import Processes, Ticker
from hinge.run.rooms import start, this_network
from hinge.run.system import is_simulated
from hinge.run.users import make_terminals
from hinge.run.verdict import Waits
from hinge.run.words import Wrong

WATCHED = {signal.SIGCHLD, signal.SIGTERM, signal.SIGHUP}
LISTEN_POLL = 0.01  # s


class NetHosts:
    """Holds the hosts of a running net in its first process: starts commands there, and carries out acts on them."""

    def __init__(self, order: NetOrder, own_users: bool, outside: Optional[Outside]) -> None:
        self.order = order
        self.options = order.options
        self.net = order.net
        self.own_users = own_users
        self.page = Page(2 * len(self.net.links))
        self.processes = Processes(WATCHED if self.net.main or self.options.shell else WATCHED | {signal.SIGINT})
        self.network = this_network()  # the network in which the links' process runs, apart from all hosts
        self.rooms = NetRooms(self.net, self.options.mtu)
        if outside and order.outside:
            self.rooms.lead_out(outside, order.outside)
        self.disks = Disks(self.net.hosts.values())
        self.started: dict[str, int] = {}
        self.begun = time.monotonic()
        self.lines = HostLines()
        self.cgroups = Cgroups()
        self.waits = Waits()
        self.linked = self.linked_hosts()
        self.descriptors = {name: [cgroup.descriptors[file] for file in LINKS_FILES] for name, cgroup in self.linked.items()}
        self.links_plan = LinksPlan(order, self.rooms.ends, self.descriptors)
        self.is_of_links = self.links_plan.is_of_links
        ticker = None if is_simulated() else Ticker(self.look_at_waits)
        self.acts = Acts(order.net_plan.acts, self.lines, self.act, self.is_of_links, self.has_nothing, ticker)

    def linked_hosts(self) -> dict[str, Cgroup]:
        """Returns the cgroups of hosts on which acts may happen. The links carry out the acts on hosts with cgroups."""
        hosts = dict.fromkeys(self.rooms.network if self.options.control else (act.host for act in self.order.net_plan.acts))
        cgroups = {name: self.cgroups.of(name) for name in hosts}
        return {name: cgroup for name, cgroup in cgroups.items() if cgroup}

    def look_at_waits(self, _: float) -> None:
        """Notes for how long the processes of running commands have waited for a processor."""
        running = {name: process for name, process in self.started.items() if process not in self.processes.ended}
        self.waits.look(self.cgroups.made, running)

    def has_nothing(self, host: str) -> bool:
        """Returns whether no process runs on a host."""
        return self.linked[host].has_nothing() if host in self.linked else not self.on_host(host).all()

    def act(self, act: PlannedAct) -> Optional[Callable[[], None]]:
        """Carries out an act on a host's processes, disks or clock, except the part of the links. Returns a function that
        completes the act later, or None if nothing remains. Wrong: hosts know no such act."""
        if self.is_of_links(act):
            return partial(self.see_gone, act.host) if act.word == "kill" else None
        on_host = self.on_host(act.host)
        cgroup = self.linked.get(act.host)
        if act.word in ("kill", "crash", "restart"):
            if cgroup:
                cgroup.empty()
            else:
                on_host.kill()
        elif act.word == "stop":
            on_host.stop()
        elif act.word == "cont":
            on_host.cont()
        elif act.word == "skew":
            set_clock(clock_number(act.host, self.net.hosts), act.more)
        else:
            raise Wrong(f"{act.word}: no act on a host")
        self.processes.reap()
        if act.word == "crash":
            self.disks.ask("lose", act.host)
        return self.begin_again(act.host) if act.word == "restart" else None

    def begin_again(self, host: str) -> Callable[[], None]:
        """Starts a host's command again. Returns a function that waits until the command is on the host, where a kill finds the
        command. The cgroup of a stopped host freezes a command that enters, so the wait then ends when the command is in the
        cgroup."""
        there, entry = os.pipe()
        self.begin(host, entry)
        os.close(entry)
        cgroup = self.linked.get(host) if self.acts.goes_on(host, "cont") else None

        def is_there() -> bool:
            return (cgroup is not None and not cgroup.has_nothing()) or can_be_read(there, LISTEN_POLL)

        def wait_until_there() -> None:
            while not is_there():
                pass  # as is_there waits
            os.close(there)
            self.acts.note_later(host, self.lines.ask("moment").moment)

        return wait_until_there

    def see_gone(self, host: str) -> None:
        """Waits until all processes of a killed host have ended. If a late restart came after the kill's moment, kills the new
        command too."""
        moments = [record.moment for record in self.acts.done if record.act.host == host]
        if len(moments) > 1 and moments[-2] > moments[-1]:  # the restart came after the kill
            self.linked[host].empty()
        self.linked[host].is_empty()
        self.processes.reap()

    def on_host(self, name: str) -> HostProcesses:
        """Returns the object that signals the processes on a host without a cgroup."""
        is_hidden = name in self.started and not sees_own_processes()
        return GroupProcesses(self.started[name]) if is_hidden else HostProcesses(self.rooms.network[name])

    def variables(self, name: str) -> dict[str, str]:
        """Returns the environment variables for commands on a host."""
        return {"HINGE_HOST": name, "HINGE_NET": self.order.folder}

    def enter(self, name: str) -> None:
        """Moves this process into a host: sets the room, the clock and the environment variables."""
        self.rooms.enter(name)
        take_clock(clock_number(name, self.net.hosts))
        os.environ.update(self.variables(name))

    def begin(self, name: str, entry: Optional[int] = None) -> None:
        """Starts a host's command; each command except the main command gets a new process group. The new process closes the
        descriptor `entry` when the process is on the host."""
        is_main = name == self.net.main
        is_first = name not in self.started
        cgroup = self.cgroups.of(name)
        is_stopped = self.acts.goes_on(name, "cont")

        def enter_host() -> None:
            if cgroup:
                cgroup.join()
            self.disks.enter(name)
            if not is_main:
                os.setpgid(0, 0)
                silence(0)
                if self.own_users:
                    make_terminals()
            if self.options.logs:
                log = opened_log(os.path.join(self.options.logs, f"{name}.log"), is_first)
                os.dup2(log, 1)
                os.dup2(log, 2)
            self.enter(name)
            if entry is not None:
                os.close(entry)
            if is_stopped and not cgroup:
                os.kill(os.getpid(), signal.SIGSTOP)

        arguments = self.options.command if is_main else []
        words = ["sh", "-c", self.net.hosts[name].command, *arguments]
        self.started[name] = start(words, self.order.mask, enter_host, self.own_users)
        if is_stopped and not cgroup:
            os.waitid(os.P_PID, self.started[name], os.WSTOPPED | os.WEXITED | os.WNOWAIT)
