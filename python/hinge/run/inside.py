"""The first process in the rooms, which are the network namespaces of the client and the server. The process starts the server, the
link and the command, and reports the run."""

from __future__ import annotations

import signal
import time
from typing import TYPE_CHECKING, Optional, Sequence

from hinge.command import say
from hinge.run.cgroups import Cgroups
from hinge.run.doors import Doors
from hinge.run.host import LinkProcess
from hinge.run.interfaces import LINK_NAME, something_listens
from hinge.run.joined import JoinedRooms
from hinge.run.order import RunOrder, note_realtime, report
from hinge.run.outside import Outside
from hinge.run.page import Page
from hinge.run.ports import Ports
from hinge.run.processes import SIGNALLED, Ended, Processes, Ticker, name_of
from hinge.run.rooms import Rooms
from hinge.run.settings import RunOptions
from hinge.run.summary import Watch, record
from hinge.run.system import enter, is_simulated
from hinge.run.two_hosts import two_ends
from hinge.run.verdict import Waits
from hinge.run.words import Wrong

if TYPE_CHECKING:
    from hinge.run.control import Enter, HostRoom

HOSTS = ("client", "server")
WATCHED = {signal.SIGCHLD, signal.SIGTERM, signal.SIGHUP}
LAST_PACKETS = 1.0  # s at most for packets after the command's end
QUIET = 0.3  # s without a packet, after which none is expected
COMMAND_PATIENCE = 1.0  # s that an interrupted command has to end
LISTEN_POLL = 0.01  # s between looks whether the server listens
QUIET_POLL = 0.02  # s between looks at the counts


class Inside:
    """Carries out a run, from the first process in the rooms."""

    def __init__(
        self,
        options: RunOptions,
        order: RunOrder,
        own_users: bool,
        outside: Optional[Outside],
        network: Optional[int],
        ports: Optional[Ports] = None,
    ) -> None:
        """Creates the rooms, or joins an existing network if `network` is its descriptor."""
        self.options = options
        self.order = order
        self.outside = outside
        self.ports = ports
        self.page = Page()
        self.processes = Processes(WATCHED if options.command else WATCHED | {signal.SIGINT})
        self.joined = None if network is None else JoinedRooms(network, options.mtu, own_users)
        self.rooms = self.joined or Rooms(options.mtu, own_users, two_ends(options.net))
        self.begun = time.monotonic()
        self.cgroups = Cgroups()
        self.waits = Waits()
        self.started: dict[str, int] = {}  # the commands' processes, by hosts

    def start(self, host: str, words: Sequence[str]) -> int:
        """Starts a command in a host's room and cgroup; returns its process."""
        is_server = host == HOSTS[1]
        room = self.rooms.server if is_server else self.rooms.client
        cgroup = None if is_simulated() else self.cgroups.of(host)
        self.started[host] = self.rooms.start(room, words, self.order.mask, cgroup, is_server)
        return self.started[host]

    def look_at_waits(self) -> None:
        """Reads how long the hosts' programs have waited for a processor, except in simulated time."""
        if not is_simulated():
            self.waits.look(self.cgroups.made, self.started)

    def begin_server(self) -> tuple[Optional[int], Optional[int]]:
        """Starts the server, if there is one, and waits until the server listens or ends, or the time for this is over. Returns the
        server's process, and a signal that arrived first, if any. Prints a line if the server doesn't listen."""
        if not self.options.server:
            return None, None
        server = self.start(HOSTS[1], ["sh", "-c", self.options.server])
        statuses = self.processes.ended
        enter(self.rooms.server)
        number = self.processes.poll(lambda: something_listens() or server in statuses, self.order.server_wait, LISTEN_POLL)
        if number is None:
            if server in statuses:
                say(f"the server ended with {name_of(statuses[server])} before it listened")
            elif not something_listens():
                say(f"the server doesn't listen after {self.order.server_wait:g} s; the command begins")
        return server, number

    def run_command(self, link: LinkProcess) -> tuple[int, bool]:
        """Runs the command while the link is up; without a command, waits for a signal or the link's end. Returns the command's
        status, and whether the wait was interrupted before the command's own end."""
        watch = Watch(self.page) if self.options.watch else None
        words = self.options.command
        command = self.start(HOSTS[0], words) if words else link.process

        def tick(seconds: float) -> None:
            self.look_at_waits()
            if watch:
                watch.tick(seconds)

        if link.control:
            link.control.serve()
        ticker = Ticker(tick) if watch or not is_simulated() else None
        number = self.processes.wait(command, ticker=ticker, needed=link.process)
        self.look_at_waits()
        if not words:
            return 0, True
        if command in self.processes.ended:
            return self.processes.ended[command], False
        self.processes.end(command, COMMAND_PATIENCE)
        return SIGNALLED + (number or signal.SIGTERM), True

    def let_last_packets_pass(self, server: int) -> None:
        """Waits until the server has ended or the link has been quiet for a moment, so that the server can receive the last
        packets."""
        last_total = -1
        last_change = time.monotonic()

        def look_at_counts() -> bool:
            """Notes the moment if the counts have changed; returns whether the wait is over."""
            nonlocal last_total, last_change
            total = sum(way["came"] + way["sent"] + way["held"] for way in self.page.read().ways)
            if total != last_total:
                last_total = total
                last_change = time.monotonic()
            return server in self.processes.ended or time.monotonic() - last_change > QUIET

        self.processes.poll(look_at_counts, LAST_PACKETS, QUIET_POLL)

    def end_server(self, server: int, is_interrupted: bool) -> Ended:
        """Ends the server and returns how it ended; prints a warning if the server failed or had to be killed."""
        self.processes.reap()
        status = self.processes.ended.get(server, 0)
        if status:
            say(f"the server ended with {name_of(status)} before the command did")
        elif not is_interrupted:
            self.let_last_packets_pass(server)
        ending = self.processes.endings({"server": server}, self.begun, self.order.server_end)["server"]
        if ending.by == "SIGKILL":
            say(f"the server was killed, since SIGTERM didn't end it in {self.order.server_end:g} s")
        return ending

    def doors(self) -> Enter:
        """Returns a function that opens a host's room for `hinge exec`."""
        doors = Doors()

        def enter_host(host: str) -> HostRoom:
            if host not in HOSTS:
                raise Wrong(f"{host!r}: the hosts are {' and '.join(HOSTS)}")
            from hinge.run.control import HostRoom

            room = self.rooms.client if host == HOSTS[0] else self.rooms.server
            return HostRoom(doors.to(room), {})

        return enter_host

    def run(self) -> int:
        """Runs the programs and removes their cgroups; returns the run's status."""
        try:
            return self.run_programs()
        finally:
            self.cgroups.remove()

    def run_programs(self) -> int:
        """Starts the server, the link and the command, ends them, and reports the run; returns the run's status."""
        order = self.order
        if self.outside:  # before the server has mounts of its own
            has_ipv6 = self.outside.join(self.rooms.server, [LINK_NAME], [self.rooms.ends.client6])
            self.rooms.lead_out(has_ipv6)
        server, number = self.begin_server()
        if number:
            return SIGNALLED + number
        if self.ports:  # after the server, since these sockets would look as if the server listened
            self.ports.put_doors(self.rooms)
        control = order.control(self.page, self.status, self.doors())
        interfaces = self.rooms.interfaces
        link = LinkProcess(self.processes, self.page, ["tun", *map(str, interfaces)], interfaces, order.plan, order.mask, control)
        fault = link.failed()
        if fault is not None:
            return fault
        note_realtime(self.page)
        status, is_interrupted = self.run_command(link)
        ending = None if server is None else self.end_server(server, is_interrupted)
        link.end()
        drops = self.rooms.dropped()
        if self.joined:
            self.joined.end()
        return report(order, self.page, drops, status, ending, self.waits)

    def status(self) -> dict[str, object]:
        """Returns the counts for `hinge status`."""
        return record(self.page.read(), self.rooms.dropped(), None, self.order.seed, [])
