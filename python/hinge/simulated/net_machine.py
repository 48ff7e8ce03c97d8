"""A net in a simulated machine. The machine's first process creates the hosts from texts (net.c), and writes messages."""

from __future__ import annotations

from pathlib import Path
from typing import NamedTuple, Optional

from hinge.events.forms import ACTS
from hinge.net.acts import FinishedAct
from hinge.net.clocks import clock_number
from hinge.net.net_rooms import NetEnds, NetRooms
from hinge.net.net_summary import NetRan, report_net, silent, status_without
from hinge.net.order import LinksPlan, NetOrder, net_of, net_order
from hinge.run.interfaces import all_dropped, unforwarded
from hinge.run.processes import Ended
from hinge.run.settings import NetOptions
from hinge.run.steps import Steps
from hinge.simulated.job import root_of
from hinge.simulated.link_rooms import TERMINATED, Tell, counts_of, first_process_lines, nanoseconds, page_of, rooms_texts
from hinge.simulated.verdict import ITSELF, MachineVerdict, of_wait


class MachineMessages(NamedTuple):
    """Holds the messages of a machine's first process about a net."""

    main: Optional[int]  # the main command's begin, in ns
    endings: "dict[str, Ended]"  # the ends of the hosts' commands
    verdicts: "dict[str, MachineVerdict]"  # the verdicts on the commands that ended by themselves
    missing: str  # the port without which the main command didn't begin
    silent: "list[str]"  # a line for each port that didn't open
    acts: "list[FinishedAct]"


class NetRun(NamedTuple):
    """Describes a run of `hinge net` in a machine without Python, as LinkRun does for `hinge run`."""

    order: NetOrder

    @property
    def rooms(self) -> "list[str]":
        """Returns the names of the hosts; the main host is the last."""
        net = self.order.net
        return sorted(NetEnds(net).own, key=lambda name: name == net.main)

    def texts(self) -> "list[str]":
        """Returns the texts that the machine's first process reads: the rooms, commands, waits for ports and acts."""
        order = self.order
        net = order.net
        options = order.options
        with Steps(root_of(options) or "") as steps:
            rooms = NetRooms(net, options.mtu)
        plan = LinksPlan(order, rooms.ends, {}).text()
        texts = rooms_texts("net", steps, rooms.interfaces, plan, len(net.links))
        texts += [nanoseconds(order.end_wait), order.folder, "main" if net.main else "all", str(len(self.rooms))]
        for name in self.rooms:
            log = str(Path(options.logs, f"{name}.log").absolute()) if options.logs else ""
            texts += [name, str(rooms.network[name]), net.hosts[name].command, str(clock_number(name, net.hosts)), log]
        texts.append(str(len(net.waits)))
        for wait in net.waits:
            kind = "optional" if wait.is_optional else "needed"
            texts += [str(self.rooms.index(wait.host)), str(wait.port), nanoseconds(wait.lasting), kind]
        texts.append(str(len(order.net_plan.acts)))
        for act in order.net_plan.acts:
            base = "main" if act.moment.of_main else "start"
            host = str(self.rooms.index(act.host))
            texts += [base, str(act.moment.ns), act.word, ACTS[act.word].ending, host, str(act.fault), act.more]
        return texts

    def messages(self, folder: Path) -> Optional[MachineMessages]:
        """Returns the first process's messages, if any."""
        rows = [line.split() for line in first_process_lines(folder)]
        if not rows:
            return None
        main = int(rows[0][2])
        net = self.order.net
        host_rows = [row for row in rows if row[0] == "host"]
        hosts = [(name, of_wait(int(status)), int(after), by) for _, name, status, after, by in host_rows]
        waits = [(net.waits[int(row[1])], int(row[2])) for row in rows if row[0] == "silent"]
        lines = [silent(net, wait, None if status < 0 else status) for wait, status in waits]
        return MachineMessages(
            main if main >= 0 else None,
            {name: Ended(verdict.status, round(after / 1e9, 3), by) for name, verdict, after, by in hosts},
            {name: verdict for name, verdict, _, by in hosts if by == "itself"},
            next((line for line, (wait, _) in zip(lines, waits) if not wait.is_optional), ""),
            lines,
            [FinishedAct(int(row[2]), self.order.net_plan.acts[int(row[1])], row[3] == "1") for row in rows if row[0] == "act"],
        )

    def ended(self, folder: Path) -> Optional[MachineVerdict]:
        """Returns the main command's verdict, if that command ended by itself; without a main command, the verdict on the first
        command that failed."""
        result = self.messages(folder)
        if result is None:
            return None
        if result.missing:
            return MachineVerdict(ITSELF, status_without(result.missing))
        if self.order.net.main:
            return result.verdicts.get(self.order.net.main)
        failures = (verdict for verdict in result.verdicts.values() if verdict.status)
        return next(failures, MachineVerdict(ITSELF, 0))

    def report(self, folder: Path, summary: Path, verdict: Optional[MachineVerdict], tell: Tell) -> int:
        """Reports on the net, writes the summary to a file, and returns the run's status. ValueError: the first process wrote no
        messages."""
        ends = NetEnds(self.order.net)
        result = self.messages(folder)
        if result is None:
            raise ValueError(folder)
        places = {name: counts_of(folder, place) for place, name in enumerate(ends.own, 1)}
        for line in result.silent:
            tell(line)
        drops = ends.drops({name: all_dropped(place) for name, place in places.items()})
        counts_of_hosts = {name: unforwarded(place) for name, place in places.items()}
        rest = {name: some for name, some in counts_of_hosts.items() if some}
        status = verdict.status if verdict else TERMINATED
        counts = page_of(folder).read()
        ran = NetRan(status, counts, drops, result.endings, rest, result.acts, result.main, result.missing)
        return report_net(self.order._replace(options=self.order.options.but(transcript=None, json=str(summary))), ran, None, tell)


def net_run(options: NetOptions, seed: int, transcript: Optional[str]) -> Optional[NetRun]:
    """Converts the options of `hinge net` into a run in a machine; None if a host has disks, which need Python in the machine."""
    net = net_of(options)
    if any(host.disks for host in net.hosts.values()):
        return None
    return NetRun(net_order(options.but(seed=seed, transcript=transcript), net, set(), True))
