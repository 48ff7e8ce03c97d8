"""The options for a net's run with their meanings, and the plan's text for the links' process."""

from __future__ import annotations

import os
from typing import Mapping, NamedTuple, Optional

from hinge.events.forms import ACTS
from hinge.events.kinds import Cut, Heal, Moment, PlannedAct
from hinge.net.acts import act_line
from hinge.net.clocks import IN_REAL_TIME
from hinge.net.description import Description, read_description
from hinge.net.disks import refuse_disks
from hinge.net.net_plan import NetPlan
from hinge.net.net_rooms import NetEnds
from hinge.run.options import MOST
from hinge.run.plan_of_options import draws, drawn_seed, limit_of
from hinge.run.processes import Mask
from hinge.run.settings import NetOptions
from hinge.run.words import Wrong, duration

Linked = Mapping[str, "list[int]"]  # the descriptors of a host's cgroup, whose acts are the links'


class NetOrder(NamedTuple):
    """Describes a net's run: the command line's options, and their meanings."""

    options: NetOptions
    net: Description
    plan: str  # the text of the links' plan, without the lines about hosts
    seed: int
    draws: bool  # whether the seed has an effect
    limit: Optional[float]  # the limit of --late in ms
    end_wait: float  # s
    net_plan: NetPlan
    outside: Optional[str]  # the host that leads to the system's network
    mask: Mask  # the signals that started processes block

    @property
    def folder(self) -> str:
        """Returns the folder of the net's file."""
        return os.path.dirname(os.path.abspath(self.options.file))


class LinksPlan:
    """Builds the plan's text for the process that emulates all links."""

    def __init__(self, order: NetOrder, ends: NetEnds, linked: Linked) -> None:
        self.order = order
        self.net = order.net
        self.ends = ends
        self.linked = linked

    def text(self) -> str:
        """Returns the plan. With a transcript, lines that describe the hosts and paths for an audit follow the plan's first line."""
        plan = self.order.plan
        for ways in self.net.ways_into_switches().values():
            if ways:
                plan += f"switch {' '.join(map(str, ways))}\n"
        if self.order.options.transcript is None:
            return "\n".join([plan.rstrip("\n"), *self.act_lines(), ""])
        first, _, rest = plan.partition("\n")
        head = [first, "remark format,3", *self.remarks(), "contents"]
        return "\n".join([*head, rest.rstrip("\n"), *self.act_remarks(), *self.act_lines(), ""])

    def remarks(self) -> list[str]:
        """Returns the lines that record the hosts, the paths and the drawn events at the beginning of the transcript."""
        result = [f"remark host,{name},{','.join(self.ends.all_of(name))}" for name in self.ends.own]
        result += [f"remark switch,{name}" for name in self.net.ways_into_switches()]
        if self.order.outside:
            result.append(f"remark outside,{self.order.outside}")
        if not self.net.has_routes:
            result.append("remark routes,none")
        for number in range(len(self.net.links)):
            result += [*self.pipes_of(number, 0), *self.pipes_of(number, 1)]
        return [*result, *(f"remark drawn,{line}" for line in self.order.net_plan.drawn)]

    def is_of_links(self, act: PlannedAct) -> bool:
        """Returns whether the links' process carries out an act."""
        return act.host in self.linked and ACTS[act.word].is_write

    def act_lines(self) -> list[str]:
        """Returns the lines for hosts with cgroups and for the acts on them that the links carry out. The plan contains these
        lines after all link events, in the file's order."""
        hosts = [f"host {name} {' '.join(map(str, files))}" for name, files in self.linked.items()]
        acts = [f"{at(act.moment)} {act_line(act)}" for act in self.order.net_plan.acts if self.is_of_links(act)]
        return hosts + acts

    def act_remarks(self) -> list[str]:
        """Returns lines that record the scheduled cuts and heals in the transcript. Other acts are recorded when they happen."""
        return [
            f"{at(moment)} remark act,{event.words}"
            for moment, event, _ in self.order.net_plan.events
            if isinstance(event, (Cut, Heal))
        ]

    def pipes_of(self, number: int, way: int) -> list[str]:
        """Returns remarks that name the hosts at both ends, for each pipe on a way. `number` is the link's number, and `way` is 0
        or 1.

        With jitter, packets pass through a second pipe: a point `START~END` stands for the place between both pipes.
        """
        start, end = self.net.links[number].ends[way], self.net.links[number].ends[1 - way]
        pipe = 2 * number + way + 1
        plan = self.order.net_plan.plan
        second = plan.extras[pipe - 1][1] if pipe - 1 in plan.extras else []
        model = plan.decided.get(pipe - 1)
        between = self.ends.label(start, number).replace(".", "~", 1) if second else end
        remarks = [f"remark pipe,{pipe},{start},{between}", *(f"remark pipe,{other},{between},{end}" for other in second)]
        if pipe - 1 in plan.copied:
            remarks.append(f"remark copies,{pipe}")
        if model:
            remarks.append(f"remark model,{pipe},{model}")
        return remarks


def at(moment: Moment) -> str:
    """Returns the words that begin the line of an event in the links' plan."""
    return f"main at {moment.ns}" if moment.of_main else f"at {moment.ns}"


def with_command(net: Description, command: list[str], path: str, shell: Optional[str]) -> Description:
    """Gives the net the command line's main command or shell; returns the net. Wrong: the net's file and the command line both
    name a main command, or neither does, or the shell's host isn't in the net."""
    if shell is not None:
        if not net.is_room(shell):
            raise Wrong(f"--shell {shell}: no host of {path}")
        if command:
            raise Wrong("--shell: the command behind -- is the main one already")
        if net.main:
            net.hosts[net.main].command = ""
        net.main = None
        net.has_shell = True
    elif command:
        if net.main is None or net.hosts[net.main].command:
            host = net.main or next(iter(net.hosts), "NAME")
            raise Wrong(f"{path}: a command behind -- takes a line `main NAME` without a command; write main {host} in {path}")
        net.hosts[net.main].command = 'exec "$0" "$@"'
    elif net.main is not None and not net.hosts[net.main].command:
        raise Wrong(f"{path}: main {net.main} has no command, and none is behind --")
    return net


def net_of(options: NetOptions) -> Description:
    """Returns the net that the options describe. Wrong: the net's file or the main command is wrong."""
    return with_command(read_description(options.file), options.command, options.file, options.shell)


def outside_of(options: NetOptions, net: Description) -> Optional[str]:
    """Returns the host from --outside or --outside-loopback, or None without these options. Wrong: the net doesn't contain the
    host."""
    result = options.outside_loopback or options.outside
    if result is not None and not net.is_room(result):
        raise Wrong(f"--outside {result}: no host of {options.file}")
    return result


def end_wait_of(options: NetOptions) -> float:
    """Returns the seconds from --end-wait."""
    return duration(options.end_wait, "--end-wait") / 1e9


def net_order(options: NetOptions, net: Description, mask: Mask, simulated: bool) -> NetOrder:
    """Returns the net's run for these options. Wrong, Missing: the net needs something that real time or this system lacks."""
    seed = drawn_seed(options.seed)
    net_plan = NetPlan(net, net.longest(options.mtu), seed)
    if not simulated and any(act.word == "skew" for act in net_plan.acts):
        raise Wrong(f"{options.file}: skew: {IN_REAL_TIME}")
    refuse_disks(options.file, net.hosts.values(), simulated)
    plan = net_plan.plan
    path = options.transcript and os.path.abspath(options.transcript)
    text = plan.text(seed, path, options.realtime, MOST, simulated)
    is_drawn = draws(plan) or bool(net_plan.drawn)
    limit = limit_of(options.late)
    end_wait = end_wait_of(options)
    return NetOrder(options, net, text, seed, is_drawn, limit, end_wait, net_plan, outside_of(options, net), mask)
