"""The requests at a net's control socket: changes to links, acts on hosts, `hinge exec`, and the net's status."""

from __future__ import annotations

from typing import TYPE_CHECKING, Optional

from hinge.events.kinds import HostAct, Moment
from hinge.events.parsed import parse
from hinge.net.clocks import IN_REAL_TIME
from hinge.net.net_plan import with_place
from hinge.net.net_summary import net_record
from hinge.run.control import Effect, Control, HostRoom
from hinge.run.doors import Doors
from hinge.run.words import Wrong

if TYPE_CHECKING:
    from hinge.net.net_inside import NetInside


def opened_control(net: NetInside) -> Optional[Control]:
    """Returns the control socket from --control, opened; None without the option."""

    path = net.order.options.control
    if not path:
        return None
    requests = NetRequests(net)
    plan = net.order.net_plan.plan
    return Control(path, plan, net.page, requests.obey, requests.status, requests.enter_host, net.lines)


class NetRequests:
    """Carries out the control socket's requests in a net."""

    def __init__(self, net: NetInside) -> None:
        self.net = net
        self.doors = Doors()

    def obey(self, words: str, moment: int) -> Effect:
        """Applies the words of an `at` line at a moment, which is now, in ns. Returns what the links have to do, or for
        an act on a host the line of the act with its moment. Wrong: the words describe no event, or the event would have no effect.
        """
        net_plan = self.net.order.net_plan
        with with_place(f"'{words}'"):
            event = parse(words, self.net.net)
            if not isinstance(event, HostAct):
                return net_plan.happenings(event, moment, net_plan.plan.changes)
        self.refuse_idle_act(event)
        self.net.lines.ask(f"line remark change,{words}")
        return self.net.acts.ask(net_plan.acts_of(event, Moment(moment, False, "")))

    def refuse_idle_act(self, act: HostAct) -> None:
        """Checks that an act has an effect now. Wrong: the host isn't stopped, no process runs there, or a skew needs simulated time."""
        if act.word == "skew":
            raise Wrong(f"skew: {IN_REAL_TIME}")
        if act.word == "cont" and not self.net.acts.goes_on(act.host, "cont"):
            raise Wrong(f"cont: {act.host} isn't stopped")
        if act.ending == "restart" and self.net.has_nothing(act.host):
            hint = f"; `restart {act.host}` begins its command" if self.net.net.hosts[act.host].command else ""
            raise Wrong(f"{act.word}: nothing runs on {act.host}{hint}")

    def status(self) -> dict[str, object]:
        """Returns the answer to `hinge status`: the packets counted so far, the statuses of commands that have ended, and
        messages about optional ports at which nothing listens."""
        net = self.net
        endings = {name: net.processes.ended[pid] for name, pid in net.started.items() if pid in net.processes.ended}
        return {**net_record(net.net, net.page.read(), net.rooms.dropped(), {}), "ended": endings, "silent": net.silent}

    def enter_host(self, name: str) -> HostRoom:
        """Returns the descriptors and the environment with which `hinge exec` enters a host. Wrong: there is no such host, or the
        host is stopped."""
        net = self.net
        if name not in net.rooms.network:
            raise Wrong(f"{name!r}: no host of this net, which are {', '.join(net.rooms.network)}")
        if net.acts.goes_on(name, "cont"):
            raise Wrong(f"{name} is stopped: `cont {name}` lets it go on")
        net.lines.ask(f"line remark exec,{name}")
        descriptors = self.doors.to(net.rooms.network[name], net.disks.mounts.get(name))
        if name in net.linked:
            descriptors = [*descriptors, net.linked[name].descriptors["cgroup.procs"]]
        return HostRoom(descriptors, net.variables(name))
