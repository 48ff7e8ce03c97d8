"""Carries out cuts, holds, crashes and skews in a network, and counts their effects."""

from __future__ import annotations

import math
from typing import TYPE_CHECKING, Any, Union

from hingetulip.aio.host import Host

if TYPE_CHECKING:
    from hingetulip.aio.link import Link
    from hingetulip.aio.loop import Loop

CUT, HOLD, CRASH, SKEW = "cut", "hold", "crash", "skew"
MET = {CRASH: "socket or task", SKEW: "look at the clock"}  # the objects of each disturbance's count; others count packets


class Unmet(RuntimeError):
    """Raised if faults that the code requested had no effect, so that the run doesn't show what it should."""


class Disturbance:
    """A cut, hold, crash or skew, with the number (`met`) of packets, of sockets and tasks, or of looks at the clock that it
    affected. Disturbances that a seed drew (`is_drawn`) may have no effect."""

    def __init__(self, net: DisturbingCalls, kind: str, of: str, seconds: float) -> None:
        """Adds the disturbance to the network's. `of` is the name of a host or link. ValueError: `seconds` is no finite number, or,
        except for a skew, isn't above 0."""
        is_finite = hasattr(seconds, "__float__") and abs(seconds) < math.inf
        if not is_finite or (kind != SKEW and seconds <= 0):
            raise ValueError(f"a {kind} lasts for more than 0 s and no longer than a number says, and not {seconds!r}")
        self.kind = kind
        self.of = of
        self.seconds = seconds
        self.began = net.loop.time()
        self.met = 0
        self.is_drawn = False
        net.disturbances.append(self)

    def __str__(self) -> str:
        return f"{self.kind} of {self.of} at {self.began:.6f} s {'by' if self.kind == SKEW else 'for'} {self.seconds:g} s"

    def report(self) -> str:
        """Returns a line with the disturbance and its effects."""
        plural = "s" if self.met > 1 else ""
        return f"{self}: it met {self.met or 'no'} {MET.get(self.kind, 'packet')}{plural}"


class DisturbingCalls:
    """The methods of a network that cut, hold, crash or skew links and hosts."""

    loop: Loop
    hosts: dict[str, Host]
    links: dict[tuple[Host, Host], Link]

    def __init__(self, *arguments: Any, **keywords: Any) -> None:
        super().__init__(*arguments, **keywords)
        self.disturbances: list[Disturbance] = []
        """The cuts, holds, crashes and skews of the network."""

    def found(self, host: Union[Host, str]) -> Host:
        """Returns the host itself, or the host with this name or address. ValueError: there is no such host."""
        known = self.hosts.get(host) if isinstance(host, str) else host
        if not isinstance(known, Host):
            names = dict.fromkeys(each.name for each in self.hosts.values())
            raise ValueError(f"there is no host {host!r}; there are {', '.join(names)}")
        return known

    def _links_of(self, of: Union[Host, str], kind: str) -> tuple[str, list[Link]]:
        """Returns the name and the links of a host, or of a single link such as `client > server`. ValueError: there is no such
        host or link, or the host has no links."""
        if isinstance(of, str) and " > " in of:
            links = [link for link in self.links.values() if link.name == of]
            if not links:
                names = ", ".join(link.name for link in self.links.values())
                raise ValueError(f"there is no link {of!r}; there are {names or 'none'}")
            return of, links
        host = self.found(of)
        links = [link for ends, link in self.links.items() if host in ends]
        if not links:
            raise ValueError(f"{host.name} has no links yet: make those before the {kind}")
        return host.name, links

    def cut(self, of: Union[Host, str], seconds: float) -> Disturbance:
        """Makes the links of a host, or a single link such as `client > server`, lose all arriving packets for this time.

        ValueError: the host or link doesn't exist, the host has no links, or the time isn't above 0.
        """
        return self.disturb(CUT, seconds, *self._links_of(of, CUT))

    def hold(self, of: Union[Host, str], seconds: float) -> Disturbance:
        """Makes packets wait before the links of a host, or before a single link, for this time. ValueError: the same as from
        `cut`."""
        return self.disturb(HOLD, seconds, *self._links_of(of, HOLD))

    def disturb(self, kind: str, seconds: float, name: str, links: list[Link]) -> Disturbance:
        """Begins a cut or a hold of these links, under a name for them; returns the disturbance."""
        disturbance = Disturbance(self, kind, name, seconds)
        for link in links:
            link.begin(disturbance)
        return disturbance

    def crash(self, of: Union[Host, str], seconds: float) -> Disturbance:
        """Crashes a host, and starts it again after this time. ValueError: there is no such host, or the time isn't above 0."""
        host = self.found(of)
        disturbance = Disturbance(self, CRASH, host.name, seconds)
        disturbance.met = host.stop()
        self.loop.call_later(seconds, host.start)
        return disturbance

    def skew(self, of: Union[Host, str], seconds: float) -> Disturbance:
        """Sets a host's clock `seconds` ahead of the network's time from now on; behind it, if the number is negative. ValueError:
        there is no such host, or `seconds` is no finite number."""
        host = self.found(of)
        disturbance = Disturbance(self, SKEW, host.name, seconds)
        host.skew = disturbance
        host.offset = seconds
        return disturbance

    def unmet_faults(self) -> list[str]:
        """Returns a line for each cut, hold, crash or skew that code requested, and that had no effect."""
        return [disturbance.report() for disturbance in self.disturbances if not disturbance.met and not disturbance.is_drawn]

    def check(self) -> None:
        """Checks that each requested disturbance had an effect. Unmet: a disturbance had none."""
        if lines := self.unmet_faults():
            raise Unmet("\n".join(lines))
