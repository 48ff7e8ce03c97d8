"""The parts of a net's description: hosts, links, ends at switches, and ports to wait for."""

from __future__ import annotations

from dataclasses import dataclass, field
from typing import NamedTuple, Optional

from hinge.net.disks import Disk
from hinge.net.statements import Statement


@dataclass
class NetHost:
    """Describes a host, a router or a switch."""

    name: str
    forwards: bool = False
    is_switch: bool = False
    command: str = ""  # a command line for the shell
    disks: list[Disk] = field(default_factory=list)


@dataclass(frozen=True)
class NetLink:
    """Describes a link: the two ends, and the words for each way (from the first end, and back)."""

    ends: tuple[str, str]
    ways: tuple[str, str]
    statement: Statement
    mtu: Optional[int] = None  # the MTU of its interfaces, if a line `mtu` sets it

    def other(self, name: str) -> str:
        """Returns the end of the link that isn't this host."""
        first, second = self.ends
        return second if name == first else first


class Port(NamedTuple):
    """Describes the host's end where a link connects a host with a switch. Switches that are joined by links form a segment."""

    segment: int  # the number of the segment's first link, from 0
    number: int  # the place of the host's end among the ends in the segment, from 1


@dataclass(frozen=True)
class Wait:
    """Describes a port at which a host's command has to listen before the main command starts."""

    host: str
    port: int
    lasting: float  # the longest wait, in s
    is_optional: bool  # whether the net goes on if nothing listens
