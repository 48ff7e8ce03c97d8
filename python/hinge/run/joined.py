"""A link inside an existing network, such as a container's, between the network's programs and the network's interface. The link
applies to IPv4, through routing rules.

Packets from the programs enter a tun interface, pass the link, leave through a second tun interface, and continue on their old
route. Packets to the programs pass the other way. When the host program hinge-link ends, for any reason, its interfaces and their
routes disappear, and the remaining rules send all packets the old way. The end of the run, or the next run there, removes these
rules."""

from __future__ import annotations

import errno
import os
import shutil
import socket
import struct
from contextlib import suppress
from typing import NamedTuple

from hinge.border.files import read_system
from hinge.border.programs import Answer, asked
from hinge.border.scratch import held
from hinge.run.interfaces import add_interface_route, add_tun, dropped, hand_on
from hinge.run.rooms import Rooms, see_own_processes
from hinge.run.rtnetlink import ask_kernel
from hinge.run.system import Missing, enter, try_to_write
from hinge.run.two_hosts import OWN_ENDS
from hinge.run.words import Wrong

UP, DOWN = "hinge-up", "hinge-down"  # the tun interfaces
ENDS = {UP: ("169.254.77.1", "fe80::77:1"), DOWN: ("169.254.77.2", "fe80::77:2")}  # their addresses
NEWRULE, DELRULE = 32, 33  # RTM_NEWRULE, RTM_DELRULE
COMES_BY, PRIORITY, TABLE, TO_TABLE = 3, 6, 15, 1  # FRA_IIFNAME, FRA_PRIORITY, FRA_TABLE, FR_ACT_TO_TBL
MAIN, LOCAL = 254, 255  # the system's routing tables
OF_UP, OF_DOWN = 7701, 7702  # the run's routing tables
FIRST = 10  # the priority of the first rule; the other rules' priorities follow
SETTINGS = "/proc/sys/net/ipv4/"
TAKES_ROOT = "--netns: only root may enter the network of another one: sudo hinge run --netns PID"
# A packet arrives on another interface than its reply leaves, and its source is an address of this network.
OF_INTERFACES = {"rp_filter": "0", "accept_local": "1"}
# No socket receives a packet before the packet was on the link.
OF_ALL = {"ip_early_demux": "0"}
ENGINES = ("docker", "podman")
NONE = "there is no docker and no podman on the path; write --netns PID, with a process of the container"


def network_of(text: str) -> int:
    """Returns a descriptor of the network of a process, or of the network at a path. Wrong: there is no such network, or it is this
    system's. Missing: only root may open the network."""
    try:
        network = held(f"/proc/{text}/ns/net" if text.isdecimal() else text)
        if os.path.samestat(os.fstat(network), os.stat("/proc/self/ns/net")):
            raise Wrong(f"--netns {text}: it is this system's own network")
        return network
    except PermissionError:
        raise Missing(TAKES_ROOT) from None
    except OSError as error:
        raise Wrong(f"--netns {text}: {error.strerror}: it is a process, or a path as /run/netns/NAME") from None


def read_setting(name: str) -> str:
    """Returns a setting of the kernel for IPv4."""
    return read_system(SETTINGS + name).strip()


class WayOut(NamedTuple):
    """Describes the way out of a network: the default route's interface, and the source address of packets there."""

    interface: str
    address: str


def way_out() -> WayOut:
    """Returns the default route's interface and source address. Missing: there is no default route."""
    rows = [line.split() for line in read_system("/proc/thread-self/net/route").splitlines()[1:]]
    default_routes = [row for row in rows if row[1] == row[7] == "00000000"]
    if not default_routes:
        raise Missing("--netns: this network has no way out, which a link could be on")
    interface, _, gateway = default_routes[0][:3]
    with socket.socket(socket.AF_INET, socket.SOCK_DGRAM) as sock:
        sock.connect((socket.inet_ntoa(struct.pack("<I", int(gateway, 16))), 9))  # sends nothing, and chooses the source address
        return WayOut(interface, str(sock.getsockname()[0]))


def rule(kind: int, priority: int, table: int, comes_by: str = "") -> None:
    """Adds or removes a routing rule, according to `kind`. The rule applies a table to packets that arrive on the interface
    `comes_by`, or to all packets."""
    attributes = [(PRIORITY, struct.pack("I", priority)), (TABLE, struct.pack("I", table))]
    if comes_by:
        attributes.insert(0, (COMES_BY, comes_by.encode() + b"\0"))
    ask_kernel(kind, struct.pack("BBBBBBBBI", socket.AF_INET, 0, 0, 0, 0, 0, 0, TO_TABLE, 0), attributes)


def rules(by: str) -> list[tuple[int, str]]:
    """Returns the routing tables in the order of their rules, each with the interface on which packets arrive; an empty name means
    any. `by` is the default route's interface."""
    return [(OF_DOWN, by), (LOCAL, UP), (MAIN, DOWN), (LOCAL, ""), (OF_UP, "lo")]


def without_rules(by: str) -> None:
    """Removes all rules of a run, and makes the rule for local addresses the first again; `by` is the default route's interface."""
    with suppress(OSError):
        rule(DELRULE, 0, LOCAL)
    rule(NEWRULE, 0, LOCAL)
    for priority, (table, comes_by) in enumerate(rules(by), FIRST):
        remove_rule(priority, table, comes_by)


def remove_rule(priority: int, table: int, comes_by: str) -> None:
    """Removes all equal rules, of which an earlier run may have left some."""
    while True:
        try:
            rule(DELRULE, priority, table, comes_by)
        except OSError as error:
            if error.errno != errno.ENOENT:
                raise
            return


class JoinedRooms(Rooms):
    """Holds the single room of a run in an existing network, which contains the client and the server. Create this object in the
    first process, which then enters the network."""

    def __init__(self, network: int, mtu: int, own_users: bool) -> None:
        see_own_processes()
        self.client = self.server = network
        self.own_users = own_users
        self.ends = OWN_ENDS
        try:
            enter(network)
        except OSError as error:
            message = TAKES_ROOT if error.errno == errno.EPERM else f"--netns: {error.strerror}: it isn't a network"
            raise Missing(message) from None
        self.out = way_out()
        without_rules(self.out.interface)
        self.interfaces = (add_tun(*ENDS[UP], mtu, UP, persists=False), add_tun(*ENDS[DOWN], mtu, DOWN, persists=False))
        self.settings: dict[str, str] = {}  # the network's own values of the settings that the run changes
        self.change_settings()
        self.add_rules()

    def change_settings(self) -> None:
        """Notes the network's settings, and changes them so that packets can pass both tun interfaces."""
        out = self.out.interface
        new = {f"conf/{name}/{key}": value for name in ("all", out, UP, DOWN) for key, value in OF_INTERFACES.items()} | OF_ALL
        self.settings = {name: read_setting(name) for name in new}
        self.did_forward = read_setting(f"conf/{out}/forwarding") == "1"
        self.did_proxy_arp = read_setting(f"conf/{out}/proxy_arp") == "1"
        for name, value in new.items():
            try_to_write(SETTINGS + name, value)
        hand_on(DOWN)
        hand_on(out)

    def add_rules(self) -> None:
        """Adds the routes and the rules that lead packets through the tun interfaces."""
        add_interface_route("0.0.0.0", UP, self.out.address, 0, OF_UP)
        add_interface_route("0.0.0.0", DOWN, ENDS[DOWN][0], 0, OF_DOWN)
        for priority, (table, comes_by) in enumerate(rules(self.out.interface), FIRST):
            rule(NEWRULE, priority, table, comes_by)
        rule(DELRULE, 0, LOCAL)

    def dropped(self) -> list[int]:
        """Returns how many packets the system dropped before the link, for each way (one direction of the link)."""
        enter(self.client)
        return [dropped(UP), dropped(DOWN)]

    def end(self) -> None:
        """Removes the run's rules, and restores the network's settings."""
        without_rules(self.out.interface)
        for name, value in self.settings.items():
            try_to_write(SETTINGS + name, value)
        hand_on(self.out.interface, self.did_forward, self.did_proxy_arp)


def engine_answer(engine: str, *words: str) -> Answer:
    """Runs a container engine's command; returns its answer, whatever the status."""
    return asked([engine, *words], statuses=range(256))


class Container(NamedTuple):
    """Describes a running container."""

    name: str
    image: str

    def is_of_image(self, image: str) -> bool:
        """Returns whether the container's image has this name, with or without a registry and the tag `latest`."""
        return f"/{self.image}".removesuffix(":latest").endswith(f"/{image}")


def process_in(engine: str, name: str, running: list[Container]) -> str:
    """Returns the number of the first process of an engine's container with a name or image; empty if no container runs. Wrong: the
    container has ended, or several containers have this image."""
    same = engine_answer(engine, "ps", "--format", "{{.Names}}", "--filter", f"ancestor={name}").text.split()
    if not same:  # podman's filter requires an image's registry
        same = [container.name for container in running if container.is_of_image(name)]
    if len(same) > 1:
        raise Wrong(f"--container {name}: several containers of this image run; write one of {', '.join(same)}")
    for container in (name, *same):
        process = engine_answer(engine, "container", "inspect", "--format", "{{.State.Pid}}", container).text.strip()
        if process == "0":
            raise Wrong(f"--container {name}: it doesn't run; write {engine} start {container} before it")
        if process.isdecimal():
            return process
    return ""


def process_of(name: str) -> str:
    """Returns the number of a container's first process; `name` is the name of the container or of its image. Wrong: no running
    container has this name, or several containers have this image. Missing: no container engine answers."""
    engines = [engine for engine in ENGINES if shutil.which(engine)]
    others = list[str]()
    faults = list[str]()
    for engine in engines:
        answer = engine_answer(engine, "ps", "--format", "{{.Names}} {{.Image}}")
        if answer.status:
            faults += [line for line in answer.told.splitlines() if line][-1:]
            continue
        running = [Container(*line.partition(" ")[::2]) for line in answer.text.splitlines()]
        others += [container.name for container in running]
        process = process_in(engine, name, running)
        if process:
            return process
    if len(faults) == len(engines):
        raise Missing(f"--container {name}: {'; '.join(faults) or NONE}")
    advice = (
        f"write one of {', '.join(others)}" if others else f"none runs for this user; write {engines[-1]} run before it, or sudo"
    )
    raise Wrong(f"--container {name}: no container or image of this name runs; {advice}")
