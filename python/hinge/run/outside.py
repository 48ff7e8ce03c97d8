"""The outside network behind a host. pasta or slirp4netns runs in the system's network and connects the host's room to the outside.

IPv6 is connected if the system has an IPv6 route."""

from __future__ import annotations

import errno
import ipaddress
import os
import shutil
import signal
import socket
import time
from typing import Callable, NamedTuple, Sequence

from hinge.border.files import read_system
from hinge.border.programs import become, forked
from hinge.run.interfaces import add_address, add_route, announce, hand_on, leads_out_in_ipv6
from hinge.run.rooms import put_over
from hinge.run.system import Missing, die_with_parent, enter, try_to_write, write


class Side(NamedTuple):
    """Holds the addresses on the outer side of the host's room, all within one network."""

    net: str
    own: str
    gateway: str
    resolver: str


def side(front: str) -> Side:
    """Returns the addresses in the /24 network whose first three numbers are `front`."""
    return Side(f"{front}.0/24", f"{front}.100", f"{front}.2", f"{front}.3")


FIRST = side("10.9.0")
SECOND = side("10.10.0")  # if the hosts' network contains addresses of the first
GATEWAY = FIRST.gateway
OWN6, GATEWAY6 = "fd00::100", "fd00::2"
INTERFACE = "outside"
PATIENCE = 20  # s until the interface appears


def words_for(process: str, own_users: bool, ipv6: bool, loopback: bool, outer: Side) -> list[str]:
    """Returns the command that connects a process's network to this process's network: slirp4netns if installed, otherwise pasta,
    which refuses root.

    By default, both programs map the gateway to the system's loopback, whose servers would then see local callers. This happens
    only if `loopback` is true."""
    network = f"/proc/{process}/ns/net"
    users = f"/proc/{process}/ns/user"
    if shutil.which("slirp4netns"):
        words = ["slirp4netns", "--configure", "--mtu=1500", f"--cidr={outer.net}", "--netns-type=path"]
        if ipv6:
            words.append("--enable-ipv6")
        if not loopback:
            words.append("--disable-host-loopback")
        if own_users:
            words.append(f"--userns-path={users}")
        return [*words, network, INTERFACE]
    words = ["pasta", "--foreground", "--quiet", "--config-net", "--ns-ifname", INTERFACE]
    words += ["--address", OWN6, "--gateway", GATEWAY6] if ipv6 else ["--ipv4-only"]
    words += ["--mtu", "1500", "--address", outer.own, "--netmask", "24", "--gateway", outer.gateway]
    words += ["--dns-forward", outer.resolver, *"-t none -u none -T none -U none".split()]
    if not loopback:
        words.append("--no-map-gw")
    return [*words, "--userns", users, "--netns", network]


class Outside:
    """Connects a host's room to the outside network, by a child process that waits for the room. Create this object before this
    process leaves the system's network. Missing: there is neither slirp4netns nor a usable pasta."""

    def __init__(self, loopback: bool, network: str) -> None:
        """Starts the child process, for an outer network that doesn't overlap with the hosts' network, `network`."""
        overlaps = ipaddress.IPv4Network(FIRST.net).overlaps(ipaddress.IPv4Network(network))
        self.loopback = loopback
        self.outer = SECOND if overlaps else FIRST
        if not shutil.which("slirp4netns") and (os.geteuid() == 0 or not shutil.which("pasta")):
            raise Missing(
                "--outside: slirp4netns isn't there, nor pasta, which serves users but root: sudo apt install slirp4netns"
            )
        self.ipv6 = leads_out_in_ipv6()
        self.output = os.memfd_create("said")  # the output of the program that connects the room, for an error's message
        read_end, self.write_end = os.pipe()
        forked(lambda: self.wait_and_connect(read_end))
        os.close(read_end)

    def wait_and_connect(self, read_end: int) -> int:
        """Waits for two messages, in any order: `PROCESS OWN` about the first process in the rooms, and `!` from that process once
        it is in the host's room. Then becomes the program that connects the room. Returns 0 if the messages end early, or a status
        if the program doesn't start."""
        die_with_parent()
        os.close(self.write_end)
        text = b""
        while b"!" not in text or text == b"!":
            data = os.read(read_end, 100)
            if not data:
                return 0
            text += data
        process, own_users = text.replace(b"!", b"").decode().split()
        words = words_for(process, own_users == "True", self.ipv6, self.loopback, self.outer)
        os.dup2(self.output, 1)
        os.dup2(self.output, 2)
        signal.signal(signal.SIGPIPE, signal.SIG_DFL)  # pasta doesn't start if SIGPIPE is ignored
        return become(words)

    def tell(self, first: int, own_users: bool) -> None:
        """Sends the child process the number of the rooms' first process, and whether that process is in a new user namespace."""
        os.write(self.write_end, f"{first} {own_users}".encode())

    def joined(self) -> bool:
        """Returns whether the current room has a default route to the outside."""
        try:
            socket.if_nametoindex(INTERFACE)
            rows = read_system("/proc/thread-self/net/route").splitlines()
            return any(line.split()[:2] == [INTERFACE, "00000000"] for line in rows)
        except OSError:
            return False

    def join(self, network: int, interfaces: Sequence[str], others: Sequence[str]) -> bool:
        """Waits for the outside interface, then forwards packets between this interface and `interfaces`. Call this in the first
        process.

        `others` are the IPv6 addresses behind `interfaces`. Returns whether IPv6 works too. Missing: no outside interface
        appears."""
        enter(network)
        for name in ("accept_dad", "accept_ra"):
            # Otherwise the interface would check for a second whether its address is in use.
            try_to_write(f"/proc/sys/net/ipv6/conf/default/{name}", "0")
        os.write(self.write_end, b"!")
        until = time.monotonic() + PATIENCE
        while not self.joined():
            if time.monotonic() > until:
                output = os.pread(self.output, 1000, 0).decode(errors="replace").strip()
                raise Missing(f"--outside: the host gets no way out: {output}")
            time.sleep(0.01)
        for name in interfaces:
            hand_on(name, is_asked=False)
        if interfaces:
            hand_on(INTERFACE)
        put_over("/etc/resolv.conf", f"nameserver {self.outer.resolver}\n")
        return self.ipv6 and self.hands_on_ipv6(others)

    def hands_on_ipv6(self, others: Sequence[str]) -> bool:
        """Turns on IPv6 forwarding for the addresses `others`; returns false if the system refuses. Adds this side's address and
        route, unless pasta has already added them."""
        try:
            write("/proc/sys/net/ipv6/conf/all/forwarding", "1")
        except OSError:
            return False
        additions: list[Callable[[], None]] = [lambda: add_address(INTERFACE, OWN6, 64), lambda: add_route(GATEWAY6)]
        for add in additions:
            try:
                add()
            except OSError as error:
                if error.errno != errno.EEXIST:
                    raise
        for address in others:
            announce(INTERFACE, address)
        return True
