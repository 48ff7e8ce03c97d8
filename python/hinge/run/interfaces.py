"""The network interfaces of the current namespace. Like ip(8), this module changes them through rtnetlink(7), and reads their
counters."""

from __future__ import annotations

import errno
import fcntl
import os
import socket
import struct
from contextlib import suppress
from functools import lru_cache
from typing import Iterable, Optional

from hinge.border.files import read_system
from hinge.run.rtnetlink import Request, ask_kernel, ask_many, index_of, packed
from hinge.run.steps import kept_as_step
from hinge.run.system import Missing, try_to_write

LINK_NAME = "link"  # the name of the tun interface in each namespace
QUEUE = 10000  # the most packets that wait for the host program; unread.h contains the same number
SETLINK, NEWADDR, NEWROUTE = 16, 20, 24  # RTM_NEWLINK, RTM_NEWADDR, RTM_NEWROUTE
HARDWARE_ADDRESS, MTU, QUEUE_LENGTH = 1, 4, 13  # IFLA_ADDRESS, IFLA_MTU, IFLA_TXQLEN
UP, MULTICAST = 1, 0x1000  # IFF_UP, IFF_MULTICAST
NODAD = 2  # IFA_F_NODAD
LOCAL, ADDRESS = 1, 2  # IFA_ADDRESS, IFA_LOCAL
FREEBIND = 78  # IPV6_FREEBIND
ADVERTISEMENT, OVERRIDE = 136, 0x20000000  # ND_NEIGHBOR_ADVERT, ND_NA_FLAG_OVERRIDE
REJECTS = 0x200  # RTF_REJECT, in /proc/net/ipv6_route
MAIN_TABLE, BY_BOOT, UNICAST, GATEWAY = 254, 3, 1, 5  # RT_TABLE_MAIN, RTPROT_BOOT, RTN_UNICAST, RTA_GATEWAY
# RTA_DST, RTA_OIF, RTA_PRIORITY, RTA_PREFSRC, RTA_TABLE, RT_SCOPE_LINK
DESTINATION = 1
OUT_BY = 4
METRIC = 6
PREFERRED = 7
ROUTE_TABLE = 15
LINK_SCOPE = 253
TUNSETIFF, TUN, TAP, WITH_NOTE = 0x400454CA, 1, 2, 0x5000  # IFF_TUN, IFF_TAP, IFF_NO_PI | IFF_VNET_HDR
TUNSETOFFLOAD, LEFT_TO_A_CARD = 0x400454D0, 7  # TUN_F_CSUM | TUN_F_TSO4 | TUN_F_TSO6
TUNSETPERSIST = 0x400454CB
OWN_NETWORK = "/proc/thread-self/net/"
DROPPED_OUT = 11  # the column of /proc/net/dev
OF_IPV4 = ("Ip:", "IpExt:")  # the first words of the lines of IPv4 in /proc/net/snmp and netstat
# The counters of packets without a route, and of packets that are too long for the next link. InAddrErrors isn't one of them: this
# counts packets that came to a host which forwards nothing.
UNFORWARDED = ("IpInNoRoutes", "IpFragFails", "Ip6InNoRoutes", "Ip6InTooBigErrors")
LISTENS = (("tcp", "0A"), ("tcp6", "0A"), ("udp", "07"), ("udp6", "07"))  # files in /proc/net, and a listening socket's state there
QUIET = (
    ("accept_dad", "0"),
    ("accept_ra", "0"),
    ("router_solicitations", "0"),
)  # settings of IPv6 for an interface that sends nothing
# IFLA_AF_SPEC, IFLA_INET_CONF, IFLA_INET6_ADDR_GEN_MODE, IN6_ADDR_GEN_MODE_NONE
OF_FAMILIES = 26
INET_CONF = 1
ADDRESS_MODE = 8
NO_ADDRESS = 1
FORWARDING, PROXY_ARP = 1, 3  # IPV4_DEVCONF_FORWARDING, IPV4_DEVCONF_PROXY_ARP
TUN_ADVICE = {
    errno.ENOENT: "in a container give it --device /dev/net/tun; elsewhere sudo modprobe tun",
    errno.EACCES: "let users open it, as most systems do: sudo chmod 666 /dev/net/tun",
}


def change(name: str, flags: int, mask: int, attributes: Iterable[tuple[int, bytes]]) -> None:
    """Changes an interface's flags and attributes. Only the flags in `mask` change."""
    ask_kernel(SETLINK, struct.pack("BxHiII", 0, 0, index_of(name), flags, mask), attributes)


def set_up(name: str, mask: int = UP, attributes: tuple[tuple[int, int], ...] = ()) -> None:
    """Turns an interface on, turns off its other flags in `mask`, and sets attributes, each with its number."""
    change(name, UP, mask, [(key, struct.pack("I", value)) for key, value in attributes])


def know_groups(name: str, does: bool = True) -> None:
    """Turns multicast on an interface on or off."""
    change(name, MULTICAST if does else 0, MULTICAST, ())


def of_family(family: int, settings: bytes) -> list[tuple[int, bytes]]:
    """Returns an attribute with an interface's settings for one IP version, `family`."""
    return [(OF_FAMILIES, packed([(family, settings)]))]


def hand_on(name: str, does: bool = True, is_asked: bool = True) -> None:
    """Turns IPv4 forwarding on an interface on or off; proxy ARP is on if both `does` and `is_asked` are true. Uses netlink, since
    /proc/sys may be read-only in a container."""
    settings = packed([(FORWARDING, struct.pack("I", does)), (PROXY_ARP, struct.pack("I", does and is_asked))])
    change(name, 0, 0, of_family(socket.AF_INET, packed([(INET_CONF, settings)])))


def be_silent(name: str) -> None:
    """Stops an interface from choosing an IPv6 address, so that the kernel sends no packets there."""
    for setting, value in QUIET:
        try_to_write(f"/proc/sys/net/ipv6/conf/{name}/{setting}", value)
    with suppress(OSError):  # a system without IPv6
        change(name, 0, 0, of_family(socket.AF_INET6, packed([(ADDRESS_MODE, bytes([NO_ADDRESS]))])))


@lru_cache(maxsize=4096)
def family_and_bytes(text: str) -> tuple[int, bytes]:
    """Returns the family and the bytes of an IP address."""
    family = socket.AF_INET6 if ":" in text else socket.AF_INET
    return family, socket.inet_pton(family, text)


def add_address(name: str, text: str, bits: int) -> None:
    """Adds an address with a prefix of `bits` bits to an interface, without a check whether another interface uses the address."""
    family, data = family_and_bytes(text)
    ask_kernel(NEWADDR, struct.pack("BBBBi", family, bits, NODAD, 0, index_of(name)), [(LOCAL, data), (ADDRESS, data)])


def add_route(gateway: str) -> None:
    """Adds a default route through a gateway, for the gateway's IP version."""
    family, data = family_and_bytes(gateway)
    ask_kernel(NEWROUTE, struct.pack("BBBBBBBBI", family, 0, 0, 0, MAIN_TABLE, BY_BOOT, 0, UNICAST, 0), [(GATEWAY, data)])


@lru_cache(maxsize=4096)
def around_address(
    family: int, index: int, source: str, bits: int, table: int, metric: Optional[int], gateway: Optional[str]
) -> tuple[bytes, bytes]:
    """Returns the bytes before and after the address in a request for a route; most hosts in a net need the same bytes."""
    scope = 0 if gateway or family == socket.AF_INET6 else LINK_SCOPE
    length = 16 if family == socket.AF_INET6 else 4
    before = struct.pack("BBBBBBBBIHH", family, bits, 0, 0, 0, BY_BOOT, scope, UNICAST, 0, 4 + length, DESTINATION)
    attributes = [
        (OUT_BY, struct.pack("I", index)),
        (PREFERRED, family_and_bytes(source)[1]),
        (ROUTE_TABLE, struct.pack("I", table)),
    ]
    if metric is not None:
        attributes.append((METRIC, struct.pack("I", metric)))
    if gateway:
        attributes.append((GATEWAY, family_and_bytes(gateway)[1]))
    return before, packed(attributes)


def interface_route(
    text: str,
    index: int,
    source: str,
    bits: Optional[int] = None,
    table: int = MAIN_TABLE,
    metric: Optional[int] = None,
    may_fail: bool = False,
    gateway: Optional[str] = None,
) -> Request:
    """Returns a request that adds a route through an interface, to an address or to a network with a prefix of `bits` bits.

    `source` is the source address for packets from sockets without an address. The route with the lowest metric wins."""
    family, data = family_and_bytes(text)
    if bits is None:
        bits = 8 * len(data)
    before, after = around_address(family, index, source, bits, table, metric, gateway)
    return Request(NEWROUTE, before + data + after, may_fail)


def add_interface_route(
    text: str, name: str, source: str, bits: Optional[int] = None, table: int = MAIN_TABLE, gateway: Optional[str] = None
) -> None:
    """Adds a route through the interface `name`, with the arguments of `interface_route`."""
    ask_many([interface_route(text, index_of(name), source, bits, table, gateway=gateway)])


def announce(name: str, text: str) -> None:
    """Announces an IPv6 address of another interface to the neighbours on the interface `name`, with a neighbour advertisement."""
    index = index_of(name)
    with socket.socket(socket.AF_INET6, socket.SOCK_RAW, socket.IPPROTO_ICMPV6) as raw:
        raw.setsockopt(socket.IPPROTO_IPV6, FREEBIND, 1)
        raw.setsockopt(socket.IPPROTO_IPV6, socket.IPV6_MULTICAST_HOPS, 255)
        raw.bind((text, 0))
        head = struct.pack("!BBHI", ADVERTISEMENT, 0, 0, OVERRIDE)
        raw.sendto(head + socket.inet_pton(socket.AF_INET6, text), ("ff02::1", 0, 0, index))


def leads_out_in_ipv6() -> bool:
    """Returns whether the current namespace has an IPv6 default route."""
    try:
        rows = [line.split() for line in read_system("/proc/thread-self/net/ipv6_route").splitlines()]
        return any(int(row[1], 16) == 0 and not int(row[8], 16) & REJECTS for row in rows)
    except OSError:
        return False


@kept_as_step
def open_tun(name: str, flags: int, offload: int, persists: bool) -> int:
    """Creates a tun or tap interface, and returns its descriptor. `offload` names the work that the kernel leaves to a device, such
    as checksums. With `persists`, the interface remains after the descriptor's end. Missing: the system refuses an interface."""
    try:
        descriptor = os.open("/dev/net/tun", os.O_RDWR | os.O_CLOEXEC)
    except OSError as error:
        advice = TUN_ADVICE.get(error.errno or 0, "the container or the system keeps this user from it")
        raise Missing(f"/dev/net/tun: {error.strerror}: {advice}; or add --simulated, which needs none") from None
    fcntl.ioctl(descriptor, TUNSETIFF, struct.pack("16sH22x", name.encode(), flags))
    fcntl.ioctl(descriptor, TUNSETOFFLOAD, offload)
    # An interface that persists ends with its namespace. The kernel removes all interfaces of a namespace at once, which is faster
    # than to remove each interface when its descriptor is closed.
    fcntl.ioctl(descriptor, TUNSETPERSIST, int(persists))
    return descriptor


def add_tun(
    address: str, address6: str, mtu: int, name: str = LINK_NAME, bits: int = 24, persists: bool = True, mac: bytes = b""
) -> int:
    """Creates an interface with an IPv4 and an IPv6 address in this namespace, and returns its descriptor. The interface has no
    multicast, so the kernel sends no packets there by itself, and packet 1 is the command's. With a hardware address (`mac`) the
    interface is an Ethernet interface (tap), whose frames are whole, with checksums."""
    descriptor = open_tun(name, WITH_NOTE | (TAP if mac else TUN), 0 if mac else LEFT_TO_A_CARD, persists)
    be_silent(name)
    if mac:
        change(name, 0, 0, [(HARDWARE_ADDRESS, mac)])
    set_up(name, UP | MULTICAST, ((MTU, mtu), (QUEUE_LENGTH, QUEUE)))
    add_address(name, address, bits)
    with suppress(OSError):  # a system without IPv6
        add_address(name, address6, 64)
    return descriptor


def all_dropped(place: str = OWN_NETWORK) -> dict[str, int]:
    """Returns for each interface of a namespace how many packets the system dropped instead of sending, since the queue to the link
    was full. `place` is the namespace's folder in /proc."""
    rows = [line.partition(":") for line in read_system(place + "dev").splitlines()[2:]]  # without the two lines of the head
    return {name.strip(): int(counts.split()[DROPPED_OUT]) for name, _, counts in rows}


def unforwarded(place: str = OWN_NETWORK) -> dict[str, int]:
    """Returns how many packets for other hosts a namespace's system received and didn't send on, by the names of RFC 4293's
    counters, without counters of 0. The counters exclude packets from local programs."""
    texts = dict.fromkeys(("snmp", "netstat", "snmp6"), "")
    for name in texts:
        with suppress(OSError):  # a system without IPv6
            texts[name] = read_system(place + name)
    counts = dict(line.split() for line in texts["snmp6"].splitlines())
    rows = [line.split() for line in (texts["snmp"] + texts["netstat"]).splitlines()]
    for names, numbers in zip(rows[::2], rows[1::2]):  # a line with names precedes each line with numbers
        if names[0] in OF_IPV4:
            counts.update((f"Ip{name}", number) for name, number in zip(names[1:], numbers[1:]))
    return {name: int(counts[name]) for name in UNFORWARDED if int(counts.get(name, 0))}


def dropped(name: str = LINK_NAME) -> int:
    """Returns how many packets the system dropped before an interface of this namespace."""
    return all_dropped().get(name, 0)


def something_listens(port: Optional[int] = None) -> bool:
    """Returns whether a socket in this namespace waits for connections or datagrams, on `port` if one is named."""
    for name, state in LISTENS:
        try:
            rows = [line.split() for line in read_system("/proc/thread-self/net/" + name).splitlines()[1:]]
        except OSError:
            continue
        if any(row[3] == state and port in (None, int(row[1].rpartition(":")[2], 16)) for row in rows):
            return True
    return False
