"""Reads a net's transcript as passages. A passage is a packet on one way (direction) of a link, from a host to the next. A link
with jitter has two passages in a row: the jitter's begins at a point between the hosts."""

from __future__ import annotations

import enum
import ipaddress
import re
from dataclasses import dataclass, field
from typing import Iterable, Iterator, NamedTuple, Union

from hinge.border.files import untrusted
from hinge.captures.addresses import address_of_six
from hinge.command import ROWS, Fault
from hinge.lazy import Integers, np
from hinge.replays.columns import NET_COLUMNS, OUT, Told, read_told
from hinge.replays.remarks import Lateness, addresses_in, lateness_in

Address = Union[ipaddress.IPv4Address, ipaddress.IPv6Address]
LOCAL_GROUPS = ipaddress.IPv4Network("224.0.0.0/24")
EVERYBODY = ipaddress.IPv4Address("255.255.255.255")
LINK_SCOPE = 2  # the scope of IPv6 groups on one link; 1 is a group within a host
LAST_OF_NETWORK = 255  # the bits of a broadcast address, since links have networks of 24 bits
OUTAGE_PROTOCOL = 255  # the protocol of a packet that no host sent
QUEUE_OF_PIPE = re.compile(r"queue (\d{1,18}) config .*?\bpipe (\d{1,18})", re.ASCII)
NO_HOST = -1
LABEL = re.compile(r"[A-Za-z0-9][A-Za-z0-9._~-]{0,199}", re.ASCII)  # the name of a host, or of a jitter's point
BETWEEN = "~"  # separates two hosts in the name of a jitter's point: the point between these at which a way's jitter begins


class Scope(enum.IntEnum):
    """How far packets with an address go."""

    HOST = 0  # to the host with the address
    LINK = 1  # to the next host, as with a broadcast or a link-local address
    GROUP = 2  # to any number of hosts: each may forward the packet on each other link


def scope_of(address: Address) -> Scope:
    """Returns an address's scope. Broadcast addresses in hosts' networks aren't known here: the result is HOST for them."""
    is_six = isinstance(address, ipaddress.IPv6Address)
    if address.is_multicast:
        is_local = address.packed[1] & 15 <= LINK_SCOPE if is_six else address in LOCAL_GROUPS
        return Scope.LINK if is_local else Scope.GROUP
    is_of_link = address.is_unspecified or address == EVERYBODY or is_six and address.is_link_local
    return Scope.LINK if is_of_link else Scope.HOST


@dataclass
class Topology:
    """A net's hosts by their numbers, and the links' ways by their pipes' numbers. The points at which ways' jitter begins count as
    hosts, too."""

    hosts: list[str] = field(default_factory=list)  # the names; a host's place is its number
    numbers: dict[str, int] = field(default_factory=dict)  # by names
    host_of: dict[int, int] = field(default_factory=dict)  # hosts by IPv4 addresses and stand-ins, as numbers
    six: dict[str, int] = field(default_factory=dict)  # hosts by IPv6 addresses
    pipes: dict[int, tuple[int, int]] = field(default_factory=dict)  # the hosts at both ends of each pipe
    same: dict[int, int] = field(default_factory=dict)  # the pipe that each pipe counts as
    first: dict[tuple[int, int], int] = field(default_factory=dict)  # the first pipe between a jitter's beginning and end
    copied: set[int] = field(default_factory=set)  # pipes that a packet may enter twice
    models: dict[int, str] = field(default_factory=dict)  # the models that decide about losses, by pipes
    switches: set[int] = field(default_factory=set)
    outside: int = NO_HOST  # the host that leads to all other addresses
    has_daemons: bool = False  # whether routing daemons change routes
    stand_ins: dict[int, str] = field(default_factory=dict)  # the IPv6 addresses for which IPv4 addresses stand
    # The moments in ns at which a host reported that it had rejected packets: by host, source and destination.
    rejections: dict[tuple[int, int, int], list[int]] = field(default_factory=dict)

    def number(self, name: str) -> int:
        """Returns a host's number, which is a new one for a new name. ValueError: the name has other characters or is too long."""
        if name not in self.numbers:
            if not LABEL.fullmatch(name):
                raise ValueError(f"{name!r} isn't the name of a host")
            self.numbers[name] = len(self.hosts)
            self.hosts.append(name)
        return self.numbers[name]

    def read(self, text: str) -> None:
        """Reads a remark (a line of comment in a history): `#,host,NAME,ADDRESS,..`, `#,pipe,N,FROM,TO`, `#,copies,N`,
        `#,model,N,MODEL`, `#,switch,NAME`, `#,outside,NAME`, `#,routes,none` or `#,rejected,NS,N,HOST,FROM,TO`."""
        _, kind, *words = text.split(",")
        if kind == "switch":
            self.switches.add(self.number(words[0]))
        elif kind == "outside":
            self.outside = self.number(words[0])
        elif kind == "routes":
            self.has_daemons = True
        elif kind == "rejected":
            moment, pipe, reporter, *ends = map(int, words)
            self.add_rejection(moment, pipe, reporter, (ends[0], ends[1]))
        elif kind == "copies":
            self.copied.add(int(words[0]))
        elif kind == "model":
            self.models[int(words[0])] = ",".join(words[1:])
        elif kind == "pipe":
            self.add_pipe(int(words[0]), (self.number(words[1]), self.number(words[2])))
        else:
            self.add_host(self.number(words[0]), words[1:])

    def add_rejection(self, moment: int, pipe: int, reporter: int, ends: tuple[int, int]) -> None:
        """Adds a report by the host with the address `reporter`. Omits a report that a host only forwards to a later link."""
        host = self.host_of.get(reporter, NO_HOST)
        if pipe in self.pipes and self.pipes[pipe][0] == host:
            self.rejections.setdefault((host, *ends), []).append(moment)

    def add_host(self, host: int, addresses: list[str]) -> None:
        for text in addresses:
            if ":" in text:
                self.six[address_of_six(text)] = host
            else:
                self.host_of[int(ipaddress.IPv4Address(text))] = host

    def middles(self) -> list[int]:
        """Returns the numbers of the points at which ways' jitter begins."""
        return [number for number, name in enumerate(self.hosts) if BETWEEN in name]

    def from_switches(self) -> list[int]:
        """Returns the switches, and the jitter points of ways that begin at a switch."""
        names = {self.hosts[switch] for switch in self.switches}
        return [number for number, name in enumerate(self.hosts) if name.partition(BETWEEN)[0] in names]

    def to_switches(self) -> list[int]:
        """Returns the switches, and the jitter points of ways that end at a switch."""
        middles = set(self.middles())
        return [*self.switches, *(start for start, end in self.pipes.values() if end in self.switches and start in middles)]

    def add_pipe(self, pipe: int, ends: tuple[int, int]) -> None:
        """Adds a pipe between two hosts. All pipes from a jitter's beginning to the same end count as the first of them."""
        is_jitter = BETWEEN in self.hosts[ends[0]]
        self.same[pipe] = self.first.setdefault(ends, pipe) if is_jitter else pipe
        if self.same[pipe] == pipe:
            self.pipes[pipe] = ends

    def read_stand_ins(self, addresses: dict[str, str]) -> None:
        """Adds the IPv6 addresses for which IPv4 addresses stand in the histories."""
        for text, address in addresses.items():
            stand_in = int(ipaddress.IPv4Address(text))
            self.stand_ins[stand_in] = address
            if address in self.six:
                self.host_of[stand_in] = self.six[address]

    def scopes_of(self, addresses: Integers) -> Integers:
        """Returns each address's scope, converted to a number. A broadcast address in a host's network gets the scope LINK."""
        of_hosts = set(self.host_of)
        broadcasts = {address | LAST_OF_NETWORK for address in of_hosts if address not in self.stand_ins} - of_hosts
        used, place = np.unique(addresses, return_inverse=True)
        scopes = [Scope.LINK if number in broadcasts else scope_of(self.address(number)) for number in used.tolist()]
        all_scopes: Integers = np.array(scopes, np.int64)[place.ravel()]
        return all_scopes

    def address(self, number: int) -> Address:
        """Converts a number to an address: to an IPv6 address if the number is a stand-in, otherwise to an IPv4 address."""
        if number in self.stand_ins:
            return ipaddress.IPv6Address(self.stand_ins[number])
        return ipaddress.IPv4Address(number)

    def hosts_of(self, addresses: Integers) -> Integers:
        """Returns the host with each address; for other addresses, the host that leads outside, or NO_HOST without such a host."""
        addresses_of_hosts = np.array(sorted(self.host_of), np.int64)
        hosts = np.array([self.host_of[address] for address in addresses_of_hosts.tolist()], np.int64)
        at = np.minimum(np.searchsorted(addresses_of_hosts, addresses), max(len(addresses_of_hosts) - 1, 0))
        if not len(addresses_of_hosts):
            return np.full(len(addresses), self.outside)
        return np.where(addresses_of_hosts[at] == addresses, hosts[at], self.outside)


@dataclass(frozen=True)
class Passages:
    """Passages as columns, in the order in which the packets were submitted to the links."""

    topology: Topology
    flow: Integers  # five columns: addresses, protocol, ports
    length: Integers
    content: Integers  # a hash of the bytes that no router changes, by which the packet is recognized on another link
    left: Integers  # the hash after the link, which may have flipped a bit
    last: Integers  # 1 if the time to live allows no further link, else 0
    flooded: Integers  # 1 if a switch sends the packet on each other link, else 0
    pipe: Integers
    start: Integers  # the host that sent the packet
    end: Integers  # the host at the link's other end
    event: Integers  # the packet's fate, such as OUT
    came: Integers  # the moment of the submit in ns
    due: Integers  # the moment of the delivery in ns
    submitted: Integers  # the submit's place among all records
    handed: Integers  # the delivery's place among all records; -1 for a packet that no host received
    line: Integers  # the submit's line in its file
    file: Integers  # the file's place in the transcript
    number: Integers  # the packet's number among all submitted packets, from 1, even packets without a sender

    def __len__(self) -> int:
        return len(self.came)


def remarks_of_kinds(text: bytes, kinds: Iterable[bytes]) -> Iterator[str]:
    """Yields the remarks of these kinds, one kind after the other, without copying the text, which may be long."""
    for kind in kinds:
        for remark in re.finditer(b"^#," + kind + b",.*$", text, re.M):
            yield remark[0].decode()


class Reader:
    """Reads a transcript's files. The first file contains the remarks on hosts and pipes."""

    def __init__(self) -> None:
        self.topology = Topology()
        self.pipe_of_queue: dict[int, int] = {}
        self.changes: list[tuple[int, str]] = []
        self.columns: list[list[Integers]] = []
        self.records = 0  # in the files so far
        self.late = b""  # the remarks on lateness
        self.counts = [0]  # the number of packets before each file, and after the last

    def note(self, history: Told) -> None:
        """Reads the remarks and the configuration lines of a file."""
        kinds = [b"host", b"switch", b"outside", b"routes", b"pipe", b"copies", b"model"]
        for remark in remarks_of_kinds(history.remarks, kinds):
            self.topology.read(remark)
        self.topology.read_stand_ins(addresses_in(history.remarks))
        for remark in remarks_of_kinds(history.remarks, [b"rejected"]):
            self.topology.read(remark)
        self.late += b"".join(f"\n{remark}".encode() for remark in remarks_of_kinds(history.remarks, [b"late"]))
        self.changes += [(moment, text) for _, moment, text in history.changes]
        for _, _, text in history.changes:
            queue = QUEUE_OF_PIPE.match(text)
            if queue:
                self.pipe_of_queue[int(queue[1])] = int(queue[2])

    def read(self, path: str) -> None:
        """Reads a file's packets, without the packets that no host sent. Fault: a pipe's hosts are unknown."""
        history = read_told(path, "net", NET_COLUMNS)
        self.note(history)
        get = history.rows.columns.__getitem__
        refusals = [int(remark.split(",")[2]) for remark in remarks_of_kinds(history.remarks, [b"refused"])]
        is_handed = (get("event") == OUT) & ~np.isin(get("packet"), np.array(refusals, np.int64)) & (get("handed") >= 0)
        submitted = self.records + get("submitted")
        handed = np.where(is_handed, self.records + get("handed"), -1)
        flow = [column[get("five_tuple")] for column in history.rows.tuples.columns()]
        is_unsent = (flow[2] == OUTAGE_PROTOCOL) & (get("content") == 0)
        pipe = self.pipes_of(path, history.rows.targets)[get("target")]
        left = self.contents_left(history, get("content"))
        of_packet = [get("length"), get("content"), left, get("last"), get("flooded")]
        times = [pipe, get("event"), get("at"), get("due"), submitted, handed]
        file = np.full(len(pipe), len(self.columns))
        number = self.counts[-1] + 1 + np.arange(len(pipe))
        self.counts.append(self.counts[-1] + len(pipe))
        self.columns.append([column[~is_unsent] for column in (*flow, *of_packet, *times, get("line"), file, number)])
        self.records += history.records

    @staticmethod
    def contents_left(history: Told, content: Integers) -> Integers:
        """Returns the contents with which packets left the link. If a link flipped a packet's bit, a remark contains the new
        content."""
        remarks = [remark.split(",") for remark in remarks_of_kinds(history.remarks, [b"corrupt"])]
        flips = {int(number): int(text, 16) for _, _, number, _, _, text in remarks}
        left = content.copy()
        packet = history.rows.columns["packet"]
        rows = np.flatnonzero((history.rows.columns["event"] == OUT) & np.isin(packet, np.array([*flips], np.int64)))
        left[rows] = np.array([flips[number] for number in packet[rows].tolist()], np.uint64).astype(np.int64)
        return left

    def pipes_of(self, path: str, targets: Iterable[tuple[str, int]]) -> Integers:
        """Returns each target's pipe. Fault: a pipe's hosts are unknown."""
        pipes = [self.pipe_of_queue.get(number, number) if kind == "queue" else number for kind, number in targets]
        unknown = set(pipes) - set(self.topology.same)
        if unknown:
            raise Fault(f"{path}: no remark says between which hosts pipe {min(unknown)} is: hinge net writes them", ROWS)
        return np.array([self.topology.same[pipe] for pipe in pipes], np.int64)

    def passages(self) -> Passages:
        """Returns the passages from all files so far."""
        columns = [np.concatenate(parts) for parts in zip(*self.columns)]
        length, content, left, last, flooded, pipe = columns[5:11]
        pipes = sorted(self.topology.pipes)
        ends = np.array([self.topology.pipes[number] for number in pipes], np.int64).reshape(-1, 2)
        place = np.searchsorted(np.array(pipes, np.int64), pipe)
        flow = np.stack(columns[:5])
        start = ends[place, 0]
        end = ends[place, 1]
        return Passages(self.topology, flow, length, content, left, last, flooded, pipe, start, end, *columns[11:])


class Transcript(NamedTuple):
    """A net's transcript: the passages, and what the links did otherwise."""

    passages: Passages
    obeyed: list[tuple[int, str]]  # the configuration lines that the links applied, with their moments in ns
    lateness: Lateness
    counts: list[int]  # the number of packets before each file, and after the last


def read_transcript(paths: list[str]) -> Transcript:
    """Returns the transcript in these histories, which are in order. Fault: a pipe's hosts are unknown, or a file can't be read."""
    reader = Reader()
    for path in paths:
        with untrusted(path):
            reader.read(path)
    with untrusted(paths[0]):
        return Transcript(reader.passages(), reader.changes, lateness_in(reader.late), reader.counts)
