"""The host as an Ethernet switch between sockets: a frame's outgoing ports, and its row."""

import socket
import unittest
from random import Random
from typing import NamedTuple

from linked import SEEDS, Ended, Linked, found, ip4, ip6, needs_host, until
from hinge.run.page import ENDED_WELL

PORTS = 3
MACS = [bytes([2, 0, 0, 0, 0, port]) for port in range(PORTS + 1)]  # of the hosts, and one more
ALL = b"\xff" * 6
GROUP = bytes.fromhex("01005e000012")
OWN_SWITCH = bytes.fromhex("0180c2000000")
TAG = bytes.fromhex("8100e005")  # VLAN 5, priority 7
IPV4 = b"\x08\x00"
IPV6 = b"\x86\xdd"
ARP = b"\x08\x06"
ODD = b"\x88\xb5"
LAST = ALL + bytes.fromhex("0200000000ee") + ODD + b"the last"
PACKET = ip4("10.8.0.1", "10.8.0.2", 17, 5, 6, 40)


def frame(to: bytes, by: int, carried: bytes = b"", kind: bytes = ODD) -> bytes:
    return to + MACS[by] + kind + carried


class Sent(NamedTuple):
    port: int
    frame: bytes


class Case(NamedTuple):
    what: str
    sent: list[Sent]
    got: list[list[int]]  # by ports: the places in `sent`


def hello(port: int, by: int) -> Sent:
    """Returns a frame from which the switch learns the port of an address."""
    return Sent(port, frame(OWN_SWITCH, by))


CASES = [
    Case("to all", [Sent(0, frame(ALL, 0))], [[], [0], [0]]),
    Case("to a group", [Sent(1, frame(GROUP, 1))], [[0], [], [0]]),
    Case("to one that wasn't heard", [Sent(0, frame(MACS[1], 0))], [[], [0], [0]]),
    Case("to one that was heard", [hello(1, 1), Sent(0, frame(MACS[1], 0))], [[], [1], []]),
    Case("to one at the same port", [hello(0, 1), Sent(0, frame(MACS[1], 0))], [[], [], []]),
    Case("to one that moved", [hello(1, 1), hello(2, 1), Sent(0, frame(MACS[1], 0))], [[], [], [2]]),
    Case("from a group", [Sent(1, GROUP + GROUP + ODD), Sent(0, frame(GROUP, 0))], [[0], [1], [0, 1]]),
    Case(
        "to the switch itself",
        [Sent(0, frame(OWN_SWITCH[:5] + b"\x0f", 0)), Sent(0, frame(OWN_SWITCH[:5] + b"\x10", 0))],
        [[], [1], [1]],
    ),
    Case(
        "with tags, as they are",
        [Sent(0, frame(ALL, 0, b"tagged", TAG + ODD)), Sent(0, frame(ALL, 0, b"two", b"\x88\xa8\0\1" + TAG + ODD))],
        [[], [0, 1], [0, 1]],
    ),
    Case("shorter than a frame", [Sent(0, frame(ALL, 0)[:length]) for length in range(1, 14)], [[], [], []]),
    Case("half a tag", [Sent(0, frame(ALL, 0, b"\0", TAG[:2])), Sent(0, frame(ALL, 0, b"\0\1\2", TAG[:2]))], [[], [0, 1], [0, 1]]),
    Case("half a packet", [Sent(0, frame(ALL, 0, PACKET[:end], IPV4)) for end in (0, 1, 19)], [[], [0, 1, 2], [0, 1, 2]]),
    Case(
        "longer than an MTU", [Sent(0, frame(ALL, 0, bytes(length))) for length in (1501, 9000, 65521)], [[], [0, 1, 2], [0, 1, 2]]
    ),
]


def received(port: socket.socket, ends: int) -> list[bytes]:
    """Returns all frames up to this number of last ones."""
    got = list[bytes]()
    while got.count(LAST) < ends:
        got.append(port.recv(65536))
    return [data for data in got if data != LAST]


@needs_host
class OfSwitches(unittest.TestCase):
    def switched(self, sent: list[Sent], plan: str = "") -> tuple[list[list[bytes]], Ended]:
        """Returns the frames that each port receives."""
        open_pipes = "".join(f"line pipe {pipe} config\n" for pipe in range(1, 2 * PORTS + 1))
        link = Linked(f"{SEEDS}{open_pipes}{plan}switch 0 2 4\ncontents\n", links=PORTS)
        ports = link.ends[::2]
        for number, (port, data) in enumerate([*sent, Sent(1, LAST), Sent(0, LAST)]):
            before = [one.port for one in [*sent, Sent(1, LAST)][:number]].count(port)
            ports[port].send(data)
            until(lambda: sum(link.page.read().ways[2 * port][count] for count in ("came", "turned_away")) > before)
        got = [received(port, ends) for port, ends in zip(ports, (1, 1, 2))]
        ended = link.end()
        assert (ended.status, ended.counts["state"]) == (0, ENDED_WELL)
        return got, ended

    def test_ports_that_a_frame_leaves_by(self) -> None:
        for case in CASES:
            with self.subTest(case.what):
                got, _ = self.switched(case.sent)
                assert got == [[case.sent[place].frame for place in places] for places in case.got]

    def test_rows_of_frames(self) -> None:
        """Rows describe IP as on other links; other frames get protocol 0, their type as a port, and their hosts' addresses."""
        sent = [
            frame(ALL, 0, PACKET, IPV4),
            frame(ALL, 0, PACKET, TAG + IPV4),
            frame(ALL, 0, bytes(28), ARP),
            frame(MACS[1], 0),
            frame(ALL, 0, PACKET, ODD),
            frame(ALL, 0, ip6("fd08::1", "fd08::2", 17, b"\0\7\0\10" + bytes(4)), IPV6),
        ]
        _, ended = self.switched([Sent(0, data) for data in sent])
        assert found(r"submit,pipe,1,(.*?,\d+,\d+,\d+,\d+),", ended.history)[:-1] == [
            "10.8.0.1,10.8.0.2,17,5,6,40",
            "10.8.0.1,10.8.0.2,17,5,6,40",
            "240.0.0.1,240.0.0.2,0,0,2054,28",
            "240.0.0.1,240.0.0.3,0,0,34997,1",
            "240.0.0.1,240.0.0.2,0,0,34997,40",
            "240.0.0.4,240.0.0.5,17,7,8,48",
        ]
        assert found(r"^#,address,(.*)$", ended.history)[:2] == [
            "240.0.0.1,fe80:0000:0000:0000:0000:00ff:fe00:0000",
            "240.0.0.2,fe80:0000:0000:0000:fdff:ffff:feff:ffff",
        ]

    def test_each_port_has_its_own_link(self) -> None:
        """Each port has its own loss and delay: of two broadcast frames, one is lost on the way to port 1."""
        sent = [Sent(0, frame(ALL, 0, b"one")), Sent(0, frame(ALL, 0, b"two"))]
        plan = "line pipe 1 config delay 5\nline pipe 6 config delay 7\nline pipe 4 config plr 0.5\nlist 3 2\n"
        got, ended = self.switched(sent, plan)
        assert got == [[], [sent[0].frame], [one.frame for one in sent]]
        stays = [
            due - came for came, due in ((int(came), int(due)) for came, due in found(r"^d,\d+,\d+,(\d+),(\d+)$", ended.history))
        ]
        assert {round(stay / 1e6) for stay in stays} == {0, 5, 7}

    def test_jitter_and_copies(self) -> None:
        got, _ = self.switched(
            [Sent(0, frame(ALL, 0, b"x"))], "line pipe 60000 config delay 3\njitter 3 60000 1 1\nduplicate 5 2147483648 1\n"
        )
        assert got == [[], [frame(ALL, 0, b"x")], [frame(ALL, 0, b"x")] * 2]

    def test_any_bytes_end_nothing(self) -> None:
        random, sent = Random(5), list[Sent]()
        for _ in range(300):
            kind = random.choice([IPV4, IPV6, ARP, TAG, random.randbytes(2)])
            macs = b"".join(random.choice([*MACS, ALL, OWN_SWITCH, random.randbytes(6)]) for _ in range(2))
            data = macs + kind + random.choice([PACKET[: random.randrange(40)], random.randbytes(random.randrange(60))])
            sent.append(Sent(random.randrange(PORTS), data[: random.randrange(1, len(data) + 1)]))
        _, ended = self.switched(sent)
        whole = [sum(len(one.frame) >= 14 for one in sent if one.port == port) for port in range(PORTS)]
        assert [ended.counts.ways[2 * port]["came"] for port in range(PORTS)] == [
            more + last for more, last in zip(whole, (1, 1, 0))
        ]

    def test_plans_that_no_switch_has(self) -> None:
        for text in ("switch 0 0", "switch 0 1", "switch 0 2\nswitch 2 4"):
            link = Linked(text + "\n", links=PORTS)
            assert link.ended().status == 3
