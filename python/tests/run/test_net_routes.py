"""`hinge net`: forwarding hosts, routes and groups for routing daemons, names of both families, and a link's MTU; and requests to the
kernel through rtnetlink: routes in a few messages on one socket, in a separate network."""

import os
import subprocess
import sys
import unittest
from pathlib import Path

from in_a_folder import InAFolder
from linked import found, hinge, needs, needs_rooms

EXAMPLE = Path(__file__).resolve().parents[3] / "examples" / "net" / "ospf.net"
PING = "ping -c 1 -W 5 -q"
HAS_SIX, HAS_ORDER = os.path.exists("/proc/net/if_inet6"), os.path.exists("/etc/gai.conf")
MEMBER = """
import socket
own = socket.socket(socket.AF_INET, socket.SOCK_DGRAM)
own.bind(("", 5353))
own.setsockopt(socket.IPPROTO_IP, socket.IP_ADD_MEMBERSHIP, socket.inet_aton("224.0.0.251") + socket.inet_aton("10.9.1.2"))
print("on", flush=True)
data, asker = own.recvfrom(9)
own.sendto(b"answer", asker)
"""
ASKER = """
import socket
own = socket.socket(socket.AF_INET, socket.SOCK_DGRAM)
own.settimeout(60)
own.sendto(b"question", ("224.0.0.251", 5353))
print(own.recvfrom(9)[0].decode())
"""


@needs_rooms
@needs("ping", "ip")
class OfRoutes(InAFolder):
    def test_a_bare_host_in_the_middle_is_refused(self) -> None:
        self.file.write_text("host a\nhost r\nmain c true\nlink a r\nlink r c\n")
        wanted = f"hinge net: {self.file}: c has no way to a: r hands nothing on; write router r, or give it a command\n"
        for words in ([], ["--dry-run"], ["--simulated"]):
            done = hinge("net", self.file, *words)
            assert (done.returncode, done.stderr) == (2, wanted)
        for before, after in (("host r", "router r"), ("host r", "host r true"), ("link r c", "link r c\nlink a c")):
            self.file.write_text("host a\nhost r\nmain c true\nlink a r\nlink r c\n".replace(before, after))
            assert hinge("net", self.file, "--quiet").returncode == 0

    def test_a_host_that_may_have_a_command_later_is_told(self) -> None:
        self.file.write_text("host a\nhost r\nmain c true\nlink a r\nlink r c\n")
        done = hinge("net", self.file, "--control", self.folder / "control")
        assert done.returncode == 0
        assert done.stderr.splitlines()[0] == "hinge net: c has no way to a: r hands nothing on; write router r"

    def test_what_a_router_rightly_doesnt_forward(self) -> None:
        """No route exists, or the packet is too long and its sender learns this, or the router rejects the packet. A new interface
        of the router's program forwards too."""
        done = self.logged(
            "host b\nrouter r ip route add unreachable 10.78.0.0/24; ip tuntap add own mode tun; cat /proc/sys/net/ipv4/conf/own/forwarding; exec sleep 1000\n"
            "main a ip route add 10.77.0.0/24 dev to-r; ping -q -c 3 -i 0.2 -W 1 10.77.0.1; ping -q -c 2 -i 0.2 -W 1 -M do -s 1400 b;"
            " ip route add 10.78.0.0/24 dev to-r; ping -q -c 3 -i 0.2 -W 1 10.78.0.1\nlink a r 1ms\nlink r b 1ms\nmtu r b 1300\n"
        )
        assert self.summary()["unforwarded"] == {"r": {"IpInNoRoutes": 3, "IpFragFails": 1}}, done.stderr
        assert "r: 4 packets weren't forwarded (IpInNoRoutes 3, IpFragFails 1)\n" in done.stderr
        assert (self.logs / "r.log").read_text() == "1\n"
        self.assert_lawful()

    def test_jitter_hands_on_what_no_host_may(self) -> None:
        """The packets: one with a time to live of 1, and one to a group of the link."""
        asker = self.script("asker.py", ASKER.partition("print")[0])
        done = self.net(f"host a\nmain c {PING} -t 1 a && {asker} && {PING} a\nlink a c 1ms jitter 3ms\n")
        assert (done.returncode, self.packets()) == (0, {"c > a": 3, "a > c": 2}), done.stderr
        self.assert_lawful()

    def test_a_packet_to_a_group_changes_no_later_one(self) -> None:
        """The next packet to a host through the same interface doesn't inherit the group packet's time to live of 1."""
        asker = self.script("asker.py", ASKER.partition("print")[0])
        done = self.net(f"host a\nrouter r\nmain c {asker} && {PING} a >/dev/null && {PING} a\nlink a r 1ms\nlink r c 1ms\n")
        assert (done.returncode, self.packets()["c > r"]) == (0, 3), done.stdout

    def test_routes_to_neighbours_alone(self) -> None:
        text = "router a\nrouter r\nmain c ip -4 route\nlink a r\nlink r c\n"
        at_link = "10.9.2.0/24 dev to-r proto kernel scope link src 10.9.2.2 "
        assert self.net(text).stdout.splitlines() == [
            "10.8.0.1 dev to-r scope link src 10.8.0.3 ",
            "10.8.0.2 dev to-r scope link src 10.8.0.3 ",
            at_link,
            "224.0.0.0/4 dev to-r scope link src 10.8.0.3 metric 1 ",
        ]
        assert self.net(text + "routes none\n").stdout.splitlines() == [
            "10.8.0.2 dev to-r scope link src 10.8.0.3 metric 16777216 ",
            at_link,
        ]

    def test_members_of_a_group(self) -> None:
        """The kernel itself sends no message, not even for routers, and only the member's host reports the group."""
        member = self.script("member.py", MEMBER)
        asker = self.script("asker.py", ASKER)
        log = self.logs / "a.log"
        done = self.logged(
            f"host a exec {member}\nrouter r\nmain c until grep -qs on {log}; do sleep 0.01; done; exec {asker}\n"
            "link c a 1ms\nlink r c 1ms\n"
        )
        assert (done.returncode, (self.logs / "c.log").read_text()) == (0, "answer\n"), done.stderr
        packets = found(r"^c,0,submit,(pipe,\d,[\d.]+,[\d.]+,\d+),", self.history())
        self.assertEqual(
            [packet for packet in packets if not packet.endswith(",224.0.0.22,2")],  # which IGMP repeats
            ["pipe,1,10.8.0.3,224.0.0.251,17", "pipe,2,10.8.0.1,10.8.0.3,17"],
        )
        assert packets[0].startswith("pipe,2,10.9.1.2,224.0.0.22"), packets
        self.assert_lawful()

    @unittest.skipUnless(HAS_SIX and HAS_ORDER, "no IPv6, or no /etc/gai.conf")
    def test_names_have_both_addresses(self) -> None:
        ask = "import socket; print(*dict.fromkeys(one[4][0] for one in socket.getaddrinfo(%r, 80)))"
        done = self.net(
            f"host a\nmain b {PING} a && {PING} -6 a && {PING} -6 a.b && {sys.executable} -c \"{ask % 'a'}\" && {sys.executable}"
            f" -c \"{ask % 'a.b'}\"\nlink a b 1ms\n"
        )
        assert (done.returncode, done.stdout.splitlines()[-2:]) == (0, ["10.8.0.1 fd08::1", "10.9.1.1 fd09:1::1"]), done.stderr
        assert self.packets() == {"b > a": 3, "a > b": 3}
        done = hinge("run", "--", "sh", "-c", f"{PING} -6 server >/dev/null; {sys.executable} -c \"{ask % 'server'}\"")
        assert done.stdout == "10.8.0.2 fd08::2\n", done.stderr

    def test_the_mtu_of_a_link(self) -> None:
        """A router rejects packets that are too long for its next link."""
        done = self.net(
            "host a\nrouter r\nmain c ip -o link show to-r; ping -M do -s 8972 -c 1 -W 5 -q r && ping -M do -s 2000 -c 1 -W 5"
            " a\nlink a r 1ms\nlink r c 1ms\nlink r c 2ms\nmtu r c 9000\nmtu c r 2 3000\n"
        )
        assert "mtu 9000 " in done.stdout
        assert "Frag needed and DF set (mtu = 1500)" in done.stdout
        lengths = [int(length) for length in found(r"^c,0,submit,pipe,4,.*,1,0,0,(\d+),", self.history())]
        assert lengths == [9000, 2028]

    def test_an_mtu_of_a_link_that_is_wrong(self) -> None:
        for text, wanted in (
            ("mtu a b 100\n", "line 4: '100' isn't a number from 576 to 65535\n"),
            ("mtu a b 2 9000\n", "line 4: 'a b': there is no link 2 between them\n"),
            ("mtu a b\n", "line 4: a word is missing: mtu A B [N] BYTES\n"),
            ("routes all\n", "line 4: 'routes all': the one such line is `routes none`\n"),
        ):
            self.file.write_text("host a\nhost b\nlink a b\n" + text)
            assert hinge("net", self.file, "--dry-run").stderr == f"hinge net: {self.file} {wanted}"


@needs_rooms
@needs("bird", "ping", "ip")
class OfOspf(InAFolder):
    def test_a_ring_of_routers_finds_another_way(self) -> None:
        """The test deletes none of the kit's routes. Packets take the single link, and after its cut the other links."""
        done = hinge("net", EXAMPLE, "--transcripts", self.folder / "out", "--quiet", seconds=120)
        assert done.returncode == 0, done.stderr
        assert done.stdout.splitlines() == ["r1 is reached by r1", "r1 is reached by r3", "converged"], done.stderr
        self.assert_lawful()
        paths = hinge("look", self.folder / "out").stdout.splitlines()
        assert any(path.startswith("r4 - r3 - r2 - r1: ") for path in paths), paths


SCRIPT = """
import socket, sys
from hinge.run import rtnetlink
from hinge.run.interfaces import interface_route, set_up

class Counted(socket.socket):
    made, sent = 0, 0
    def __init__(self, *words):
        super().__init__(*words)
        Counted.made += 1
    def send(self, data):
        Counted.sent += 1
        return super().send(data)

rtnetlink.socket.socket = Counted
set_up("lo")
Counted.made = Counted.sent = 0
with rtnetlink.one_socket():
    lo = rtnetlink.index_of("lo")
    routes = [interface_route(f"10.8.{place >> 8}.{place & 255}", lo, "127.0.0.1") for place in range(1000)]
    routes[500:500] = [interface_route("fd08::1", lo, "fd08::2", may_fail=True)] * 200  # a source that nobody has
    rtnetlink.ask_many(routes)
print(Counted.made, Counted.sent <= 20, len(list(open("/proc/net/route"))) - 1)
for refused in (interface_route("10.9.0.1", lo, "10.1.1.1"), interface_route("10.9.0.1", 77, "127.0.0.1")):
    try:
        rtnetlink.ask_many([refused, interface_route("10.9.0.2", lo, "127.0.0.1")])
    except OSError as error:
        print(error.strerror)
try:
    rtnetlink.index_of("eth9")
except OSError as error:
    print(error.strerror)
"""


@needs_rooms
@needs("unshare")
def test_many_routes_take_one_socket() -> None:
    done = subprocess.run(["unshare", "-rn", sys.executable, "-c", SCRIPT], capture_output=True, text=True, timeout=60)
    assert done.stdout.splitlines() == ["1 True 1000", "Invalid argument", "No such device", "No such device"], done.stderr
