"""`hinge net`: a switch forwards packets to groups and broadcasts unchanged, to each other link."""

import os
import unittest

from linked import HINGE, found, needs, needs_rooms

from in_a_folder import InAFolder

PING = "ping -c 1 -W 5 -q"
SENDER = """
import socket
own = socket.socket(socket.AF_INET, socket.SOCK_DGRAM)
own.setsockopt(socket.SOL_SOCKET, socket.SO_BROADCAST, 1)
own.setsockopt(socket.SOL_SOCKET, socket.SO_BINDTODEVICE, b"to-s")
own.setsockopt(socket.IPPROTO_IP, socket.IP_MULTICAST_TTL, 1)
for place, address in enumerate(("224.0.0.251", "239.1.1.1", "255.255.255.255")):
    own.sendto(bytes(place), (address, 9))
"""
OF_SIX = """
six = socket.socket(socket.AF_INET6, socket.SOCK_DGRAM)
six.sendto(b"six", ("ff02::fb", 9, 0, socket.if_nametoindex("to-s")))
"""
RECEIVER = """
IP_RECVTTL = 12
import socket
own = socket.socket(socket.AF_INET, socket.SOCK_DGRAM)
own.setsockopt(socket.IPPROTO_IP, IP_RECVTTL, 1)
own.bind(("", 5353))
own.setsockopt(socket.IPPROTO_IP, socket.IP_ADD_MEMBERSHIP, socket.inet_aton("224.0.0.251") + socket.inet_aton("10.9.1.1"))
print("on", flush=True)
data, more, _, _ = own.recvmsg(9, 64)
print(data.decode(), int.from_bytes(more[0][2][:4], "little"), flush=True)
"""
KEEPALIVED = """vrrp_instance V {{
  state BACKUP
  interface to-s
  virtual_router_id 7
  priority {priority}
  advert_int 1
  virtual_ipaddress {{ 10.9.1.100/24 dev to-s }}
}}
"""
# Asks for an address as a host without one does, takes it, and prints the message that gave it and the address.
DHCP_CLIENT = """
import socket, struct, subprocess
line = socket.socket(socket.AF_PACKET, socket.SOCK_RAW, socket.htons(0x0800))
line.bind(("to-s", 0))
line.settimeout(5)
own = line.getsockname()[4]
def ask(options):
    data = struct.pack("!BBBBIHH16s16s192sI", 1, 1, 6, 0, 7, 0, 0x8000, b"", own, b"", 0x63825363) + options + b"\\xff"
    udp = struct.pack("!HHHH", 68, 67, 8 + len(data), 0)
    head = struct.pack("!BBHIBBH4s4s", 0x45, 0, 28 + len(data), 0, 64, 17, 0, bytes(4), b"\\xff" * 4)
    words = sum(struct.unpack("!10H", head))
    head = head[:10] + struct.pack("!H", 0xffff - (words % 0xffff)) + head[12:]
    asked = b"\\xff" * 6 + own + b"\\x08\\x00" + head + udp + data
    line.send(asked)
    while True:
        try:
            frame = line.recv(2000)
        except TimeoutError:
            line.send(asked)
            continue
        if frame[23] == 17 and frame[34:38] == bytes((0, 67, 0, 68)) and frame[46:50] == bytes((0, 0, 0, 7)):
            return frame
offer = ask(bytes((53, 1, 1)))
address, server = offer[58:62], offer[26:30]
answer = ask(bytes((53, 1, 3, 50, 4)) + address + bytes((54, 4)) + server)
given = socket.inet_ntoa(answer[58:62])
subprocess.run(["ip", "address", "add", f"{given}/24", "dev", "to-s"], check=True)
print(answer[42 + 240 + 2], given)
"""
# A frame with a tag, and one of each length that a frame can't have.
TAGGED = """
import socket
line = socket.socket(socket.AF_PACKET, socket.SOCK_RAW)
line.bind(("to-s", 0))
for length in (*range(15), 1600, 20000):
    try:
        line.send(bytes.fromhex("0200000000010200000000038100600588b5").ljust(length)[:length])
    except OSError:
        pass
line.send(b"\\xff" * 6 + line.getsockname()[4] + bytes.fromhex("8100600588b5") + b"behind a tag")
"""
UNTAGGED = """
PACKET_AUXDATA = 8
import socket, struct
line = socket.socket(socket.AF_PACKET, socket.SOCK_RAW, socket.htons(3))
line.setsockopt(263, PACKET_AUXDATA, 1)
line.bind(("to-s", 0))
print("on", flush=True)
while True:
    data, more, _, _ = line.recvmsg(2000, 64)
    if b"behind a tag" in data:
        tag, kind = struct.unpack_from("HH", more[0][2], 16)
        print(data[-14:-12].hex(), hex(kind), tag & 4095, tag >> 13, flush=True)
"""


@needs_rooms
@needs("ping", "ip")
class OfSwitches(InAFolder):
    def groups(self) -> dict[str, int]:
        """Returns the number of UDP packets to groups and broadcasts by way."""
        ways = found(r"^#,pipe,\d+,(.*),(.*)$", self.history())
        pipes = found(r"^c,0,submit,pipe,(\d+),[\d.]+,(?:224|239|255|240)[\d.]+,17,\d+,\d+,", self.history())
        return {" > ".join(ways[int(pipe) - 1]): pipes.count(pipe) for pipe in pipes}

    def test_what_hosts_see(self) -> None:
        """Each case is a net with a, b and the main host c at a switch, with its line and c's action."""
        slow = "switch s a b c 5ms"
        cases = [
            (
                "the neighbour's own address",
                slow,
                f"{PING} a >&2; ip neigh show 10.8.0.1",
                "10.8.0.1 dev to-s lladdr 02:00:00:00:00:01 REACHABLE",
            ),
            ("no router between them", slow, "ping -c 1 -t 1 -W 5 b | grep -o ttl=64", "ttl=64"),
            (
                "four links to and fro, and as many for ARP",
                slow,
                "ping -c 2 -i 0.2 -W 5 a | awk -F'[= ]' '/time=/ { t[++n] = $(NF - 1) } END { print (t[1] >= 40), (t[2] >= 20) }'",
                "1 1",
            ),
            ("a cut of a port", f"{slow}\nat start+0s cut a", f"{PING} b >&2 && ! ping -c 1 -W 1 -q a >&2 && echo cut", "cut"),
            (
                "jitter and copies",
                "switch s a b c 2ms jitter 3ms duplicate 20%",
                f"ping -c 9 -i 0.02 -q a >&2; {PING} b >&2; echo on",
                "on",
            ),
            ("one network", slow, f"{PING} b.s >&2; ip -o route get 10.9.1.77 | grep -c 'dev to-s src 10.9.1.3'", "1"),
        ]
        for what, line, does, wanted in cases:
            with self.subTest(what):
                done = self.net(f"host a\nhost b\nmain c {does}\n{line}\n", "--quiet")
                self.assertEqual((done.returncode, done.stdout.split()), (0, wanted.split()), done.stderr)
                self.assert_lawful()

    @unittest.skipUnless(os.path.exists("/proc/net/if_inet6"), "there is no IPv6")
    def test_ipv6_and_a_router_behind_two_switches(self) -> None:
        done = self.net(
            f"host a\nrouter r\nhost far\nmain c {PING} -6 a && {PING} -6 far && {PING} far && ip -6 neigh show dev to-s | grep -o"
            " 'fd08::1 lladdr [^ ]*'\nswitch s c\nswitch t a r\nlink s t 1ms\nlink r far 1ms\n"
        )
        self.assertEqual((done.returncode, done.stdout.splitlines()[-1:]), (0, ["fd08::1 lladdr 02:00:00:00:00:02"]), done.stderr)
        self.assert_lawful()

    def test_packets_for_many_leave_by_each_other_port(self) -> None:
        sender = self.script("sender.py", SENDER + OF_SIX * os.path.exists("/proc/net/if_inet6"))
        each = 3 + os.path.exists("/proc/net/if_inet6")
        done = self.net(f"host a\nhost b\nmain c {sender} && {PING} a\nswitch s a b c 1ms\n")
        self.assertEqual(done.returncode, 0, done.stderr)
        self.assertEqual(self.groups(), {"c > s": each, "s > a": each, "s > b": each})
        self.assert_lawful()

    def test_a_member_gets_the_packet_as_it_was_sent(self) -> None:
        """The checksum and the time to live are unchanged."""
        receiver = self.script("receiver.py", RECEIVER)
        log = self.logs / "a.log"
        sender = self.script("sender.py", SENDER.replace("bytes(place)", "b'question'").replace(", 9))", ", 5353))"))
        done = self.logged(
            f"host a exec {receiver}\nmain c until grep -qs on {log}; do sleep 0.01; done; {sender}; until grep -qs question"
            f" {log}; do sleep 0.01; done\nswitch s a c 1ms\n"
        )
        self.assertEqual((done.returncode, log.read_text()), (0, "on\nquestion 1\n"), done.stderr)

    def test_a_tag_arrives_and_no_frame_ends_the_net(self) -> None:
        receiver = self.script("untagged.py", UNTAGGED)
        log = self.logs / "a.log"
        done = self.logged(
            f"host a exec {receiver}\nmain c until grep -qs on {log}; do sleep 0.01; done; {self.script('tagged.py', TAGGED)} && until"
            f" grep -q 0x8100 {log}; do sleep 0.01; done; {PING} a\nswitch s a c 1ms\n"
        )
        self.assertEqual((done.returncode, log.read_text()), (0, "on\n88b5 0x8100 5 3\n"), done.stderr)
        self.assert_lawful()


@needs_rooms
@needs("dnsmasq", "ip", "ping")
class OfDhcp(InAFolder):
    def test_a_server_leases_an_address_to_a_client(self) -> None:
        """Afterwards the client answers at this address, and is valid though the file lacks it."""
        server = (
            "exec dnsmasq --no-daemon --port=0 --no-ping --user=root --conf-file=/dev/null --interface=to-s"
            f" --dhcp-range=10.9.1.100,10.9.1.100 --dhcp-leasefile={self.folder}/leases"
        )
        done = self.logged(
            f"host server {server}\nhost b\nmain c {self.script('client.py', DHCP_CLIENT)} && {PING} -I 10.9.1.100 b >/dev/null\nswitch s"
            " server b c 2ms\nwait server port 67\n",
            seconds=600,
        )
        self.assertEqual((done.returncode, (self.logs / "c.log").read_text()), (0, "5 10.9.1.100\n"), done.stderr)
        self.assert_lawful()


@needs_rooms
@needs("keepalived", "ping")
class OfVrrp(InAFolder):
    def test_one_of_two_is_the_master(self) -> None:
        """The master has the shared address. After a cut of the first, the other one is the master."""
        for name, priority in (("k1", 150), ("k2", 100)):
            (self.folder / f"{name}.conf").write_text(KEEPALIVED.format(priority=priority))
        at = f"{self.folder}/$HINGE_HOST"
        command = f"exec keepalived -n -l -f {at}.conf -p {at}.pid -r {at}.vpid -c {at}.cpid"
        logs = self.folder / "logs"
        state = f"[ \"$(grep -o 'Entering [A-Z]*' {logs}/%s.log | tail -1)\" = 'Entering %s' ]"
        one_is = f"until {state % ('k1', 'MASTER')} && {state % ('k2', 'BACKUP')}; do sleep 0.1; done"
        other_is = f"until {state % ('k2', 'MASTER')}; do sleep 0.1; done"
        adverts = (
            f"until {' '.join(HINGE)} status {self.folder}/control --openmetrics | grep -qE"
            " 'sent_packets_total.from=.s.,to=.k2.,pipe=.4.. ([6-9]|..)'; do sleep 0.2; done"
        )
        reached = "until ping -c 1 -W 1 -q 10.9.1.100; do sleep 0.1; done"
        done = self.logged(
            f"host k1 {command}\nhost k2 {command}\nmain c {one_is}; {reached}; {adverts}; {one_is}; {' '.join(HINGE)} change"
            f" {self.folder}/control cut k1; {other_is}; {reached}\nswitch s k1 k2 c 10Mbit/s 2ms\n",
            "--quiet",
            "--control",
            str(self.folder / "control"),
            seconds=600,
        )
        self.assertEqual(done.returncode, 0, done.stderr)
        self.assert_lawful()
