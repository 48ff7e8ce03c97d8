"""A net of hosts in simulated time: three nodes of etcd, whose leader is cut from its peers, are the same twice."""

import json
import shutil
import sys
from pathlib import Path

from machines import Simulated, needs, packets_of, served

THREE = """
host a
host b exec iperf3 -s -1 >/dev/null
router r
link a r 10Mbit/s 10ms queue 100
link r b 5Mbit/s 15ms queue 50
link c r 20Mbit/s 5ms
main c sh -c 'ping -q -c 3 -i 0.2 a; ping -q -c 3 -i 0.2 b; iperf3 -c b -t 1'
"""
ENDS = """
import hashlib, socket, sys
DATA = bytes(range(251)) * 1195
if sys.argv[1] == "stream":
    with socket.create_server(("0.0.0.0", 5000)) as server, server.accept()[0] as near:
        near.sendall(DATA)
elif sys.argv[1] == "echo":
    near = socket.socket(socket.AF_INET, socket.SOCK_DGRAM)
    near.bind(("0.0.0.0", 9))
    while True:
        near.sendto(*near.recvfrom(2000))
else:
    with socket.create_connection(("b", 5000)) as near, near.makefile("rb") as file:
        assert file.read() == DATA
    near = socket.socket(socket.AF_INET, socket.SOCK_DGRAM)
    near.settimeout(0.5)
    came = 0
    for number in range(100):
        near.sendto(text := b"%d" % number * 100, ("c", 9))
        try:
            assert near.recv(2000) == text
            came += 1
        except TimeoutError:
            pass
    print(came)
"""
CORRUPTED = f"""
host b {sys.executable} ends.py stream
host c {sys.executable} ends.py echo
router r
main a {sys.executable} ends.py client; grep -h ^Udp: /proc/net/snmp
switch s b c r 1ms corrupt 2%
link r a 20Mbit/s 2ms jitter 1ms corrupt 2%
wait b port 5000
"""
CLOCKS = f"""
host o {sys.executable} looks.py
main m {sys.executable} looks.py; sleep 1
link m o 1ms
at main+1s skew m +5s 1000ppm
at main+29s skew m +0s
"""
LOOKS = """
import ctypes, os, signal, socket, struct, subprocess, time

c = ctypes.CDLL(None)

class Moment(ctypes.Structure):
    _fields_ = [("s", ctypes.c_long), ("ns", ctypes.c_long)]

class Waiter(ctypes.Structure):
    _fields_ = [("value", ctypes.c_uint64), ("place", ctypes.c_uint64), ("flags", ctypes.c_uint32), ("none", ctypes.c_uint32)]

def ahead():
    return round(time.time() - time.monotonic() - before, 3) + 0.0  # no -0.0

def after(length):
    moment = time.time() + length
    return Moment(int(moment), int(moment % 1 * 1e9))

def by_nanosleep(end):
    c.clock_nanosleep(0, 1, end, None)

def by_futex(end):
    c.syscall(202, ctypes.byref(ctypes.c_uint32(7)), 9 | 256, 7, end, None, -1)

def by_lock(end):
    c.syscall(202, ctypes.byref(ctypes.c_uint32(owner)), 6, 0, end, None, 0)

def by_many_futexes(end):
    value = ctypes.c_uint32(7)
    c.syscall(449, ctypes.byref(Waiter(7, ctypes.addressof(value), 2, 0)), 1, 0, end, 0)

def by_semaphore(end):
    place = ctypes.create_string_buffer(32)
    c.sem_init(place, 0, 0)
    c.sem_timedwait(place, end)

def by_timerfd(end):
    file = c.timerfd_create(0, 0)
    c.timerfd_settime(file, 1, (Moment * 2)(Moment(), end._obj), None)
    os.read(file, 8)

def by_timer(end):
    number = ctypes.c_int()
    signal.signal(signal.SIGALRM, lambda *words: None)
    c.timer_create(0, None, ctypes.byref(number))
    c.timer_settime(number, 1, (Moment * 2)(Moment(), end._obj), None)
    signal.pause()

def by_queue(end):
    queue = c.mq_open(b"/queue", os.O_RDWR | os.O_CREAT, 0o600, None)
    c.mq_timedreceive(queue, ctypes.create_string_buffer(8192), 8192, None, end)

def waited(wait):
    begun = time.monotonic()
    wait(ctypes.byref(after(2)))
    return round(time.monotonic() - begun, 3)

def stamped():
    one = socket.socket(socket.AF_INET, socket.SOCK_DGRAM)
    one.setsockopt(socket.SOL_SOCKET, 35, 1)
    one.bind(("127.0.0.1", 0))
    one.sendto(b"", one.getsockname())
    [(_, _, data)] = one.recvmsg(1, 100)[1]
    seconds, ns = struct.unpack("qq", data)
    return round(seconds + ns / 1e9 - time.time(), 3) + 0.0

before = time.time() - time.monotonic()
owner = subprocess.Popen(["sleep", "100"]).pid
time.sleep(2)
print(ahead(), stamped())
for name, wait in list(globals().items()):
    if name.startswith("by_"):
        print(name, waited(wait))
time.sleep(20)
print(ahead())
"""
NET = Path(__file__).resolve().parents[3] / "examples" / "net" / "etcd.net"


@needs("etcd")
class OfEtcd(Simulated):
    def test_a_partition_is_the_same_twice(self) -> None:
        shutil.copytree(NET.parent, self.folder, dirs_exist_ok=True)
        done = self.net(NET.read_text(), 1, "--twice")
        assert done.stdout.splitlines()[-1] == "consistent"
        assert "hinge net: two runs by seed 1 are the same: " in done.stderr
        self.assert_lawful((self.folder / "session" / "net.history").read_text())


FAULTS = """
host a while :; do sleep 0.1; done
host b while :; do sleep 0.1; done
main c ping -q -i 0.1 -c 60 a
link a c 5ms
link b c 5ms
link a b 5ms
at 500ms cut a from c 2s
at 1s cut c from a 500ms
at 2s..3s stop a 1s
at 4s kill b 1s
nemesis partition-one every 1s..2s for 500ms until 6s of a b
"""


@needs("ping")
class OfFaults(Simulated):
    def test_a_job_of_any_length(self) -> None:
        """The machine's job has more than 4 MiB, like the jobs of several hundred hosts with different routes."""
        hosts = (f"host h{number} : {'x' * 60_000}\nlink h{number} r\n" for number in range(72))
        self.net("router r\nmain m true\nlink m r\n" + "".join(hosts), 1)

    def test_faults_of_links_and_hosts_are_the_same_twice(self) -> None:
        """Faults of links repeat to the nanosecond. Of the two cuts between c and a, the second ends during the first."""
        assert "hinge net: two runs by seed 3 are the same: " in self.net(FAULTS, 3, "--twice").stderr
        summary = json.loads((self.folder / "session" / "net.json").read_text())
        acts = [(one["words"].split()[0], one["moment"] - summary["main"], one["at"]) for one in summary["acts"]]
        assert [word for word, *_ in acts if word != "cut"] == ["stop", "cont", "kill", "restart"]
        assert all(moment == float(at[:-1]) * 1e9 for word, moment, at in acts if word == "cut"), acts
        packets = packets_of((self.folder / "session" / "net.history").read_text())
        pings = [packet for packet in packets if packet.target == ("pipe", 2)]  # from c to a
        assert [packet.fate == "lost" for packet in pings] == [
            500_000_000 <= packet.came - summary["main"] < 2_500_000_000 for packet in pings
        ]
        assert len(pings) == 60

    def test_a_fault_of_a_host_on_which_nothing_runs(self) -> None:
        """The host's command had ended, while a kill on another host and a longer stop have an effect."""
        done = self.net(
            "host a true\nhost b exec sleep 99\nmain c sleep 2\nlink a c 5ms\nlink b c 5ms\nat 1s kill a\nat 1s kill b\n"
            "at 1200ms stop b 300ms\n",
            3,
        )
        told = [line for line in done.stderr.splitlines() if "by itself" in line]
        assert told == ["hinge net: CAUTION, changed nothing, as the host's command had ended by itself: `kill a`"]
        hosts = json.loads((self.folder / "session" / "net.json").read_text())["hosts"]
        assert {name: one["by"] for name, one in hosts.items()} == {"a": "itself", "b": "kill", "c": "itself"}


@needs("iperf3", "ping")
class OfTheLinks(Simulated):
    def test_flipped_bits_are_the_same_twice(self) -> None:
        """Receivers discard packets with wrong checksums: a stream arrives whole and some datagrams not at all, through a switch
        and a router."""
        (self.folder / "ends.py").write_text(ENDS)
        done = self.net(CORRUPTED, 3, "--twice")
        assert "two runs by seed 3 are the same: " in done.stderr
        came, names, counts = done.stdout.splitlines()
        errors = dict(zip(names.split(), counts.split()))["InCsumErrors"]
        assert 0 < int(came) < 100 and int(errors) > 0, done.stdout
        ways = json.loads((self.folder / "session" / "net.json").read_text())["ways"]
        assert sum(way["corrupted"] for way in ways) == (self.folder / "session" / "net.history").read_text().count("#,corrupt,")
        looked = self.hinge("look", "session")
        assert (looked.returncode, looked.stdout.splitlines()[-1]) == (0, "lawful between links"), looked.stdout

    def test_no_program_runs_before_them(self) -> None:
        """b answers each of two connections, and what c then sends is on the link at once. A Linux feature lets other programs run
        before one with priority, for 50 ms of each second, and iperf3 would spin for 5 ms before the link."""
        self.net(THREE, 1)
        packets = packets_of((self.folder / "session" / "net.history").read_text())
        own = [packet.came for packet in packets if packet.target == ("pipe", 5)]
        answers = [packet.due for packet in served(packets, 6) if packet.size == 60]
        assert len(answers) == 2
        waits = [next(came for came in own if came >= due) - due for due in answers]
        assert max(waits) < 10_000, waits


class OfClocks(Simulated):
    def test_one_that_is_ahead_and_gains(self) -> None:
        """With this clock the program reads the time of day and packets' time stamps, and waits for a moment in every way that the
        kernel offers. The other host's clock is unchanged."""
        (self.folder / "looks.py").write_text(LOOKS)
        done = self.net(CLOCKS, 1, "--logs", "logs")
        for name, first, length in (("m", "5.001 0.0", "1.998"), ("o", "0.0 0.0", "2.0")):
            before, *waits, behind = (self.folder / "logs" / f"{name}.log").read_text().splitlines()
            assert (before, float(behind)) == (first, 0.0), done.stderr
            assert [wait.split()[1] for wait in waits] == [length] * 8, waits

    def test_real_time_has_one_clock(self) -> None:
        (self.folder / "clocks.net").write_text(CLOCKS)
        done = self.hinge("net", "clocks.net")
        assert done.returncode == 2
        assert "skew: hosts have clocks of their own in simulated time alone; add --simulated" in done.stderr
