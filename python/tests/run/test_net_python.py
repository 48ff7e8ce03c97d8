"""A net from Python: its start, changes during the run, and its end."""

import os
import signal
import socket
import subprocess
import sys

from linked import matching, needs, needs_rooms, until
from with_folder import WithFolder

from hinge.net import CommandFailed, Net, NetError

PING = "ping -c 1 -W 1 -q"
LISTENS = "python3 -c \"import socket; s = socket.create_server(('', 7)); print('listens', flush=True); s.accept()\""
LAUNCHER = """
import sys, time
from hinge.net import Net
net = Net(sys.argv[1])
net.host("a", "setsid sleep {mark} & exec sleep {mark}")
net.host("b")
net.link("a", "b", "1ms")
net.start()
net.popen("b", "exec sleep {mark}")
print("begun", flush=True)
time.sleep(1000)
"""


class InAFolder(WithFolder):
    def net(self, **how: object) -> Net:
        made = Net(self.folder / "net", **how)  # type: ignore[arg-type]
        self.addCleanup(made.close)
        return made

    def two(self, link: str = "5ms") -> Net:
        net = self.net()
        net.host("a"), net.host("b")
        net.link("a", "b", link)
        return net


@needs_rooms
@needs("ping")
class OfNets(InAFolder):
    def test_commands_on_hosts(self) -> None:
        net = self.two()
        how = {"check": False, "input": "said\n", "env": {**os.environ, "X": "x"}, "cwd": self.folder}
        done = net.run("a", "hostname; cat; echo $HINGE_HOST $X >&2; exit 3", **how)
        assert (done.returncode, done.stdout, done.stderr) == (3, "a\nsaid\n", "a x\n")
        assert net.run("b", ["sh", "-c", "pwd; printf '%s' \"$1\"", "sh", "a  b"], cwd="/").stdout == "/\na  b"
        with self.assertRaisesRegex(CommandFailed, "^a: echo out; false: status 1\nout$"):
            net.run("a", "echo out; false")
        self.assertRaises(subprocess.TimeoutExpired, net.run, "a", "sleep 100", timeout=0.5)
        self.assertRaisesRegex(CommandFailed, "no host of this net, which are a, b", net.run, "c", "true")
        net.run("a", f"{PING} b && {PING} {net.address('b')} && {PING} {net.address('a')}")
        assert [(way["from"], way["to"], way["came"]) for way in net.status()["ways"]] == [("a", "b", 2), ("b", "a", 2)]
        assert (net.audit().split()[0], [way["came"] for way in net.status()["ways"]]) == ("lawful", [2, 2])

    def test_what_is_between_links(self) -> None:
        if subprocess.run([sys.executable, "-c", "import numpy"], capture_output=True).returncode:
            self.skipTest("no numpy")
        net = self.net(link="1ms", back="2ms")
        net.host("a"), net.host("c")
        net.router("r")
        net.link("a", "r"), net.link("r", "c", "3ms")
        net.run("a", f"{PING} c")
        assert [(way["pipe"], way["came"]) for way in net.status()["ways"]] == [(1, 1), (2, 1), (3, 1), (4, 1)]
        assert net.paths() == "lawful between links"
        lines = [line.split(",")[-1] for line in net.history.read_text().splitlines() if line.startswith("c,0,configure")]
        assert lines == [f"pipe {pipe} config delay {delay}" for pipe, delay in ((1, 1), (2, 2), (3, 3), (4, 3))]

    def test_a_partition_and_its_end(self) -> None:
        net = self.two()
        pings = []
        for change in (
            lambda: net.cut("a"),
            lambda: net.heal("a", off=["b"]),
            lambda: net.cut("b", off=["a"]),
            lambda: net.change("b", "a", "9ms", "8ms"),
            lambda: net.heal("b"),
        ):
            change()
            pings.append(net.run("a", f"{PING} b", check=False).returncode)
        assert pings == [1, 0, 1, 1, 0]
        assert [one.line for one in net.obeyed] == (
            [f"pipe {pipe} config delay {words}" for words in ("5 plr 1", "5", "5 plr 1") for pipe in (1, 2)]
            + [f"pipe {pipe} config delay {7 + pipe}{loss}" for loss in (" plr 1", "") for pipe in (1, 2)]
        )
        assert net.audit().split()[0] == "lawful"
        assert [way["lost"] for way in net.status()["ways"]] == [3, 0]

    def test_a_change_in_a_cut_holds_after_it(self) -> None:
        net = self.two()
        net.cut("a", "2s")
        cut, told = net.obeyed[1], net.change("a", "b", "9ms")
        assert [one.line for one in told] == [f"pipe {pipe} config delay 9 plr 1" for pipe in (1, 2)]
        until(lambda: net.run("a", PING + " b", check=False).returncode == 0)
        assert net.status()["moment"] / 1e9 >= cut.seconds
        net.end()
        lines = [line.split(",")[-1] for line in net.history.read_text().splitlines() if line.startswith("c,0,configure,pipe 1")]
        assert lines[-2:] == ["pipe 1 config delay 9 plr 1", "pipe 1 config delay 9"]

    def test_a_port_is_waited_for(self) -> None:
        net = self.net()
        net.host("a", f"sleep 0.3\nexec {LISTENS}\n", port=7)
        net.host("b")
        net.link("a", "b", preset="dsl")
        net.start()
        assert net.output("a") == "listens\n"
        net.end()
        assert "c,0,configure,pipe 1 config bw 384000bit/s delay 25 queue 10\n" in net.history.read_text()

    def test_a_port_that_nobody_serves(self) -> None:
        for command, wanted in (
            ("echo my fault; exit 3", "a doesn't listen at port 7; its command ended with 3\n  my fault"),
            ("echo x; exec sleep 100", "a doesn't listen at port 7 after 0.2 s\n  x"),
        ):
            net = Net(self.folder / wanted[-1])
            net.host("a", command, port=7, wait="200ms" if "0.2 s" in wanted else "30s")
            net.host("b")
            net.link("a", "b")
            with self.assertRaises(NetError) as refused:
                net.start()
            assert str(refused.exception) == wanted
            assert net.process.poll() is not None

    def test_what_is_refused(self) -> None:
        net = self.two()
        self.assertRaisesRegex(NetError, "^the link: '10mbit': not a bandwidth; write 10Mbit/s$", net.link, "a", "b", "10mbit")
        net.cut("a", 1, at=2), net.heal("a", at=3)
        self.assertRaisesRegex(NetError, r"described.net line 5: 'heal': no cut of such a link goes on then", net.start)
        net = Net(self.folder / "second", mtu=7)
        net.host("a"), net.host("b"), net.link("a", "b")
        self.assertRaisesRegex(NetError, "argument --mtu: '7' isn't a number from 576 to 65535", net.start)
        net = Net(self.folder / "third")
        net.host("a"), net.host("b"), net.link("a", "b"), net.start()
        self.assertRaisesRegex(NetError, "the net runs already", net.host, "c")
        self.assertRaisesRegex(NetError, "'z': no host of this net", net.cut, "z")
        same = Net(self.folder / "third")
        same.host("a"), same.host("b"), same.link("a", "b")
        self.assertRaisesRegex(NetError, "third: it is that of a net that runs", same.start)
        net.close()

    def test_a_folder_with_what_a_killed_net_left(self) -> None:
        with socket.socket(socket.AF_UNIX) as left:
            (self.folder / "net").mkdir()
            left.bind(str(self.folder / "net" / "control"))
        assert self.two().run("a", "hostname").stdout == "a\n"

    def test_a_folder_of_any_length_and_none(self) -> None:
        net = Net(self.folder.joinpath(*["long" * 20] * 3))
        net.host("a"), net.host("b"), net.link("a", "b", "1ms")
        assert net.run("a", "hostname").stdout == "a\n"
        net.close()
        assert net.history.exists()
        with Net() as net:
            net.describe("host a\nmain b echo here\nlink a b\n")
            net.start()
            until(lambda: net.output("b") == "here\n")
            folder = net.folder
        assert not folder.exists()

    @needs("pgrep", "setsid")
    def test_the_end_of_its_caller_leaves_nothing(self) -> None:
        mark = f"{7000 + os.getpid() % 1000}.77"
        for number in (signal.SIGKILL, signal.SIGTERM, signal.SIGINT):
            folder = self.folder / str(int(number))
            caller = subprocess.Popen(
                [sys.executable, "-c", LAUNCHER.format(mark=mark), str(folder)],
                stdout=subprocess.PIPE,
                stderr=subprocess.DEVNULL,
                text=True,
            )
            assert caller.stdout.readline() == "begun\n"
            until(lambda: len(matching("-f", f"^sleep {mark}")) == 3)
            caller.send_signal(number)
            caller.communicate(timeout=60)
            until(
                lambda: not matching("-f", f"^sleep {mark}")
                and not (folder / "control").exists()
                and (folder / "net.json").exists()
            )
