"""`hinge net`: rooms of many hosts, their links and names, their commands, the outside world, and the end."""

import os
import re
import signal
import subprocess
import threading
import unittest
from unittest import mock

import pytest

from hinge.border.asking import ask, is_answered
from hinge.run.outside import GATEWAY, Outside
from in_a_folder import InAFolder
from linked import HINGE, found, hinge, matching, needs, needs_rooms, outcome, until, web_server

PING = "ping -c 1 -W 5 -q"


@needs_rooms
@needs("ping")
class OfRooms(InAFolder):
    def test_ways_names_and_addresses(self) -> None:
        done = self.net(
            f"host a\nrouter r\nrouter s\nmain b hostname && echo $HINGE_HOST && {PING} a && {PING} ip6-a && exit 7\n"
            "link a r 1ms\nlink r s 1ms\nlink s b 1ms\n"
        )
        assert (done.returncode, done.stdout.splitlines()[:2]) == (7, ["b", "b"]), done.stderr
        six = 2 if os.path.exists("/proc/net/if_inet6") else 1
        assert self.packets() == {way: six for way in ("a > r", "r > a", "r > s", "s > r", "s > b", "b > s")}
        assert found(r"^#,host,r,(.*)$", self.history()) == ["10.8.0.2,fd08::2,10.9.1.2,fd09:1::2,10.9.2.1,fd09:2::1"]
        assert found(r"^#,pipe,(.*)$", self.history())[:3] == ["1,a,r", "2,r,a", "3,r,s"]

    def test_a_host_that_is_no_router_hands_nothing_on(self) -> None:
        done = self.net(f"host a\nhost r true\nmain b {PING} r && ! {PING} a\nlink a r 1ms\nlink r b 1ms\n")
        assert (done.returncode, self.packets()) == (0, {"r > b": 1, "b > r": 1}), done.stderr

    def test_several_links_between_two_hosts(self) -> None:
        done = self.net(f"host a\nmain b {PING} a && {PING} a.b.2 && {PING} a.b.2\nlink a b 1ms\nlink a b 2ms\n")
        assert (done.returncode, [way["came"] for way in self.summary()["ways"]]) == (0, [1, 1, 2, 2]), done.stderr

    def test_twenty_hosts_in_a_mesh(self) -> None:
        names = [f"h{number}" for number in range(1, 21)]
        hosts = "".join(f"host {name}\n" for name in names[1:])
        links = "".join(f"link {one} {two} 1ms\n" for place, one in enumerate(names) for two in names[place + 1 :])
        done = self.net(
            f"{hosts}main h1 for n in {' '.join(names[1:])}; do {PING} $n >/dev/null || exit 1; done\n{links}",
            "--quiet",
            "--no-realtime",
        )
        assert (done.returncode, len(self.summary()["ways"]), done.stderr) == (0, 380, "")
        assert self.packets() == {way: 1 for name in names[1:] for way in (f"h1 > {name}", f"{name} > h1")}
        self.history()

    def test_a_cut_from_the_beginning(self) -> None:
        done = self.net(
            f"host a\nhost c\nmain b {PING} c && ! ping -c 3 -i 0.2 -W 1 -q a\nlink a b\nlink b c\nlink a c\nat 0s cut" " a 1h\n"
        )
        lost = {f"{way['from']} > {way['to']}": way["lost"] for way in self.summary()["ways"] if way["came"]}
        assert (done.returncode, lost, self.summary()["format"]) == (0, {"b > a": 3, "b > c": 0, "c > b": 0}, 1), done.stderr

    def test_queues_and_rules_of_a_link(self) -> None:
        done = self.net(
            f"host a\nhost c\nmain b {PING} a && {PING} c\nlink a b 1ms\nlink c b 1ms\nline b c queue 1 config pipe"
            " 1\nmap b c icmp => queue 1\n"
        )
        assert done.returncode == 0, done.stderr
        assert found(r"^c,0,submit,(\w+,\d+),", self.history()) == ["pipe,2", "pipe,1", "queue,1", "pipe,3"], done.stderr

    def test_a_seed_draws_the_same_losses(self) -> None:
        runs = []
        for _ in range(2):
            self.net("host a\nmain b ping -c 40 -i 0.005 -W 1 -q a\nlink a b loss 30%\n", "--seed", "5")
            runs.append(found(r"^c,0,submit,pipe,2,.*\nr,(lost|queued)", self.history()))
        least = min(map(len, runs))
        assert least >= 20
        assert runs[0][:least] == runs[1][:least]


@needs_rooms
class OfCommands(InAFolder):
    def test_what_hosts_print_and_where_they_are(self) -> None:
        done = self.logged(
            f"host a echo $HINGE_NET; echo error >&2\nmain b while ! grep -qs error {self.logs}/a.log; do"
            " sleep 0.1; done; echo main\nlink a b\n"
        )
        assert (self.logs / "a.log").read_text() == f"{self.folder}\nerror\n"
        assert (self.logs / "b.log").read_text() == "main\n"
        assert done.stdout == ""

    def test_the_ends_of_hosts_are_told(self) -> None:
        script = self.folder / "x"
        done = self.net(
            "host fine exec sleep 99\nhost early exit 3\nhost dead kill -SEGV $$\nhost deaf trap '' TERM; touch"
            f" {script}; while :; do sleep 1; done\nhost idle\nmain m while ! [ -e {script} ]; do sleep 0.1; done;"
            " sleep 0.3\nlink m fine\n",
            "--end-wait",
            "300ms",
            "--quiet",
        )
        ends = {name: (one["status"], one["by"]) for name, one in self.summary()["hosts"].items()}
        assert ends == {
            "fine": (143, "SIGTERM"),
            "early": (3, "itself"),
            "dead": (139, "itself"),
            "deaf": (137, "SIGKILL"),
            "m": (0, "itself"),
        }
        assert re.search(
            r"net: early: ended with 3 after [0-9.]+ s\n.*net: dead: ended with SIGSEGV after [0-9.]+ s\n.*net:"
            r" deaf: killed, since SIGTERM didn't end it\n$",
            done.stderr,
        )

    def test_a_group_is_ended_and_a_command_without_exec_too(self) -> None:
        told = self.folder / "told"
        self.net(
            f"host a sh -c 'trap \"echo ended >> {told}; exit\" TERM; echo on >> {told}; while :; do sleep 0.05; done';"
            f" true\nmain b while ! [ -e {told} ]; do sleep 0.1; done\nlink a b\n"
        )
        assert told.read_text() == "on\nended\n"

    def test_main_waits_for_a_port(self) -> None:
        server = "python3 -c \"import socket,time; time.sleep(0.5); s=socket.create_server(('', 7)); time.sleep(99)\""
        client = "python3 -c \"import socket; socket.create_connection(('a', 7))\""
        done = self.net(f"host a exec {server}\nmain b {client}\nlink a b\nwait a port 7\n")
        assert done.returncode == 0, done.stderr
        for command, wait, status, why in (
            ("exit 5", "9s", 75, "void: a doesn't listen at port 7; its command ended with 5"),
            ("exit 5", "9s optional", 0, "a doesn't listen at port 7; its command ended with 5"),
            ("sleep 9", "100ms optional", 0, "a doesn't listen at port 7 after 0.1 s"),
            (
                "exec keepalive",
                "9s",
                127,
                "void: a doesn't listen at port 7; its command ended with 127 (there is no keepalive on the path)",
            ),
        ):
            done = self.net(f"host a {command}\nmain b echo begun\nlink a b\nwait a port 7 {wait}\nwait b port 8 1ms optional\n")
            assert (done.returncode, done.stdout) == (status, "" if status else "begun\n")
            assert found("net: ((?:void: )?a doesn't .*)", done.stderr) == [why]
            assert self.summary()["void"] == ([why.removeprefix("void: ")] if status else [])

    def test_the_command_of_the_command_line(self) -> None:
        text = "host a\nmain b\nlink a b\n"
        assert self.net(text, "--", "sh", "-c", 'echo "$0"; exit 4', "a  b").stdout == "a  b\n"
        assert [self.net(text).returncode, self.net(text + "host c\n", "--", "false").returncode] == [2, 1]

    def test_a_shell_is_the_main_command(self) -> None:
        told = self.folder / "told"
        self.file.write_text(f"host a echo on >> {told}; exec sleep 100\nmain b echo main >> {told}\nlink a b\n")
        words = [*HINGE, "net", self.file, "--quiet", "--no-realtime", "--shell", "a"]
        typed = f"until [ -s {told} ]; do sleep 0.01; done; hostname; echo $HINGE_HOST; exit 6"
        done = outcome(words, input=typed, env={**os.environ, "SHELL": "/bin/sh"})
        assert (done.returncode, done.stdout, done.stderr, told.read_text()) == (6, "a\na\n", "", "on\n")
        assert hinge("net", self.file, "--shell", "z").stderr == f"hinge net: --shell z: no host of {self.file}\n"

    def test_it_stays_until_it_is_ended(self) -> None:
        self.file.write_text("host a true\nmain b exit 5\nlink a b\n")
        read_end, write_end = os.pipe()
        control = self.folder / "control"

        def ended() -> object:
            if not is_answered(str(control)):
                return False
            return ask(str(control), status=True).status["ended"]  # type: ignore[index]

        for words, end in (
            (["--stay"], subprocess.Popen.terminate),
            (["--while-open", str(read_end)], lambda begun: os.close(write_end)),
        ):
            begun = subprocess.Popen(
                [*HINGE, "net", str(self.file), "--quiet", "--control", str(control), *words],
                pass_fds=[read_end],
                stderr=subprocess.DEVNULL,
            )
            until(lambda: ended() == {"a": 0, "b": 5})
            with pytest.raises(subprocess.TimeoutExpired):
                begun.wait(0.5)
            end(begun)
            assert begun.wait(60) == 5
        os.close(read_end)
        assert "argument --while-open: '77' isn't an open descriptor" in hinge("net", self.file, "--while-open", "77").stderr
        assert (
            "hinge net: --stay, --while-open: nobody can end a machine of its own; simulated time ends with its commands\n"
        ) == hinge("net", self.file, "--stay", "--simulated").stderr

    def test_without_a_main_command_it_is_over_when_all_are(self) -> None:
        done = self.net("host a sleep 0.1; exit 3\nhost b true\nlink a b\n")
        assert done.returncode == 3, done.stderr
        assert {name: one["status"] for name, one in self.summary()["hosts"].items()} == {"a": 3, "b": 0}, done.stderr


@needs_rooms
@needs("curl", "slirp4netns")
class OfOutside(InAFolder):
    """A server on the system's loopback stands for the rest of the network."""

    def answers(self, option: str, host: str) -> list[str]:
        """Returns each host's answer from a server outside."""
        with web_server(self.folder, "127.0.0.1") as port:
            ask = f"curl -s -o /dev/null -m 3 -w '%{{http_code}} %{{time_total}}' http://{GATEWAY}:{port}/"
            done = self.net(
                f"main a {ask}; until [ -s {self.folder}/logs/b.log ]; do sleep 0.05; done\nhost b {ask}; exec sleep 100\n"
                "router r\nlink a r 30ms\nlink r b 30ms\n",
                *f"{option} {host} --quiet --no-realtime --logs {self.folder}/logs".split(),
            )
        self.assertEqual(done.stderr, "")
        return [(self.folder / "logs" / f"{name}.log").read_text() for name in "ab"]

    def test_a_router_leads_outside(self) -> None:
        for answer in self.answers("--outside-loopback", "r"):
            self.assertRegex(answer, r"^200 \d")
            self.assertGreaterEqual(float(answer.split()[1]), 0.12)  # two round trips
        self.assertEqual(found("^#,outside,.*$", self.history()), ["#,outside,r"])
        self.assertNotIn("200", [answer.split()[0] for answer in self.answers("--outside", "r")])

    def test_another_host_leads_itself(self) -> None:
        one, other = self.answers("--outside-loopback", "a")
        self.assertEqual((one.split()[0], other.split()[0], self.packets()), ("200", "000", {}))
        refused = hinge("net", self.file, "--outside", "z")
        self.assertEqual((refused.returncode, refused.stderr), (2, f"hinge net: --outside z: no host of {self.file}\n"))


@needs_rooms
@needs("pgrep")
class OfTheWayOut(unittest.TestCase):
    def test_what_is_told_first_does_not_matter(self) -> None:
        """The launcher and the first process write to one pipe in any order."""
        for parts in ((b"7 True", b"!"), (b"!", b"7 True")):
            told: "list[tuple[object, ...]]" = []
            read_end, write_end = os.pipe()
            outside = mock.Mock(write_end=os.dup(write_end), output=os.open(os.devnull, os.O_WRONLY))
            self.addCleanup(os.close, read_end)
            own = {name: mock.Mock() for name in ("die_with_parent", "become")}
            own["words_for"] = mock.Mock(side_effect=lambda *words: told.append(words))
            with mock.patch.multiple("hinge.run.outside", **own), mock.patch("os.dup2"), mock.patch("signal.signal"):
                os.write(write_end, parts[0])
                later = threading.Timer(0.05, os.write, (write_end, parts[1]))
                later.start()
                Outside.wait_and_connect(outside, read_end)
                later.join()
            self.assertEqual(told[0][:2], ("7", True))
            os.close(write_end)
            os.close(outside.output)


class OfTheEnd(InAFolder):
    def test_signals_leave_nothing(self) -> None:
        """Signals arrive during the run and during the wait for a port."""
        for number, status in ((signal.SIGTERM, 143), (signal.SIGINT, 130), (signal.SIGKILL, -9)):
            for wait in ("", "wait a port 9 1h\n"):
                mark = f"{7000 + os.getpid() % 1000}.{int(number)}{len(wait)}"
                self.file.write_text(f"host a setsid sleep {mark} & sleep {mark}\nmain b exec sleep {mark}\nlink a b\n{wait}")
                begun = subprocess.Popen([*HINGE, "net", str(self.file), "--quiet"], stderr=subprocess.DEVNULL)
                try:
                    until(lambda: len(matching("-f", f"^(setsid )?sleep {mark}")) == (2 if wait else 3))
                    begun.send_signal(number)
                    self.assertEqual(begun.wait(60), status)
                    until(lambda: not matching("-f", f"^(setsid )?sleep {mark}"))
                finally:
                    begun.kill()

    def test_what_is_killed_is_told(self) -> None:
        """The test kills the links, and then the first process, which can report nothing itself."""
        broken = "void: the links broke off before the end"
        ended = "hinge net: SIGKILL ended the run's first process, and with it all programs, before a summary"
        mark = f"{7000 + os.getpid() % 1000}.5"
        self.file.write_text(f"host a\nmain b exec sleep {mark}\nlink a b\n")
        for name, status, told in (("hinge-link", 75, broken), ("", 137, ended)):
            begun = subprocess.Popen([*HINGE, "net", str(self.file), "--quiet"], stderr=subprocess.PIPE, text=True)
            try:
                until(lambda: matching("-f", f"^sleep {mark}"))
                first = matching("-P", str(begun.pid))[0]
                os.kill(matching("-P", str(first), name)[0] if name else first, signal.SIGKILL)
                _, said = begun.communicate(timeout=60)
            finally:
                begun.kill()
            self.assertEqual((begun.returncode, told in said), (status, True), said)
