"""Acts on the hosts of `hinge net`, and moments counted from the main command's start."""

import os
import subprocess
import sys
import time
from pathlib import Path

from linked import HINGE, found, hinge, needs, needs_rooms, stopped, until

from in_a_folder import InAFolder
from hinge.net import CommandFailed, Net, NetError
from hinge.run.cgroups import own_folder

TWO = "link a c 5ms\n"
NAP = """from hinge.events import forms
from hinge.__main__ import main
forms.ACTS["nap"] = forms.WORDS["nap"] = forms.Word("nap HOST", "", is_write=%s)
main()
"""


@needs_rooms
class OfHosts(InAFolder):
    def lines(self) -> list[str]:
        return (self.folder / "told").read_text().splitlines()

    def test_a_kill_and_a_restart(self) -> None:
        """The kill also ends processes that left the command's group."""
        command = f"setsid sleep 77.3 & echo begun >> {self.folder}/told; exec sleep 1000"
        done = self.net(
            f"host a {command}\nhost b exec sleep 1000\nmain c sleep 4; cat /proc/[0-9]*/cmdline | tr '\\0' ' '\n{TWO}"
            "link b c 5ms\nat main+1s kill a\nat 2s restart a\nat 3s kill a\n"
        )
        self.assertEqual(done.returncode, 0, done.stderr)
        self.assertEqual((self.lines(), found("sleep (77.3|1000) ", done.stdout)), (["begun", "begun"], ["1000"]))
        summary = self.summary()
        self.assertEqual([one["words"] for one in summary["acts"]], ["kill a", "restart a", "kill a"])
        for act, late in zip(summary["acts"], (1, 2, 3)):
            self.assertGreaterEqual(act["moment"], summary["main"] + late * 10**9 * 0.99)
        self.assertEqual({name: one["by"] for name, one in summary["hosts"].items()}, {"a": "kill", "b": "SIGTERM", "c": "itself"})
        self.assertEqual(found("^#,act,(.*)", self.history()), ["kill a", "restart a", "kill a"])
        self.assertRegex(done.stderr, r"net: a: killed by an act after [0-9.]+ s, and not begun again\n")

    def test_a_kill_just_behind_a_restart_ends_its_command(self) -> None:
        """The kill ends the command even if the restart is late, behind the kill."""
        names = [f"h{number}" for number in range(8)]
        lines = [f"host {name} exec sleep 78.3\nlink {name} m 1ms\nat 500ms kill {name} 500ms\n" for name in names]
        lines += [f"at {1001 + 2 * place}ms kill {name}\n" for place, name in enumerate(names)]
        done = self.net("".join(lines) + "main m sleep 3; cat /proc/[0-9]*/cmdline | tr '\\0' ' '\n")
        assert len(self.summary()["acts"]) == 3 * len(names)
        assert (done.returncode, found("sleep (78)", done.stdout)) == (0, []), done.stdout + done.stderr

    def test_a_host_that_stands_still(self) -> None:
        command = f"while :; do echo on >> {self.folder}/told; sleep 0.05; done"
        count = f"wc -l < {self.folder}/told"
        done = self.net(
            f"host a {command}\nmain c sleep 1; {count}; sleep 0.5; {count}; sleep 3.2; {count}\n{TWO}"
            "at 200ms stop a\nat 3200ms cont a\nat 4400ms stop a\n"
        )
        before, meanwhile, after = map(int, done.stdout.split())
        self.assertTrue(before == meanwhile < after, done.stdout)
        self.assertEqual(self.summary()["hosts"]["a"]["by"], "SIGTERM")

    def test_faults_with_a_length_end_by_themselves(self) -> None:
        """Each fault ends separately: the first stop's end doesn't end the other stop, and a host restarts once."""
        command = f"echo begun >> {self.folder}/told; while :; do echo on; sleep 0.02; done"
        done = self.logged(
            f"host a {command}\nmain c sleep 3\n{TWO}at 200ms stop a 1s\nat 300ms stop a 200ms\nat 1500ms kill a 200ms\n"
            "at 1600ms kill a 400ms\n"
        )
        self.assertEqual((done.returncode, self.lines()), (0, ["begun"] * 2), done.stderr)
        self.assertEqual(
            [one["words"] for one in self.summary()["acts"]], ["stop a", "stop a", "cont a", "kill a", "kill a", "restart a"]
        )
        moments = [one["moment"] for one in self.summary()["acts"]]
        self.assertGreaterEqual(moments[2], self.summary()["main"] + 1_190_000_000)

    def test_a_fault_of_a_host_on_which_nothing_runs(self) -> None:
        """The host's command had ended. A stop of a host that a kill ended has an effect, since the stop lasts longer."""
        lines = "host a true\nhost b exec sleep 99\nmain c sleep 2\nlink a c 5ms\nlink b c 5ms\nat 1s kill a\n"
        more = "at 1s kill b 300ms\nat 1200ms stop b 300ms\n"
        why = "changed nothing, as the host's command had ended by itself: `kill a`"
        done = self.net(lines + more)
        assert (done.returncode, found("CAUTION, (changed nothing.*)", done.stderr)) == (0, [why]), done.stderr
        done = self.net(lines + more, "--late", "100s")
        assert done.returncode == 75 and why in found("void: (.*)", done.stderr), done.stderr

    def test_a_stop_lasts_over_a_restart(self) -> None:
        """A command that starts on a stopped host waits until the stop ends, and other hosts' acts don't wait for that."""
        count = f"wc -l < {self.folder}/told"
        done = self.net(
            f"host a echo begun >> {self.folder}/told; exec sleep 1000\nmain c sleep 1.2; {count}; sleep 3; {count}\n{TWO}"
            "host b exec sleep 1000\nlink b c 1ms\nat 200ms kill a 500ms\nat 400ms stop a 2600ms\nat 800ms kill b 100ms\n"
        )
        self.assertEqual((done.stdout.split(), self.summary()["hosts"]["a"]["by"]), (["1", "2"], "SIGTERM"), done.stderr)
        words = ["kill a", "stop a", "restart a", "kill b", "restart b", "cont a"]
        self.assertEqual([one["words"] for one in self.summary()["acts"]], words)

    def test_a_stop_of_the_first_process_ends_nothing(self) -> None:
        """The first process is stopped for longer than its period of a second. Meanwhile the links carry out their acts, and report
        each moment."""
        self.file.write_text(
            f"main a echo begun > {self.folder}/told; sleep 2; echo ended\nhost b exec sleep 99\n{TWO.replace('c', 'b')}"
            "at 500ms stop b 300ms\n"
        )
        words = [*HINGE, "net", self.file, "--quiet", "--transcripts", self.folder / "out"]
        with subprocess.Popen(words, stdout=subprocess.PIPE, text=True) as net:
            until((self.folder / "told").exists)
            with stopped(int(Path(f"/proc/{net.pid}/task/{net.pid}/children").read_text().split()[0])):
                time.sleep(1.2)
            self.assertEqual((net.communicate()[0], net.returncode), ("ended\n", 0))
        begin, end = (one["moment"] for one in self.summary()["acts"])
        self.assertGreaterEqual(end - begin, 0.2 * 10**9)

    def test_the_main_command_begins_behind_all_others(self) -> None:
        """A kill at the main command's start therefore reaches every host, and no host starts later."""
        hosts = [f"h{number}" for number in range(40)]
        lines = [*(f"host {host} exec sleep 1000" for host in hosts), "main m sleep 1", *(f"link {host} m 5ms" for host in hosts)]
        done = self.net("\n".join([*lines, *(f"at main+1ms kill {host}" for host in hosts), ""]))
        self.assertEqual(done.returncode, 0, done.stderr)
        self.assertEqual({self.summary()["hosts"][host]["by"] for host in hosts}, {"kill"})

    def test_no_program_sees_a_stop(self) -> None:
        """With cgroups a shell doesn't learn that its child stopped, unlike with a signal."""
        if own_folder() is None or not os.access(str(own_folder()), os.W_OK):
            self.skipTest("this user may make no cgroup")
        told = f"import os; print(os.waitpid(-1, os.WUNTRACED)[1], file=open('{self.folder}/told', 'w'), flush=True)"
        done = self.net(
            f"host stopped exec python3 -c \"import os; os.posix_spawn('/bin/sleep', ['sleep', '1.5'], {{}}); {told}\"\nlink stopped c 5ms\n"
            f"main c sleep 0.6; until [ -s {self.folder}/told ]; do sleep 0.05; done\nat 200ms stop stopped 300ms\n"
        )
        self.assertEqual((done.returncode, self.lines()), (0, ["0"]), done.stderr)
        self.assertEqual(list(Path(str(own_folder())).glob("hinge-*-stopped")), [])

    def test_an_act_without_an_effect_ends_the_run(self) -> None:
        """None of the three programs that act on hosts takes an unknown word for another one."""
        self.file.write_text(f"host a exec sleep 99\nmain c sleep 9\n{TWO}at 100ms nap a\n")
        for is_write, more, told in (
            (False, [], "hinge net: nap: no act on a host"),
            (True, [], "hinge: act nap a 0: no line"),
            (False, ["--simulated"], "the simulated machine ended by itself: nap: Function not implemented"),
        ):
            words = [sys.executable, "-c", NAP % is_write, "net", self.file, *more]
            done = subprocess.run(words, capture_output=True, text=True, timeout=60)
            self.assertNotEqual(done.returncode, 0)
            self.assertIn(told, done.stderr)

    def test_a_net_without_a_main_command_lasts_until_a_restart(self) -> None:
        done = self.net(
            f"host a echo begun >> {self.folder}/told; [ $(wc -l < {self.folder}/told) -gt 1 ] || exec sleep 1000\nhost c\n{TWO}"
            "at 300ms kill a\nat 900ms restart a\n",
            "--quiet",
            "--no-realtime",
        )
        self.assertEqual(
            (done.returncode, done.stderr, self.lines()),
            (0, f"hinge net: a: ended with 0 after {self.summary()['hosts']['a']['after']:.1f} s\n", ["begun"] * 2),
        )

    def test_while_it_runs(self) -> None:
        net = Net(self.folder / "net")
        self.addCleanup(net.close)
        net.host("a", "echo begun; exec sleep 1000"), net.host("b"), net.link("a", "b", "1ms")

        def sleeps() -> int:
            return net.run("b", "cat /proc/[0-9]*/cmdline | tr '\\0' ' '").stdout.count("sleep 1000 ")

        net.start()
        until(lambda: net.output("a") == "begun\n")
        self.assertEqual([one.line for one in net.kill("a")], ["kill a"])
        self.assertEqual(sleeps(), 0)
        self.assertRaisesRegex(NetError, "kill: nothing runs on a; `restart a` begins its command", net.kill, "a")
        self.assertRaisesRegex(NetError, "kill: nothing runs on b$", net.kill, "b")
        net.restart("a")
        until(lambda: sleeps() == 1)
        until(lambda: net.output("a") == "begun\nbegun\n")
        net.stop("a"), net.stop("b")
        self.assertRaisesRegex(CommandFailed, "b is stopped: `cont b` lets it go on", net.run, "b", "true")
        net.cont("a"), net.cont("b"), net.run("b", "true")
        self.assertRaisesRegex(NetError, "heal: no cut of such a link goes on", net.heal, "a")
        self.assertRaisesRegex(NetError, "'z': no host of this net", net.kill, "z")
        self.assertRaisesRegex(NetError, "'b': it has no command that could begin again", net.restart, "b")
        net.cut("a", 1), net.heal("a")
        net.end()
        self.assertEqual(
            found("^#,act,(.*)", net.history.read_text()),
            ["kill a", "restart a", "stop a", "stop b", "cont a", "cont b", "heal a", "cut a 1s", "heal a"],
        )


@needs_rooms
@needs("ping")
class OfMoments(InAFolder):
    SLOW = "host a sleep 1; exec python3 -m http.server 7000\nmain c ping -c 5 -i 0.2 -W 1 -q a\nwait a port 7000\n" + TWO

    def test_a_change_before_the_main_command_is_told(self) -> None:
        done = self.net(self.SLOW + "at start+100ms cut a 200ms\nat 1h heal a\nat 10s cut a 2h\nat start+1h c a 6ms\n")
        self.assertEqual([way["lost"] for way in self.summary()["ways"]], [0, 0])
        self.assertEqual(
            found("before the main command, which began at [0-9.]+ s: (.*)", done.stderr), ["`at start+0.1s cut a 200ms`"]
        )
        self.assertEqual(
            found("CAUTION, not yet when the run ended: (.*)", done.stderr),
            ["`at 3600s heal a`, `at 10s cut a 2h`, `at start+3600s c a 6ms`"],
        )

    def test_a_change_behind_its_beginning(self) -> None:
        done = self.net(self.SLOW + "at 0s cut a 1h\n")
        self.assertNotIn("before the main", done.stderr)
        self.assertEqual((sum(way["lost"] for way in self.summary()["ways"]) > 0, done.returncode), (True, 1))
        cuts = found(r"^r,advanced,(\d+)\nc,0,configure,pipe 1 .* plr 1$", self.history())
        begun = self.summary()["main"]
        self.assertEqual(([int(one) for one in cuts], begun > 10**9), ([begun], True))

    def test_a_cut_that_begins_in_another_doesnt_end_it(self) -> None:
        hosts = "host n1\nhost n2\nmain n3 sleep 4\nlink n1 n2 5ms\nlink n1 n3 5ms\nlink n2 n3 5ms\n"
        done = self.net(hosts + "at 500ms cut n1 2s\nat 800ms cut n2 500ms\n")
        self.assertEqual(done.returncode, 0, done.stderr)
        lines = found(r"^c,0,configure,pipe ([15] config delay 5.*)$", self.history())[2:]
        self.assertEqual(lines, ["1 config delay 5 plr 1", "5 config delay 5 plr 1", "5 config delay 5", "1 config delay 5"])

    def test_what_a_nemesis_draws_is_told(self) -> None:
        text = (
            "host a exec sleep 99\nhost b exec sleep 99\nmain c sleep 1\nlink a b 1ms\nlink c a 1ms\n"
            "nemesis partition-one every 300ms for 100ms until 10s\n"
        )
        done = self.net(text, "--seed", "3")
        told = found("drawn: (at .*)", done.stderr)
        shown = hinge("net", self.file, "--dry-run", "--seed", "3").stdout.splitlines()
        self.assertGreaterEqual(len(told), 3)  # more where the main command ends late
        self.assertEqual(told, shown[shown.index("# by seed 3") + 1 :][: len(told)])
        self.assertEqual(found("^#,act,(.*)", self.history()), [line.split(" ", 2)[2] for line in told])
        self.assertEqual(found("^#,drawn,(.*)", self.history())[: len(told)], told)
