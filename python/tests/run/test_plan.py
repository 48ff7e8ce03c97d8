"""Words and files become a plan, without privileges or a host."""

import argparse
import contextlib
import io
import shutil
import subprocess
import tempfile
import unittest

from pathlib import Path

from hinge.command import Fault
from hinge.commands import net, run
from hinge.program import dummynet
from hinge.command_line import Parser
from hinge.run.options import add_link, add_run
from hinge.run.plan_of_options import plan_of
from hinge.run.page import BINS, COUNTS, ENDED_WELL, HEAD, WAY, Counts, Times
from hinge.run.plan import Plan
from hinge.run.settings import LiveOptions, NetOptions, RunOptions
from hinge.run.summary import cautions, line, void
from hinge.run.transcripts import AUDITED, lines_about_files
from hinge.run.words import Wrong, duration
from net_files import OfFiles


class Words(unittest.TestCase):
    def test_changes_without_words_and_numbers_of_any_length(self) -> None:
        plan = Plan()
        plan.link("pipe 1 config")
        for words in ("", "up", "down # nothing"):
            with self.subTest(words), self.assertRaisesRegex(Wrong, "no words of a link"):
                plan.read(words, 1)
        plan.read(f"pipe {'9' * 5000} config", 1)
        for text in ("9" * 5000, "0,1\n" + "9" * 5000):
            (path := Path(tempfile.mkdtemp()) / "trace").write_text(text)
            with self.assertRaises(Fault):
                plan.trace(0, str(path), None, 1)
            shutil.rmtree(path.parent)

    def test_times(self) -> None:
        assert [duration(text) for text in ("5s", "600ms", "0.5", "2min")] == [5 * 10**9, 6 * 10**8, 5 * 10**8, 120 * 10**9]
        for text in ("x", "5 s", "-1s", "1e3s", "9999999h", ""):
            self.assertRaises(Wrong, duration, text)

    def test_rules_that_are_wrong(self) -> None:
        plan = Plan()
        plan.link("pipe 1 config")
        rules = "tcp|=> queue x|tcp => queue 1|tcp port => pipe 1|foo => pipe 1|port 9-1 => pipe 1|dst 10.0.0.0/33 => pipe 1"
        for rule in rules.split("|"):
            self.assertRaises(Wrong, plan.rule, rule)

    def test_losses_that_are_wrong(self) -> None:
        for text in ("gilbert:1", "gilbert:0.1,2", "list:", "list:0", "list:5-3", "list:1-99999999", "random:1", "gilbert:nan,1"):
            self.assertRaises(Wrong, Plan().loss, text)

    def test_shares_of_times(self) -> None:
        bins = [0] * BINS
        bins[3], bins[20], bins[40] = 98, 1, 1  # 3 us, 20 us, 48 to 49 us
        assert [Times(tuple(bins), 10**9).within(share) for share in (0.5, 0.99, 1)] == [0.004, 0.021, 0.05]


class OfOptions(OfFiles):
    def test_each_option_has_a_field(self) -> None:
        """The options without a field print something and end."""
        for parser, kind, more in ((run.options(), RunOptions, {"more_files"}), (net.options(), NetOptions, {"command"})):
            named = {action.dest for action in parser._actions if action.default != argparse.SUPPRESS}
            assert named | more == {name for one in kind.__mro__ for name in vars(one).get("__annotations__", ())}

    def configured(self, *words: str) -> list[str]:
        return self.planned(*words).configured

    def planned(self, *words: str) -> Plan:
        parser = Parser()
        add_link(parser), add_run(parser.add_argument_group("the run"))
        return plan_of(LiveOptions(**vars(parser.parse_args(words)), more_files=()), 1500)

    def test_the_order_of_lines(self) -> None:
        """Queues can use the pipes of --up and --down, which precede lines that configure the same pipe; unnamed pipes are open."""
        queue, up = "queue 1 config pipe 1 weight 3", "pipe 1 config bw 10Mbit/s"
        assert self.configured("--line", queue, "--up", "10Mbit/s") == [up, queue, "pipe 2 config"]
        file = self.file(f"pipe 1 config delay 3\n{queue}  # of it\n")
        assert self.configured("--config", file, "--up", "10Mbit/s", "--down", "5ms") == [
            "pipe 2 config delay 5ms",
            "pipe 1 config delay 3",
            queue,
            up,
        ]
        assert self.configured("--line", queue) == [queue, "pipe 1 config", "pipe 2 config"]

    def test_a_loss_by_words_and_a_queue(self) -> None:
        rule = ("--map", "udp => queue 7", "--line")
        for words in (("--up", "loss 2%"), ("--preset", "bad")):
            self.assertRaisesRegex(Wrong, "plr 0.0?[12]`, or `plr 0`", self.configured, *words, *rule, "queue 7 config pipe 1")
            self.configured(*words, *rule, "queue 7 config pipe 1 plr 0")
            self.configured(*words, *rule, "queue 7 config pipe 2 plr 0")

    def test_a_queue_without_a_loss_later_by_a_timeline_and_by_hinge_change(self) -> None:
        """If the words of its direction state a loss, each line for the queue must state one, whichever comes first."""
        queue, wrong = "queue 7 config pipe 1", "the link's loss .* write `plr 0.02`"
        begin = ["--map", "up udp => queue 7", "--line", f"{queue} plr 0", "--timeline"]
        for text in (f"2s up loss 2%\n1s {queue}\n", f"1s {queue}\n2s up loss 2%\n"):
            self.assertRaisesRegex(Wrong, f"line 2: {wrong}", self.configured, *begin, self.file(text))
        for first, second in ((queue, "up loss 2%"), ("up loss 2%", queue)):
            plan = self.planned(
                *begin, self.file(f"2s up loss 0%\n3s {queue} plr 0.1\n5s pipe 1 config plr 0.1\n5s down loss 2%\n")
            )
            for _ in range(2):
                plan.read(first, 1), plan.read(f"{queue} plr 0.5", 2)
                self.assertRaisesRegex(Wrong, wrong, plan.read, second, 3)

    def test_a_preset_is_for_what_nothing_else_says(self) -> None:
        up, down = "pipe 1 config bw 384Kbit/s delay 25ms queue 10", "pipe 2 config bw 1500Kbit/s delay 25ms queue 30"
        assert self.configured("--preset", "dsl") == [up, down]
        assert self.configured("--preset", "dsl", "--up", "5ms") == ["pipe 1 config delay 5ms", down]
        assert self.configured("--preset", "dsl", "--line", "pipe 2 config") == [up, "pipe 2 config"]

    def test_the_presets_are_printed(self) -> None:
        out = io.StringIO()
        with contextlib.redirect_stdout(out), self.assertRaises(SystemExit) as ended:
            self.configured("--list-presets")
        assert (ended.exception.code, out.getvalue().split()[:3]) == (0, ["preset", "up", "down"])


class Cautions(unittest.TestCase):
    def counts(self, us: int) -> Counts:
        """Returns the counts for a hundred packets up, each late by this many us, less than 32."""
        values = [0] * len(COUNTS)
        values[COUNTS.index("came")], values[COUNTS.index("late_most")] = 100, us * 1000
        bins = [0] * (WAY - len(COUNTS))
        bins[us] = 100
        return Counts((ENDED_WELL, *[0] * (len(HEAD) - 1), *values, *bins, *[0] * WAY))

    def test_a_run_that_was_late_by_a_part_of_its_least_delay(self) -> None:
        """A tenth of 1 ms is 100 us; bins end above their time."""
        plan = "line pipe 1 config bw 8000bit/s delay 20\nline pipe 2 config delay 1\nline pipe 3 config delay 0\n"
        assert cautions(self.counts(30), [0, 0], plan) == []
        assert cautions(self.counts(30), [2, 0], plan) == [
            "CAUTION, this machine was too busy: up: the system dropped 2 packets before the link and 0 behind it",
            "--late 0.1ms makes such a run void",
        ]
        slow = self.counts(30)
        slow.ways[0].late = Times((*[0] * 135, 100, *[0] * (BINS - 136)), 3_000_000)
        assert cautions(slow, [0, 0], plan) == [
            "CAUTION, this machine was too busy: up: the p99 of `late`, 3.000 ms, is above the limit of 0.1 ms",
            "--late 0.1ms makes such a run void",
        ]
        assert cautions(slow, [0, 0], "line pipe 1 config delay 50\n") == []
        assert cautions(slow, [0, 0], "line pipe 1 config\n") == []

    def test_a_stall_isnt_lost_among_many_packets(self) -> None:
        """One packet of a hundred thousand is 300 ms late, in a run of ten seconds or of a hundred."""
        for seconds, wanted in (
            (10, ["up: `unread` was above the limit of 5 ms in more than 1 % of the time (max 300.000 ms)"]),
            (100, []),
        ):
            values = [100_000 if name == "came" else 300_000_000 if name == "unread_most" else 0 for name in COUNTS]
            late, unread, late_time, unread_time = ([0] * BINS for _ in range(4))
            unread[0], unread[242], unread_time[242] = 99_999, 1, 300_000_000
            head = [ENDED_WELL, seconds * 10**9, *[0] * (len(HEAD) - 2)]
            counts = Counts((*head, *values, *late, *unread, *late_time, *unread_time, *[0] * WAY))
            assert void(counts, [0, 0], 5.0) == wanted

    def test_a_good_run_is_one_line_without_lateness(self) -> None:
        wanted = "up: 100 came, 0 delivered, 0 lost, 0 met a full queue, 100 under way"
        assert line(self.counts(3), [0, 0]) == f"{wanted}; down: nothing came"
        dropped = "the system dropped 2 before the link and 0 behind it"
        assert line(self.counts(3), [0, 2]) == f"{wanted}; down: nothing came, {dropped}"


class OfTranscripts(OfFiles):
    def test_what_is_told_of_long_ones(self) -> None:
        """If a file is too long for an immediate audit, the summary contains the command for one, and otherwise nothing."""
        path = self.file("dummynet-live,1\n#" + "x" * 100 + "\nend,0\n")
        with open(path, "r+b") as file:
            assert list(lines_about_files(path, 1)) == []
            file.seek(AUDITED - 1)
            file.write(b"\n")
        assert list(lines_about_files(path, 1)) == []
        with open(path, "ab") as file:
            file.write(b"\n")
        [line] = lines_about_files(path, 1)
        size, command = AUDITED + 1, line.rpartition(": ")[2]
        assert (line.partition(",")[0], command) == (f"{path} has {size} bytes", f"dummynet audit --most-history {size} {path}")
        refused, read = (
            subprocess.run([dummynet(), *words], capture_output=True, text=True) for words in (["audit", path], command.split()[1:])
        )
        assert (refused.stderr, refused.returncode) == ("history too long\n", 6)
        assert "too long" not in read.stderr
