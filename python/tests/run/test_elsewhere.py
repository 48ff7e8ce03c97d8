"""hinge's answers to other tools' commands and options: each answer is accepted unchanged."""

import contextlib
import io
import os
import re
import shlex
import shutil
import subprocess
import sys
import unittest
from concurrent.futures import ThreadPoolExecutor
from functools import partial
from itertools import product
from pathlib import Path
from typing import Any, Optional
from unittest import mock

import pytest

from hinge.__main__ import COMMANDS
from hinge.commands.docs import folder_of_pages
from hinge.commands.run import options
from hinge.foreign import replacement_of
from hinge.foreign_options import LINK_OPTIONS, FOREIGN_OPTIONS
from hinge.foreign_words import WORDS
from hinge.run import hints as hints_of_run
from hinge.run.hints import far_host, hints, lacking, link_as_command
from hinge.run.plan_of_options import plan_of
from hinge.run.settings import RunOptions
from hinge.run.words import Wrong, read_link_words
from hingetulip_words.link import Place, corrected
from linked import needs, needs_rooms
from with_folder import WithFolder

PYTHON = Path(__file__).resolve().parents[2]
DATA = Path(__file__).resolve().parents[1] / "kit_data"
FOREIGN = [line.split("  =>  ") for line in (DATA / "foreign.txt").read_text().splitlines()]  # lines, and what is said of each
CORRECTED = {
    "rate 10mbit delay 20ms loss 1% limit 100": "10Mbit/s 20ms queue 100 loss 1%",
    "delay 100ms 10ms": "90ms jitter 20ms",
    "netem delay 50ms loss 0.3%": "50ms loss 0.3%",
    "bandwidth 5mbit latency 30ms": "5Mbit/s delay 30ms",
    "bw=1Mbit/s delay=5ms": "bw 1Mbit/s delay 5ms",
    "bandwidth=5mbit latency=30": "5Mbit/s delay 30",
    "20ms limit 30 rate 1mbit": "20ms queue 30 1Mbit/s",
    "2% 20ms": "loss 2% 20ms",
    "30pkts 5Mbit/s": "queue 30 5Mbit/s",
    "10Mbit/s 20ms buffer 64KB": "10Mbit/s 20ms queue 64KB",
    "20ms±5ms": "15ms jitter 10ms",
    "20ms +- 5ms 10M": "15ms jitter 10ms 10Mbit/s",
}


def run_options(words: list[str]) -> RunOptions:
    return RunOptions(**vars(options().parse_args(words)), more_files=())


def refused(words: list[str]) -> str:
    """Returns the command line's message on words that it refuses."""
    said = io.StringIO()
    with contextlib.redirect_stderr(said), contextlib.suppress(SystemExit):
        options().parse_args(words)
    return said.getvalue()


class Lines(unittest.TestCase):
    def test_a_whole_line_gets_a_whole_line_or_why_there_is_none(self) -> None:
        """Each advised line is accepted unchanged: the parser reads the words after `hinge run`, and the readers of links read the
        links."""
        assert len(FOREIGN) > 100
        for line, wanted in FOREIGN:
            with self.subTest(line):
                answer = replacement_of(shlex.split(line))
                assert (answer and answer.text()) == wanted
                words = shlex.split(re.sub(r"\$\(.*?\)", "PID", answer.write if answer else "").replace("sudo ", ""))
                if words[:2] == ["hinge", "run"] and "--up-trace" not in words:
                    plan_of(run_options(words[2:]), 1500)

    def test_a_line_with_another_word_in_it_gets_a_line_that_is_taken_or_none(self) -> None:
        """A rate stands for a file, a share is above all packets, a variable is empty, an option stands behind `--`, a word lacks."""
        lines = set[str]()
        for words in (shlex.split(line) for line, _ in FOREIGN):
            for place, other in product(range(len(words)), (["10Mbps"], ["200%"], [""], ["--"], ["--", "10ms"], [])):
                variant = [*words[:place], *other, *words[place + 1 :]]
                answer = replacement_of(variant) if variant and variant[0] else None
                lines.add(answer.write if answer else "")
        for line in sorted(lines):
            own = shlex.split(line.replace("sudo ", ""))
            if own[:2] == ["hinge", "run"] and "-trace" not in line:
                with self.subTest(line):
                    run = run_options(own[2:])
                    plan_of(run, 1500)
                    assert link_as_command(run.command) is None
        assert len(lines) > 300

    def test_no_line_gets_a_link_that_nobody_asked_for(self) -> None:
        for line, told in FOREIGN:
            if " 10Mbit/s 20ms" in told or "bw 10Mbit/s" in told:
                assert "an example" in told or "10M" in line or "queue" in line or len(line.split()) == 1, (line, told)

    def test_words_are_answered_by_commands_that_are_there(self) -> None:
        for word, answer in WORDS.items():
            with self.subTest(word):
                assert word not in COMMANDS
                write = answer.write.replace("sudo ", "").replace("LD_PRELOAD=$(", "").replace(")", " ")
                first, *words = write.replace(",", "").replace(";", "").split()
                assert first in ("hinge", "dummynet", "./install")
                assert first != "hinge" or words[0] in (*COMMANDS, "--version"), answer.write
        assert replacement_of(["frobnicate"]) is None

    def test_pages_are_there(self) -> None:
        for page in {answer.page for answer in WORDS.values() if answer.page}:
            assert (folder_of_pages() / f"{page}.md").exists(), page


PROGRAMS = {  # of a folder in which answers are typed
    **dict.fromkeys(("COMMAND", "chromium", "iperf3", "curl"), "exit 0"),
    "sudo": 'exec "$@"',
    "hinge": f'PYTHONPATH={PYTHON} exec {sys.executable} -m hinge "$@"',
}
FILES = {
    **dict.fromkeys("up.trace down.trace up down 12Mbps.up 12Mbps.down a b u d".split(), "1\n2\n"),
    "FILE": "host a true\nhost b true\nlink a b 1ms\n",
    "NAME.net": "host HOST exec sleep 600\nhost h1\nhost s1\nlink HOST h1 1ms\nlink h1 s1 1ms\n",
}


def typed(place: Path, text: str) -> Optional[str]:
    """Types an answer unchanged; returns why it fails, if it does."""
    env = {**os.environ, "PATH": f"{place}/bin:{os.environ['PATH']}", "XDG_RUNTIME_DIR": str(place / "run")}
    how: dict[str, Any] = {"stdin": subprocess.DEVNULL, "stdout": subprocess.DEVNULL, "stderr": subprocess.PIPE, "text": True}
    done = subprocess.run(["sh", "-c", text], cwd=place, env=env, timeout=100, **how)
    return f"{text}: {done.returncode} {done.stderr}" if done.returncode else None


@needs_rooms
@needs("slirp4netns")
class Typed(WithFolder):
    def setUp(self) -> None:
        super().setUp()
        for name in ("bin", "run"):
            (self.folder / name).mkdir()
        for name, text in {**FILES, **{f"bin/{name}": f"#!/bin/sh\n{text}\n" for name, text in PROGRAMS.items()}}.items():
            (self.folder / name).write_text(text)
            (self.folder / name).chmod(0o755)
        shutil.copy(DATA / "mixed.pcap", self.folder / "CAPTURE")
        for text in ("hinge try --transcript HISTORY", "hinge up NAME.net"):
            assert typed(self.folder, text) is None
        self.addCleanup(typed, self.folder, "hinge down NAME")

    def test_a_hundred_lines_of_other_manuals_get_what_works_as_it_stands(self) -> None:
        answers = [replacement_of(shlex.split(line)) for line, _ in FOREIGN]
        # One of --container joins a network of another process: test_joined has one.
        texts = [answer.write for answer in answers if answer and answer.write and "--container" not in answer.write]
        each = [text for text in dict.fromkeys(texts) if not text.startswith("hinge down")]
        # A host that another line has stopped takes no command.
        faults = {text: typed(self.folder, text) for text in each if "hinge exec" in text}
        others = [text for text in each if text not in faults]
        with ThreadPoolExecutor(4) as pool:
            faults.update(zip(others, pool.map(partial(typed, self.folder), others)))
        faults["hinge down NAME"] = typed(self.folder, "hinge down NAME")
        assert [] == [*filter(None, faults.values())]


class Links(unittest.TestCase):
    def test_a_text_is_corrected_whole(self) -> None:
        for text, wanted in CORRECTED.items():
            with self.subTest(text):
                assert corrected(text) == wanted

    def test_one_that_means_no_link_stays(self) -> None:
        for text in ("nonsense", "100us", "10 20", "red 1/2/3", "delay 9ms 1ms distribution normal", "netem delay 5ms loss 1% 25%"):
            assert corrected(text) is None

    def test_a_refusal_has_the_whole_text(self) -> None:
        with pytest.raises(Wrong) as refusal:
            read_link_words("10mbit 20ms jitter 5ms", "--up", Place.RUN)
        assert str(refusal.value).endswith("; in full: '10Mbit/s 20ms jitter 5ms'"), refusal.value


class Options(unittest.TestCase):
    def test_each_foreign_option_says_what_is_taken(self) -> None:
        values = dict(
            word.split("=")
            for word in "jitter=5ms limit=30 queue=30 target-bw=1000 plr=0.1 rate=1mbit bandwidth=10Mbps bw=56k speed=1Gbit/s"
            " duplicate=1 rtt=4".split()
        )
        for option in LINK_OPTIONS:
            with self.subTest(option):
                said = refused([option, values.get(option[2:], "5"), "true"])
                words = shlex.split(said.partition(": write ")[2].partition("; ")[0])
                assert words[0] == "--link", said
                plan_of(run_options([*words, "true"]), 1500)
        for option, (_, has_value) in FOREIGN_OPTIONS.items():
            with self.subTest(option):
                said = refused([option, *(["5"] if has_value else []), "true"])
                assert f"{option}: write " in said
                for text in re.findall("--map '.*' --line '.*?'", said):
                    plan_of(run_options([*shlex.split(text.replace("RULE", "tcp")), "true"]), 1500)

    def test_all_foreign_options_of_a_line_get_one_answer(self) -> None:
        for words, wanted in (
            ("--rate 10mbit --delay 100ms", "--rate, --delay: write --link '10Mbit/s 100ms'"),
            ("--link 10Mbit/s --delay 100ms --loss x", "--delay: write --link '10Mbit/s 100ms'"),
            ("--delay 100ms --loss 5%", "--delay, --loss: write --link '100ms loss 5%'"),
            *((f"--loss {text}", f"--loss: write --link 'loss {share}%'") for text, share in (("0.05", 5), ("5", 5), (".5%", 0.5))),
            ("--bw 1MB/s", "--bw: write --link 8Mbit/s"),
            ("--link 20ms --rtt 50ms", "--rtt: leave this out, as the link says '20ms'"),
            ("--rtt 40ms --pcap f", "--rtt, --pcap: write --link 20ms --transcript f, which `hinge look` draws"),
            ("--rtt 45ms", "--rtt: no link does: delay 22.5ms, as a link has whole milliseconds"),
            ("--duration 10s", "--duration: write timeout 10s before hinge, or --real-limit 10s of simulated time"),
            ("--trace f", "--trace: write --up-trace f --down-trace f"),
        ):
            assert f"error: {wanted}\n" in refused([*words.split(), "true"])

    def test_both_ways(self) -> None:
        assert "5ms" == run_options(["--link", "5ms", "--down", "7ms", "true"]).up
        assert "7ms" == run_options(["--down", "7ms", "--link", "5ms", "true"]).down

    def test_words_of_a_link_in_the_place_of_the_command(self) -> None:
        assert "'10Mbit/s' isn't a command; write --link '10Mbit/s 20ms' -- ping server" == link_as_command(
            ["10Mbit/s", "20ms", "--", "ping", "server"]
        )
        assert link_as_command(["true", "--", "x"]) is None
        assert link_as_command(["no-such-program"]) is None

    def test_what_a_command_lacks_is_one_line(self) -> None:
        ways = "apt-get install iputils-ping; touch /none"
        for hosts, path, words, wanted in (
            ("/etc/hosts", "", ["ping", "-c", "3", "server"], "there is no ping: apt-get install iputils-ping"),
            ("/none", "", ["ping", "server"], f"there is no ping and no /none: {ways}"),
            ("/none", "/usr/bin:/bin", ["sh", "-c", "nc server 80"], "there is no /none: touch /none"),
            ("/none", "", ["nosuch", "10.8.0.2"], "there is no nosuch on the path"),
            ("/none", "", ["./nosuch"], None),
        ):
            with mock.patch.dict(os.environ, {"PATH": path}), mock.patch.object(hints_of_run, "HOSTS", hosts):
                assert lacking(words) == wanted


class Hints(unittest.TestCase):
    def test_a_run_without_a_link_says_so(self) -> None:
        assert 1 == len([*hints(run_options(["true"]))])
        for words in (["--link", "5ms"], ["--preset", "lte"], ["--line", "pipe 1 config"], ["--quiet"]):
            assert [] == [*hints(run_options([*words, "true"]))], words

    def test_a_host_that_is_not_behind_the_link(self) -> None:
        for command, wanted in (
            ("ping -c 3 8.8.8.8", "8.8.8.8"),
            ("curl -s https://example.com/a", "example.com"),
            ("/usr/bin/ssh me@host.example", None),
            ("ping server", None),
            ("ping -i 0.2 10.8.0.2", None),
            ("curl http://server:8000/", None),
            ("./client example.com", None),
            ("curl http://[2001:db8::1]:80/", "2001:db8::1"),
            ("wget example.com", "example.com"),
        ):
            with self.subTest(command):
                assert far_host(command.split()) == wanted
