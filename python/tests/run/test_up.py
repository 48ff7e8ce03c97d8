"""`hinge up` and `hinge down`: nets in the background, by names. `hinge status --openmetrics`: a parser of the format reads the text and
finds the same content as in the JSON."""

import json
import os
import re
import shutil
import signal
import subprocess
import unittest
from typing import NamedTuple

import pytest

from in_a_folder import InAFolder
from linked import HINGE, Done, hinge, matching, needs, needs_host, needs_rooms, until
from with_folder import WithFolder

NET = "host a\nhost b\nlink a b 1ms\n"


class Named(WithFolder):
    def setUp(self) -> None:
        super().setUp()
        (self.folder / "run").mkdir()
        self.sockets = self.folder / "run" / "hinge"

    def hinge(self, *words: object) -> Done[str]:
        return hinge(*map(str, words), folder=self.folder, XDG_RUNTIME_DIR=str(self.folder / "run"))

    def up(self, text: str, *words: object) -> Done[str]:
        (self.folder / "x.net").write_text(text)
        self.addCleanup(self.hinge, "down", "x")
        return self.hinge("up", "x.net", *words)


@needs_rooms
@needs("ping", "pgrep")
class OfNets(Named):
    def test_a_net_by_its_name(self) -> None:
        done = self.up(NET, "--seed", 7)
        assert done.returncode == 0
        assert done.stdout == "x runs, and keeps what it does in x.session: hinge down x ends it\n"
        assert done.stderr == ""
        assert self.hinge("exec", "x", "a", "--", "ping", "-c", 1, "-q", "b").returncode == 0
        assert self.hinge("change", "x", "a", "b", "9ms").stdout.count("config delay 9") == 2
        assert [way["came"] for way in json.loads(self.hinge("status", "x").stdout)["ways"]] == [1, 1]
        again = self.hinge("up", "x.net")
        assert again.returncode == 2
        assert again.stderr == "hinge up: x runs already: hinge down x ends it, and --name gives another name\n"
        down = self.hinge("down", "x")
        assert (down.returncode, down.stderr, list(self.sockets.iterdir())) == (0, "", [])
        summary = json.loads((self.folder / "x.session" / "net.json").read_text())
        assert (summary["seed"], summary["status"], summary["ways"][0]["sent"]) == (7, 143, 1)
        assert "end," in (self.folder / "x.session" / "net.history").read_text()
        gone = self.hinge("down", "x")
        assert (gone.returncode, gone.stderr) == (2, "hinge down: x: no run has this name, from `hinge up` or --control\n")

    def test_it_outlives_its_command_and_ends_what_it_started(self) -> None:
        mark = f"{7000 + os.getpid() % 1000}.61"
        outer = f"net x.net --transcripts out .*--control {self.sockets}/x"
        for end in (lambda: self.hinge("down", "x"), lambda: os.kill(matching("-f", outer)[0], signal.SIGKILL)):
            assert self.up(f"host a exec sleep {mark}\nhost b\nlink a b\n", "--transcripts", "out").returncode == 0
            until(lambda: len(matching("-f", f"^sleep {mark}")) == 1)
            end()
            until(lambda: not matching("-f", f"^sleep {mark}"))
        assert self.up(NET).returncode == 0  # in the place of the socket that was left

    def test_ports_and_faults(self) -> None:
        text, silent = "host a exit 3\nhost b\nlink a b\nwait a port 7 1s", "a doesn't listen at port 7; its command ended with 3"
        done = self.up(text + "\n")
        assert (done.returncode, done.stderr.splitlines()[-1]) == (75, f"hinge up: void: {silent}")
        done = self.up(text + " optional\n")
        assert (done.returncode, done.stdout.splitlines()[0]) == (0, silent)
        self.hinge("down", "x")
        done = self.up("hots a\n")
        assert done.returncode == 2, done.stderr
        assert done.stderr.startswith("hinge up: x.net line 1: 'hots': not a word of a net"), done.stderr
        assert done.stdout == "", done.stderr
        done = self.up(NET, "--late", "soon", "--logs", "logs")
        assert (done.returncode, done.stderr) == (2, "hinge up: --late soon: not a duration (example: 600ms)\n")
        assert sorted(os.listdir(self.folder)) == ["run", "x.net", "x.session"]
        shutil.rmtree(self.folder / "x.session")
        for text, words in (("hots a\n", []), (NET, ["--end-wait", "soon"])):
            assert (self.up(text, *words).returncode, sorted(os.listdir(self.folder))) == (2, ["run", "x.net"])
        done = self.up(NET, "--name", "../x")
        assert (done.returncode, done.stderr) == (2, "hinge up: --name ../x: a name has letters, digits, dots and hyphens\n")

    def test_a_signal_while_it_waits_ends_the_net(self) -> None:
        (self.folder / "x.net").write_text("host a sleep 100\nhost b\nlink a b\nwait a port 7 100s\n")
        for number in (signal.SIGINT, signal.SIGTERM, signal.SIGHUP):
            env = {**os.environ, "XDG_RUNTIME_DIR": str(self.folder / "run")}
            with subprocess.Popen([*HINGE, "up", "x.net"], cwd=self.folder, env=env, stderr=subprocess.PIPE) as process:
                until(lambda: (self.sockets / "x").exists())
                process.send_signal(number)
                assert process.communicate()[1] == b""
            assert process.returncode in (-number, 128 + number)
            assert list(self.sockets.iterdir()) == []

    def test_a_log_is_no_link_and_no_pipe(self) -> None:
        folder, kept = self.folder / "x.session", self.folder / "kept"
        (folder / "logs").mkdir(parents=True)
        kept.write_text("kept")
        for log in (folder / "net.log", folder / "logs" / "a.log"):
            log.symlink_to(kept)
            done = self.up("host a echo begun\nhost b\nlink a b\n")
            told = done.stderr if log.name == "net.log" else (folder / "net.log").read_text()
            assert f"{log.relative_to(self.folder)}: Too many levels of symbolic links" in told
            self.hinge("down", "x")
            log.unlink()
        (folder / "net.log").unlink()
        os.mkfifo(folder / "net.log")
        done = self.up(NET)
        assert (done.returncode, done.stderr) == (6, "hinge up: x.session/net.log: No such device or address\n")
        assert kept.read_text() == "kept"

    @unittest.skipUnless(os.geteuid() == 0, "only root can give a file and a folder away")
    def test_a_log_and_a_folder_of_another_user(self) -> None:
        (self.folder / "x.session").mkdir(), self.sockets.mkdir(0o700)
        (log := self.folder / "x.session" / "net.log").write_text("")
        for path, status, told in (
            (log, 6, "x.session/net.log: it isn't a file of this user's"),
            (self.sockets, 2, f"{self.sockets}: it is another user's"),
        ):
            os.chown(path, 65534, 65534)
            done = self.up(NET)
            assert (done.returncode, done.stderr) == (status, f"hinge up: {told}\n")

    def test_what_a_fault_quotes_is_not_obeyed_by_a_terminal(self) -> None:
        done = self.up("host a\nhost b\nlink a b\n\x1b[31m\n")
        assert (done.returncode, "\x1b" in done.stderr, "\\x1b[31m" in done.stderr) == (2, False, True), done.stderr


@needs_host
class OfOthers(Named):
    def test_a_path_is_ended_by_its_socket(self) -> None:
        begun = subprocess.Popen(
            [*HINGE, "udp", "0", "9", "--quiet", "--control", str(self.folder / "socket")], stdout=subprocess.DEVNULL
        )
        until((self.folder / "socket").exists)
        assert self.hinge("down", self.folder / "socket").returncode == 0
        assert begun.wait(60) == 0


NAME, VALUE = r"[a-z][a-z0-9_]*", r"-?\d+(?:\.\d+)?(?:e-?\d+)?"
TYPE = re.compile(rf"# TYPE ({NAME}) (counter|gauge|summary)")
UNIT, TEXT = re.compile(rf"# UNIT ({NAME}) ({NAME})"), re.compile(rf"# HELP ({NAME}) (\S.*\S)")
SAMPLE = re.compile(rf'({NAME})(?:\{{((?:{NAME}="[^"\\]*")(?:,{NAME}="[^"\\]*")*)\}})? ({VALUE})')
LABEL = re.compile(rf'({NAME})="([^"]*)"')


class Sample(NamedTuple):
    family: str
    name: str
    labels: dict[str, str]
    value: float


def parsed(text: str) -> list[Sample]:
    """Parses these texts by the format's rules. ValueError: a rule is broken."""
    lines = text.split("\n")
    samples = list[Sample]()
    families = dict[str, str]()
    if lines[-2:] != ["# EOF", ""] or lines.count("# EOF") != 1:
        raise ValueError("no end")
    family, seen = "", set[str]()
    for line in lines[:-2]:
        if found := TYPE.fullmatch(line):
            family = found[1]
            if family in families:
                raise ValueError(f"{line}: twice")
            families[family] = found[2]
        elif found := UNIT.fullmatch(line) or TEXT.fullmatch(line):
            if found[1] != family or line.startswith("# UNIT") and not family.endswith("_" + found[2]):
                raise ValueError(line)
        elif found := SAMPLE.fullmatch(line):
            labels = dict(LABEL.findall(found[2] or ""))
            if found[1] != family + ("_total" if families[family] == "counter" else ""):
                raise ValueError(f"{line}: not of {family}")
            if ("quantile" in labels) != (families[family] == "summary") or line.rpartition(" ")[0] in seen:
                raise ValueError(line)
            seen.add(line.rpartition(" ")[0])
            samples.append(Sample(family, found[1], labels, float(found[3])))
        else:
            raise ValueError(line)
    return samples


def parsed_by_prometheus(text: str) -> list[Sample]:
    """Parses by Prometheus' client, if Debian's package is installed."""
    try:
        from prometheus_client.openmetrics.parser import text_string_to_metric_families
    except ImportError:
        return parsed(text)
    return [
        Sample(family.name, one.name, one.labels, one.value)
        for family in text_string_to_metric_families(text)
        for one in family.samples
    ]


@needs_rooms
@needs("ping")
class OfStatus(InAFolder):
    def told(self, text: str, words: str = "") -> tuple[list[Sample], dict[str, object]]:
        """Returns the status of a net as its main command sees it, in both forms."""
        ask = f"{' '.join(HINGE)} status {self.folder}/control"
        done = self.net(
            f"{text.replace('ASK', f'{ask} --openmetrics > {self.folder}/text; {ask} > {self.folder}/json')}",
            "--quiet",
            "--control",
            str(self.folder / "control"),
        )
        assert done.returncode == 0, done.stderr
        written = (self.folder / "text").read_text()
        assert parsed(written) == parsed_by_prometheus(written)
        return parsed(written), json.loads((self.folder / "json").read_text())

    def test_the_counts_of_each_way(self) -> None:
        samples, status = self.told(
            "host a exit 3\nmain b ! ping -c 3 -i 0.1 -W 1 -q a || exit 1; ping -c 2 -i 0.1 a; ASK\nlink a b\nloss b a"
            " up:list:1,2,3\n"
        )
        values = {(one.family, one.labels.get("from"), one.labels.get("quantile")): one.value for one in samples}
        assert [
            values[f"hinge_{name}", one, None]
            for name in ("came_packets", "sent_packets", "lost_packets", "came_bytes")
            for one in ("a", "b")
        ] == [2, 5, 2, 2, 0, 3, 168, 420]
        for way in status["ways"]:  # type: ignore[attr-defined]
            for name, key, scale in (
                ("came_packets", "came", 1),
                ("sent_bytes", "sent_bytes", 1),
                ("stayed_seconds", "stayed", 1e9),
                ("underway_packets", "underway", 1),
                ("system_dropped_packets", "system_drops", 1),
            ):
                assert values[f"hinge_{name}", way["from"], None] == way[key] / scale
            for quantile, key in (("0.5", "p50"), ("0.99", "p99"), ("0.999", "p99.9"), ("1", "max")):
                assert values["hinge_late_seconds", way["from"], quantile] * 1e3 == pytest.approx(way[f"late_{key}_ms"], abs=5e-7)
        assert Sample("hinge_ended_status", "hinge_ended_status", {"host": "a"}, 3) in samples

    def test_the_two_ways_of_a_run(self) -> None:
        ask = f"{' '.join(HINGE)} status {self.folder}/control --openmetrics"
        done = hinge("run", "--quiet", "--control", self.folder / "control", "--", "sh", "-c", f"ping -c 1 -q server >&2; {ask}")
        samples = parsed(done.stdout)
        assert samples == parsed_by_prometheus(done.stdout)
        assert [(one.labels, one.value) for one in samples if one.name == "hinge_sent_packets_total"] == [
            ({"way": "up"}, 1),
            ({"way": "down"}, 1),
        ]

    def test_the_parser_finds_what_is_wrong(self) -> None:
        good = '# TYPE hinge_x_packets counter\n# UNIT hinge_x_packets packets\nhinge_x_packets_total{way="up"} 1\n# EOF\n'
        assert len(parsed(good)) == 1
        for old, new in (("_total", ""), ("# EOF\n", ""), (" 1\n", " one\n"), (" packets\n", " bytes\n"), ("{way", "{wAy")):
            pytest.raises(ValueError, parsed, good.replace(old, new))
