"""`hinge` itself: help and version, a word that is no command, the programs that it accepts, the completion of its command line, typed
in a terminal of bash and of zsh. hinge doctor: each line says yes, or no with why, and the last one installs what is missing.
hinge try: a first look by Python alone. Its transfer is lawful, whole and the same each time."""

import contextlib
import importlib
import io
import os
import pty
import re
import shutil
import subprocess
import sys
import unittest
from pathlib import Path
from unittest import mock

import hinge
from hinge import command as frame
from hinge.__main__ import COMMANDS
from hinge.commands import doctor
from hinge.commands.doctor import TRIALS, Finding, first_words, install, line_of, modules, outside, users
from hingetulip import audit
from hingetulip_words.presets import PRESETS, preset
from kit import MIXED, TOP, folder, run, write
from with_folder import WithFolder

PACKAGE = Path(hinge.__file__).resolve().parent
TELLS = "from hinge import program, version; print(version.version(), program.dummynet())"


class Help(unittest.TestCase):
    def test_a_help_loads_nothing_that_looks(self) -> None:
        """So that it comes at once, and needs no package."""
        for command in ("look", "why", "packets", "ipfw", "run"):
            script = (
                f"import sys; sys.modules['numpy'] = None; sys.argv = ['hinge', '{command}', '--help']; import atexit; "
                "atexit.register(lambda: print([name for name in sys.modules if name.startswith('hinge.pictures')])); "
                "from hinge.__main__ import main; main()"
            )
            told = subprocess.run([sys.executable, "-c", script], capture_output=True, text=True)
            assert (told.returncode, told.stdout.splitlines()[-1], told.stderr) == (0, "[]", ""), command

    def test_standard_input_is_a_file(self) -> None:
        packets = write(
            "in.csv", "moment,target,number,src,dst,proto,sport,dport,len,word\n0,pipe,1,10.0.0.1,10.0.0.2,17,1,2,1000,0\n"
        )
        report = write("in.report", "event,row,flow,packet,at,start,due\nout,1,0,0,0,0,5\n")
        plain = run("look", packets, report).stdout
        assert "udp 10.0.0.1:1 > 10.0.0.2:2" in plain
        assert run("look", packets, "-", input=report.read_text()).stdout == plain
        assert run("look", "-", report, input=packets.read_text()).stdout == plain

    def test_help_lists_the_commands(self) -> None:
        told = run("help")
        assert (told.returncode, told.stderr) == (0, "")
        assert "\n  packets     a capture as a packet file\n" in told.stdout
        assert told.stdout == run("--help").stdout

    def test_each_help_fits_a_terminal_and_ends_with_an_example_and_the_statuses(self) -> None:
        assert len(COMMANDS) == 18
        for name in COMMANDS:
            out, words = io.StringIO(), {"argv": ["hinge", "--help"]}
            with mock.patch.multiple(sys, **words), mock.patch.dict(os.environ, COLUMNS="80"), contextlib.redirect_stdout(out):
                with self.assertRaises(SystemExit) as end, mock.patch.object(frame, "NAME", [f"hinge {name}"]):
                    importlib.import_module(f"hinge.commands.{name}").main()
            text = out.getvalue()
            assert end.exception.code == 0, name
            assert [line for line in text.splitlines() if len(line) > 80] == [], name
            *_, example, statuses = text.strip().split("\n\n")
            assert re.search(rf"^example:\n  (sudo .*&& )?hinge {name}\b|^example:\n(.*\n)*  hinge {name}\b", example), name
            assert statuses.startswith("exit status: "), name

    def test_help_of_a_command_is_its_own(self) -> None:
        assert run("help", "why").stdout == run("why", "--help").stdout

    def test_the_pages_are_named_and_shown(self) -> None:
        pages = {page.stem: page.read_text(encoding="utf-8") for page in sorted((TOP / "docs").glob("*.md"))}
        told = run("docs")
        assert (told.returncode, told.stderr) == (0, "")
        for name, text in pages.items():
            assert re.search(f"(?m)^  {name} +{re.escape(text.splitlines()[0][2:])}$", told.stdout)
        for asked in ("LIVE", "live", "docs/LIVE.md"):
            assert run("docs", asked).stdout == pages["LIVE"]
        for older, now in (("formats", "FILES"), ("CONFIG.md", "LINKS"), ("FAULTS", "NET")):
            assert run("docs", older).stdout == pages[now]
        wrong = run("docs", "LIVES")
        assert (wrong.returncode, wrong.stderr) == (2, "hinge docs: no page 'LIVES'; write hinge docs LIVE\n")

    def test_each_page_that_a_help_names_is_there(self) -> None:
        """The check uses `hinge docs`, since an installation contains no folder docs/."""
        pages = {page.stem for page in (TOP / "docs").glob("*.md")}
        named = 0
        for command in COMMANDS:
            told = run(command, "--help").stdout
            assert "docs/" not in told.replace("\n", " "), command
            found = re.findall(r"hinge docs ([A-Z]+)", " ".join(told.split()))
            named += len(found)
            assert set(found) <= pages | {"NAME"}, command
        assert named > 3

    def test_no_word_is_a_wrong_command_line(self) -> None:
        told = subprocess.run([sys.executable, "-m", "hinge"], capture_output=True, text=True)
        assert (told.returncode, told.stdout, told.stderr) == (2, "", run("help").stdout)

    def test_a_word_that_is_no_command(self) -> None:
        told = run("packet")
        assert (told.returncode, told.stdout, told.stderr) == (2, "", "hinge: no command 'packet'; did you mean `hinge packets`?\n")
        assert run("help", "xyz").stderr == "hinge: no command 'xyz'; `hinge help` lists the commands.\n"
        for word in ("stats", "picture", "paths", "through", "with-clock"):
            assert re.search(rf"^hinge: no command '{word}'; write (hinge look|LD_PRELOAD=)", run(word, "x").stderr), word

    def test_an_option_that_is_none_is_answered_by_the_one_that_is_near(self) -> None:
        for words, near in (
            (["run", "--presett", "lte", "--", "true"], "--presett; did you mean --preset?"),
            (["look", "x", "--tp=4"], "--tp=4; did you mean --top?"),
            (["packets", "x", "--output", "y"], "--output y; did you mean -o?"),
            (["search", "x.net", "--sed", "1"], "--sed 1; did you mean --seeds?"),
            (["check", "x", "--output", "y"], "--output y; `hinge help check` lists the options"),
            (["run", "--rata", "5", "--", "true"], "--rata; `hinge help run` lists the options"),
        ):
            done = run(*words)
            assert (done.returncode, done.stderr.splitlines()[-1].split("arguments: ")[1]) == (2, near)

    def test_the_version_is_that_of_the_file(self) -> None:
        version = (PACKAGE.parents[1] / "VERSION").read_text()
        assert (run("--version").stdout, run("-V").stdout) == (f"hinge {version}",) * 2


class Programs(WithFolder):
    """A package installed in a separate prefix, without a clone around it."""

    def setUp(self) -> None:
        super().setUp()
        self.prefix, self.other = self.folder / "prefix", self.folder / "other"
        modules = self.prefix / "lib" / "python"
        shutil.copytree(PACKAGE, modules / "hinge", ignore=shutil.ignore_patterns("__pycache__"))
        (modules / "hinge" / "VERSION").write_text("9.8.7\n")
        for place in (self.prefix / "bin", self.other):
            place.mkdir()
            (place / "dummynet").write_text("#!/bin/sh\n")
            (place / "dummynet").chmod(0o755)
        self.env = {
            **{name: value for name, value in os.environ.items() if name != "DUMMYNET"},
            "PYTHONPATH": str(modules),
            "PATH": str(self.other),
        }

    def told(self, **env: str) -> str:
        words, found = [sys.executable, "-c", TELLS], {**self.env, **env}
        done = subprocess.run(words, env=found, cwd=self.prefix, capture_output=True, text=True)
        return done.stdout or done.stderr.splitlines()[-1]

    def test_the_one_that_was_installed_goes_before_the_path(self) -> None:
        assert self.told() == f"9.8.7 {self.prefix}/bin/dummynet\n"

    def test_the_path_where_none_was_installed(self) -> None:
        (self.prefix / "bin" / "dummynet").unlink()
        assert self.told() == f"9.8.7 {self.other}/dummynet\n"

    def test_the_variable_goes_before_all(self) -> None:
        assert self.told(DUMMYNET=f"{self.other}/dummynet") == f"9.8.7 {self.other}/dummynet\n"
        told = self.told(DUMMYNET=str(self.other))
        assert told.endswith(f"DUMMYNET names {self.other}, which isn't a program")


COMPLETION = TOP / "tools" / "release" / "hinge-completion.bash"
LOADED = {"bash": ". ./hinge-completion.bash", "zsh": "fpath=($PWD $fpath); autoload -Uz compinit; compinit -D -u"}
QUIET = {"bash": ["--norc", "--noprofile", "-i"], "zsh": ["-f", "-i"]}
TYPED = {
    "hinge ru": "hinge run x",
    "hinge help doct": "hinge help doctor x",
    "hinge run --preset 3": "hinge run --preset 3g x",
    "hinge run --simul": "hinge run --simulated x",
    "hinge docs EMB": "hinge docs EMBEDDING x",
    "hinge status two": "hinge status twohosts x",
    "hinge exec twohosts ro": "hinge exec twohosts router x",
    "hinge change twohosts rest": "hinge change twohosts restart x",
    "hinge look mixed": "hinge look mixed.pcap x",
}
HINGE = f"""#!/bin/sh
[ "$1" != status ] || {{ printf ' "from": "router",\\n "to": "other"\\n'; exit; }}
exec {TOP}/hinge "$@"
"""


def typed(shell: str, place: Path) -> list[str]:
    """Returns each line's completion after a tab and an x; the keys for the line's begin and end then put it behind `echo`."""
    (place / "run" / "hinge" / "twohosts").mkdir(parents=True)
    for file, name in ((MIXED, MIXED.name), (COMPLETION.with_suffix(".zsh"), "_hinge"), (COMPLETION, COMPLETION.name)):
        shutil.copy(file, place / name)
    (place / "hinge").write_text(HINGE)
    (place / "hinge").chmod(0o755)
    keyboard, line = pty.openpty()
    env = {**os.environ, "TERM": "dumb", "PATH": f"{place}:{os.environ['PATH']}", "XDG_RUNTIME_DIR": str(place / "run")}
    with subprocess.Popen([shell, *QUIET[shell]], stdin=line, stdout=line, stderr=line, cwd=place, env=env):
        os.close(line)
        keys = "".join(f"{text}\tx\x01echo '\x05' >>typed\n" for text in TYPED)
        os.write(keyboard, f"{LOADED[shell]}\n{keys}exit\n".encode())
        with contextlib.suppress(OSError):  # when the shell has ended
            while os.read(keyboard, 4096):
                pass
    os.close(keyboard)
    return (place / "typed").read_text().splitlines()


def test_words_files_and_names_in_a_terminal() -> None:
    for shell in filter(shutil.which, QUIET):
        assert typed(shell, folder() / shell) == list(TYPED.values()), shell


class Doctor(unittest.TestCase):
    def test_each_trial_has_its_line(self) -> None:
        done = run("doctor")
        lines = done.stdout.splitlines()[: len(TRIALS)]
        assert [*TRIALS] == [line[5 : 5 + len(what)] for line, what in zip(lines, TRIALS)]
        assert {line[:5] for line in lines} <= {"yes  ", "no   "}
        works = f"yes  {[*TRIALS][1]}" in lines
        assert done.returncode == (0 if works else 7), done.stdout + done.stderr

    def test_what_is_missing_is_named_with_its_package(self) -> None:
        with mock.patch.dict(os.environ, {"PATH": "/nonexistent"}):
            assert first_words() == Finding(
                "there is no ping and no git and no redis-server", ("iputils-ping", "git", "redis-server")
            )
            assert outside() == Finding("there is neither slirp4netns nor pasta", ("slirp4netns",))
            with mock.patch.object(os, "geteuid", lambda: 1000):
                assert users() == Finding("there is no newuidmap", ("uidmap",))
        lacking = modules(no_such_module="python3-none")
        assert lacking == Finding("Python lacks no_such_module", ("python3-none",))
        assert line_of("x", lacking) == "no   x: Python lacks no_such_module"
        assert line_of("x", Finding()) == "yes  x"
        assert install(["a", "b", "a"]) == "sudo apt-get install a b"
        assert install([]) is None

    def test_a_run_that_fails_says_why(self) -> None:
        assert doctor.of_run("--net", "nonsense").why.partition(":")[0] == "--net nonsense"


TRY = importlib.import_module("hinge.commands.try")
START = TOP / "python" / "hinge" / "__main__.py"
TIME = re.compile(r"(?<=The answer took )[\d.]+")


class Try(WithFolder):
    def test_a_picture_a_paragraph_and_what_comes_next(self) -> None:
        done = run("try")
        self.assertEqual((done.returncode, done.stderr), (0, ""))
        self.assertRegex(
            done.stdout, r"(?s)Mbit/s that arrive, at most 12.*that wait for the link, at most 250:.*by a full queue.*waiting \+ "
        )
        self.assertLessEqual(max(map(len, done.stdout.splitlines())), 100)
        alone = subprocess.run([sys.executable, "-S", START, "try"], capture_output=True, text=True, env={"PYTHONUTF8": "1"})
        self.assertEqual((alone.returncode, TIME.sub("", alone.stdout)), (0, TIME.sub("", done.stdout)), alone.stderr)

    def test_the_history_is_kept_and_lawful(self) -> None:
        done = run("try", "--preset", "Lossy-WiFi", "--transcript", "try.history")
        self.assertIn("hinge look try.history -o try.png", done.stdout)
        row = re.search(r"Why did packet (\d+) take so long\? (Row [^.]*\.)", " ".join(done.stdout.split()))
        assert row
        self.assertTrue(run("why", row[1], "try.history").stdout.startswith(row[2]))
        with open(folder() / "try.history", "rb") as file:
            self.assertTrue(audit(file).lawful)

    def test_each_preset_carries_all_segments(self) -> None:
        for name in PRESETS:
            with self.subTest(name):
                link = preset(name)
                transfer = TRY.Download(self.folder / "history", (link.up, link.down))
                transfer.run()
                self.assertEqual(set(transfer.arrived), set(range(TRY.SEGMENTS)))

    def test_losses_halve_the_window_once(self) -> None:
        sender = TRY.Sender()
        first = [sender.next() for _ in range(10)]
        self.assertEqual((first, sender.next()), (list(range(10)), None))
        sender.acknowledged([5])
        self.assertEqual((sender.window, sender.threshold, list(sender.waiting)[:3]), (5.5, 5.5, [0, 1, 10]))
        sender.acknowledged([5, 9])
        self.assertEqual((round(sender.window, 3), list(sender.waiting)[:6]), (5.682, [2, 3, 4, 0, 1, 10]))

    def test_letters_of_ascii(self) -> None:
        done = subprocess.run([sys.executable, START, "try"], capture_output=True, env={"PYTHONIOENCODING": "ascii"}, check=True)
        self.assertTrue(done.stdout.isascii())

    def test_a_preset_that_is_none(self) -> None:
        done = run("try", "--preset", "lt")
        self.assertEqual((done.returncode, done.stderr.splitlines()[-1]), (2, "hinge try: error: 'lt': not a preset; write lte"))
