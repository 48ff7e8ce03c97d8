"""The parts of the gate that use a program, after `rt ci` or without it."""

import os
import re
import shutil
import sys
import time
from glob import glob
from typing import NamedTuple, Optional

import command
import seeds
from pytests import PLANS
from tally import AGAIN, FAULT, TOP

TALLY = re.compile(r"(\d+) passed, (\d+) failed")
RANDOM_CASES = 400
RUNS_BY_CALLERS = 100
LIVE_SESSIONS = 200
SERVICES_IN_C = 40
AUDITS_IN_C = 120
LONGEST = 7200  # s after which a part that hasn't ended is ended and counts as failed: the edits take that on one processor
CALLS_BY_DEFINITIONS = 10_000
TOLD_LINES = 20  # of a part that failed without naming what
FUZZED_IN_C, FUZZED_IN_PYTHON = 20_000, 800  # inputs of each target
READ_ALIKE = 200  # packet files, and as many lines
SYSTEMS = "/usr/bin/python3"
NUMPY, MATPLOTLIB = (f"/usr/lib/python3/dist-packages/{name}/__init__.py" for name in ("numpy", "matplotlib"))
FUZZER = "/usr/lib/llvm-*/lib/clang/*/lib/linux/libclang_rt.fuzzer-x86_64.a"  # clang's libFuzzer


class Sum(NamedTuple):
    """How much passed, and how much failed."""

    passed: int
    failed: int


class Part(NamedTuple):
    """A part: its name, its command, and its requirements beyond Python."""

    name: str
    words: list[str]
    needs: Optional[str] = None
    # Whether it runs what `rt ci` has built, or `rt` itself, takes minutes, or can fail by the clock of a busy machine.
    is_long: bool = False
    # How many things pass at least where nothing fails: with fewer, the part looked for them in the wrong place. Without a count it fails.
    least: int = 0
    by_clock: bool = False  # whether a busy machine alone can make it fail, so that it is made once more, alone

    def lacks(self) -> bool:
        """Returns whether this machine lacks the part's requirement: a program, or files of a pattern."""
        return self.needs is not None and shutil.which(self.needs) is None and not glob(self.needs)


class Tried(NamedTuple):
    """The end of a part, its processor seconds, and its failures."""

    name: str
    sum: Sum
    seconds: float
    faults: str = ""
    again: tuple[str, ...] = ()  # what passed at the second try alone


def sum_in(text: str, status: int, least: int = 1) -> Sum:
    """The sum in the last line, where the status agrees with it and no fewer passed than have to."""
    lines = text.strip().splitlines()
    found = TALLY.match(lines[-1]) if lines else None
    told = Sum(int(found[1]), int(found[2])) if found else Sum(0, 1)
    is_short = not told.failed and (least < 1 or told.passed < least)
    return told if (status == 0) == (told.failed == 0) and not is_short else Sum(told.passed, told.failed + 1)


def faults_in(text: str, least: int = 1) -> str:
    """Returns the failures named in a part's output, or else its last lines."""
    lines = text.splitlines()
    named = [line for line in lines if line.startswith(FAULT)]
    return "\n".join(named or [*lines[-TOLD_LINES:], f"(at least {least} have to pass)"])


def growths() -> list[Part]:
    """Tests with each growth refused, once and twice in a row: a list that is refused room for more asks again for just
    enough, which hides one refusal."""
    tests = {
        **{f"test_{crate} memory::": least for crate, least in (("files", 4), ("replay", 2), ("live", 1))},
        "test_replay callers_memory::": 1,
        **{f"test_shaper {part}::": 4 for part in ("refused_growths", "reserve")},
        **{f"test_parts {part}::": least for part, least in (("scheduler", 3), ("heap", 3), ("placed_heap", 2))},
        **{f"test_parts {part}::a_refused_growth_changes_nothing": 1 for part in ("link", "flows")},
        **{f"test_service one_caller::a_{call}_that_memory_refuses_leaves_no_trace": 1 for call in ("call", "try")},
    }
    script = [sys.executable, "tools/gate/growths.py"]
    return [
        Part(f"refused growths: {test} {row}", [*script, *test.split(), str(row)], "cc", True, least + row)
        for test, least in tests.items()
        for row in (2, 1)
    ]


def parts(fresh: Optional[int], program: str) -> list[Part]:
    """Returns all parts, the longest first. Seeds follow from the parts' sources, unless `fresh` is given."""
    own = (seeds.of_programs(), seeds.of_files(*seeds.LAWS), seeds.of_files(*seeds.GATE))
    seed, of_laws, of_gate = (str(fresh or one) for one in own)
    by_seed = [] if fresh is None else ["--seed", str(fresh)]
    python, words = sys.executable, [program, seed]
    kit = SYSTEMS if shutil.which(SYSTEMS) else python  # which has Debian's numpy
    return [
        Part("hosts of a live session", [python, "tools/gate/hosts.py", program], is_long=True, least=200),
        Part("the kit", [python, "tools/gate/pytests.py", "tests/kit_tests"], "pytest", least=250),
        Part("parts that turn red", [python, "tools/gate/plants.py", program, of_gate], "git", True, 8),
        Part("plans of links", [python, "tools/gate/pytests.py", *PLANS], "pytest", least=49),
        Part("writers that are killed", [python, "tools/gate/cut_off.py", program], "cc", least=150, by_clock=True),
        Part("programs in simulated time", [python, "tools/gate/simulated.py", program], "cc", True, least=130),
        Part("limits of input", [python, "tools/gate/limit_checks.py", program], is_long=True, least=22),
        *growths(),
        Part("cases of the reference", [python, "tools/gate/cases.py", *words, str(RANDOM_CASES)], least=880),
        Part("lists of the reference", [python, "tools/gate/lists.py", *words], least=4),
        Part("replays by callers", [python, "tools/oracle/callers_checks.py", *words, str(RUNS_BY_CALLERS)], least=100),
        Part("live sessions", [python, "tools/gate/live.py", *words, str(LIVE_SESSIONS)], least=270),
        Part("the C library", [python, "tools/gate/c_library.py"], "gcc", least=5),
        Part("the service from C", [python, "tools/gate/c_service.py", *words, str(SERVICES_IN_C)], "gcc", True, least=164),
        Part("audits from C", [python, "tools/gate/c_audit.py", *words, str(AUDITS_IN_C)], "gcc", least=880),
        Part("the C library and Python from a prefix", [python, "tools/gate/embedding.py"], "cc", least=300),
        Part("the program without memory", [python, "tools/gate/memory.py", program], "cc", True, least=24),
        Part("chosen keys", [python, "tools/gate/hostile.py", program], "valgrind", True, least=40),
        Part("a history of sixteen threads", [python, "tools/gate/senders.py", program], is_long=True, least=6),
        Part("keys of the hash", [python, "tools/gate/hash_key.py", program], "cc", least=16),
        Part("the command line", [python, "tools/gate/command_line.py", program], least=169),
        Part("what is inherited", [python, "tools/gate/inherited.py", program], "git", least=100, by_clock=True),
        Part("the wrapper and ./build", [python, "tools/gate/wrapper.py", program], least=28, by_clock=True),
        Part("examples", [python, "tools/gate/examples.py", program], least=13),
        Part("pictures of the pages", [kit, "tools/gate/pictures.py"], MATPLOTLIB, least=5),
        Part("the release", [python, "tools/gate/release.py", program], least=6),
        Part("a bare root", [python, "tools/gate/bare_root.py", program], "debootstrap", True, least=5),
        Part("what a team installs", [python, "tools/gate/installs.py", program], is_long=True, least=160),
        Part("the crate for cargo", [python, "tools/gate/crate.py"], "cargo", least=40),
        Part("the version", [python, "tools/gate/version.py", program], least=8),
        Part("why not one mutex", [python, "tools/gate/one_mutex.py"], is_long=True, least=3),
        Part("tests in simulated time", [python, "tools/gate/testing.py"], "pytest", least=20),
        Part("libraries in simulated time", [python, "tools/libraries", "--seeds", "3"], "pytest", least=14),
        Part("fuzzing of the hosts", [python, "tools/fuzz/run.py", *by_seed, str(FUZZED_IN_C)], FUZZER, True, least=5),
        Part("fuzzing of the kit", [kit, "tools/fuzz/border.py", *by_seed, str(FUZZED_IN_PYTHON)], NUMPY, True, least=9),
        Part("readers that agree", [python, "tools/fuzz/readers.py", program, *by_seed, str(READ_ALIKE)], "cargo", True, least=400),
        Part("kills of the kit's commands", [kit, "tools/gate/kills.py", *by_seed], NUMPY, True, least=46, by_clock=True),
        Part("the words of nets and runs", [python, "tools/gate/plans.py", *by_seed], "cc", True, 35, by_clock=True),
        Part("the notices of the crates", [python, "tools/release/notices.py", "--check"], "rt", least=20),
        Part("the manual pages", [python, "tools/gate/manual.py", program], "mandoc", least=240),
        Part("hardening of what is released", [python, "tools/gate/hardening.py"], "readelf", least=6),
        Part("the texts of edits", [python, "tools/edits/edit_controls.py", "--missing"], least=360),
        Part("doc comments", [python, "tools/gate/doc_comments.py"], least=26),
        Part("docstrings", [python, "tools/gate/docstrings.py"], least=240),
        Part("words of the laws", [python, "tools/laws/pinned_words.py"], least=50),
        Part("wrong definitions", [python, "tools/gate/laws.py", of_laws], "rt", True, least=6),
        Part(
            "the text of the definitions",
            [python, "tools/definitions", "gate", *words, str(CALLS_BY_DEFINITIONS)],
            is_long=True,
            least=330,
        ),
        Part("callers that wait", [python, "tools/gate/waiting.py"], least=13),
        Part("stores that are fences", [python, "tools/gate/fences.py"], "objdump", least=12),
        Part("plain calls in real time", [python, "tools/gate/order.py"], "gcc", least=13),
        Part("README as a script", [kit, "tools/gate/readme.py", program], "ping", True, 25, by_clock=True),
        Part("the tables of CONTRIBUTING", [python, "tools/gate/contributing.py"], "git", least=170),
        Part("the border of the kit", [python, "tools/gate/border.py"], least=400),
        Part("types of Python", [python, "tools/gate/python_types.py"], "mypy", least=250),
        Part("unused names of Python", [python, "tools/gate/linter.py"], "pyflakes3", least=500),
        Part("the form of Python", [python, "tools/gate/linter.py", "--format"], "black", True, 500),
        Part("the form and checks of C", [python, "tools/gate/linter.py", "--c"], "clang-tidy", is_long=True, least=130),
        Part("the source archive", [python, "tools/gate/archive.py"], "git", least=7),
        Part("what grows", [python, "tools/gate/growth.py"], "git", least=1),
        Part("samples of the READMEs", [python, "tools/gate/samples.py"], least=140),
    ]


def edits_part() -> Part:
    """The edits that `rt ci` leaves to us, which take all processors."""
    return Part("edits", [sys.executable, "tools/gate/edits.py", "--built"], "rt", is_long=True, least=330)


def left_out(parts: list[Part]) -> str:
    """Returns the end of the last line, on parts whose requirements this machine lacks."""
    lacking = [part for part in parts if part.lacks()]
    needs = sorted({part.needs or "" for part in lacking})
    return f", {len(lacking)} parts left out for want of {', '.join(needs)}" if lacking else ""


def tried(part: Part, program: str) -> Tried:
    """Runs a part, and prints its output when it has ended; returns the result."""
    if part.lacks():
        print(f"== {part.name}: skipped, since there is no {part.needs} on the path", flush=True)
        return Tried(part.name, Sum(0, 0), 0)
    begun = time.monotonic()
    done = command.run(part.words, LONGEST, TOP, {**os.environ, "DUMMYNET": program})
    end = "" if done.text.endswith("\n") else "\n"
    print(f"== {part.name}, {time.monotonic() - begun:.0f} s\n{done.text}", end=end, flush=True)
    told = sum_in(done.text, done.status, part.least)
    again = tuple(line for line in done.text.splitlines() if line.startswith(AGAIN))
    return Tried(part.name, told, done.seconds, faults_in(done.text, part.least) if told.failed else "", again)


def tried_again(part: Part, first: Tried, program: str) -> Tried:
    """Repeats a failed part, alone, if a busy machine's clock may be the cause; returns the result."""
    if not first.sum.failed or not part.by_clock:
        return first
    print(f"== once more, as it failed: {part.name}\n{first.faults}", flush=True)
    second = tried(part, program)
    seconds = first.seconds + second.seconds
    return second._replace(seconds=seconds, again=(*second.again, *([] if second.sum.failed else [f"{AGAIN}{part.name}"])))
