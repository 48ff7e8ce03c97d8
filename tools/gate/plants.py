"""Parts of the gate turn red: a defect is planted for each of them in a clone, and the part, run there, has to fail. None is without one.

    python3 tools/gate/plants.py PROGRAM SEED      tries the plants of a share that the seed chooses, and a long one
    python3 tools/gate/plants.py PROGRAM all       tries all, and prints a table: a part, the plant, its last line, and processor seconds
    python3 tools/gate/plants.py PROGRAM PART ..   tries the plants of these parts

A plant changes a line of a file, a byte of the program, or the program's output, by a script in its place. The part runs as the gate runs it, up to
its first fault, or with the plant's words for a slice of it. With `all`, and with names, a slice, and a part over such a script, has to pass without
the defect.
"""

import os
import shutil
import stat
import subprocess
import sys
from pathlib import Path
from typing import NamedTuple, Optional

import command
import parts
from tally import AT_ONCE, TOP, Tally, judge

SHARES = 5
LONGEST, SUM = 1800, 64  # s, and the letters of the name of what is built of some sources
# Stands in the place of the program: `o` and `e` are what it writes, `s` is its status, and `a` are its arguments.
WRAPPER = """#!{python}
import re, subprocess, sys
a = sys.argv[1:]
done = subprocess.run([{program!r}, *a], stdin=sys.stdin.buffer, capture_output=True)
o, e, s = done.stdout, done.stderr, done.returncode
{change}
sys.stdout.buffer.write(o)
sys.stderr.buffer.write(e)
sys.exit(s)
"""
PROGRAM = "PROGRAM"  # the program as the part is given it


class Plant(NamedTuple):
    """A part of the gate, by the front of its name, and the defect: a change of a file in the clone, or of the program or its output."""

    part: str
    wrong: str
    change: str = ""  # of the program's output
    words: Optional[tuple[str, ...]] = None  # of a slice of the part
    file: str = ""  # the first that fits, or the program
    old: str = ""
    new: str = ""
    is_long: bool = False  # takes more than 20 s of a processor
    given: str = ""  # a variable and its value
    needs: str = ""  # a program that `rt ci` has built


# fmt: off
LATE = {"wrong": "a link of 20 ms takes 30", "file": "python/hingetulip_words/link.py", "old": 'self.options)}".strip()', "new": 'self.options)}".strip().replace("20ms", "30ms")'}
PLANTS = [
    Plant("live sessions", "a bad line is told otherwise", file=PROGRAM, old="unknown word", new="unknown worD"),
    Plant("the command line", "a usage fault is told otherwise", file=PROGRAM, old="would overwrite", new="would overwritE"),
    Plant("examples", "a packet has another number", "o = o.replace(b'out,1,', b'out,2,')"),
    Plant("limits of input", "an audit takes 300 MB", "if 'audit' in a:\n    kept = bytearray(300 << 20)\n    kept[::4096] = bytes(len(kept[::4096]))"),
    Plant("the version", "a file has another", file="CITATION.cff", old="version: ", new="version: 1"),
    Plant("the manual pages", "an option has another name", file="docs/dummynet.1", old="callers", new="cllrs"),
    Plant("hardening of what is released", "a host has no guards of the stack", file="tools/release/hardened", old="-fstack-protector-strong", new="-fno-stack-protector"),
    Plant("the texts of edits", "an edit fits no source", file="crates/dn_heap/edits/*.edit", old="old: ", new="old: no such "),
    Plant("doc comments", "a comment is no sentence", file="crates/dn_heap/src/min_heap.rt", old="/// ", new="/// of "),
    Plant("docstrings", "a docstring doesn't name an exception", file="python/hingetulip/service.py", old="ValueError: there is a file", new="Refused: there is a file"),
    Plant("words of the laws", "a word is pinned by no law", file="crates/dn_laws/README.md", old="| `IsInRange` |", new="| `IsInRangeNot` |"),
    Plant("callers that wait", "a caller doesn't raise the bell", file="crates/dn_service/src/bell.rt", old="self.raise();", new=""),
    Plant("the tables of CONTRIBUTING", "a file has another name", file="CONTRIBUTING.md", old="`fast.py`", new="`fist.py`"),
    Plant("the border of the kit", "a function opens a file itself", file="python/hinge/__init__.py", new='\n\ndef more(path: str) -> str:\n    """Returns the text of a file."""\n    return open(path).read()\n'),
    Plant("the release", "the library has another byte", file="release/libhingetulip.a", old="dn_submit", new="dn_submiT"),
    Plant("samples of the READMEs", "a sample has another output", file="crates/dn_heap/README.md", old="MinHeap<u64>", new="MinHeep<u64>"),
    Plant("the wrapper and ./build", "the wrapper ends with another status", file="dummynet", old="exit 70", new="exit 71"),
    Plant("the text of the definitions", "the checker takes a list for its reverse", words=("checks",), file="tools/definitions/values.py", old="for item in reversed([*items]):", new="for item in [*items]:"),
    Plant("the source archive", "a setting of the user changes the bytes", file="tools/release/source_archive.py", old="umask", new="umaks"),
    Plant("plans of links", "a millisecond has 1,000 ns", words=("tests/run/test_plan_files.py",), file="python/hinge/run/traces.py", old="MS = 10**6", new="MS = 10**3"),
    Plant("the kit", "a line for a pipe is dropped", words=("tests/kit_tests/test_ipfw.py",), file="python/hinge/configurations/ipfw_lines.py", old='"pipe"', new='"pip"'),
    Plant("cases of the reference", "a queue has one slot", words=(PROGRAM, "1", "5"), file="tools/oracle/model.py", old="Limit(50, None)", new="Limit(1, None)"),
    Plant("replays by callers", "a packet has another number", "o = o.replace(b'out,1,', b'out,2,')", (PROGRAM, "1", "5")),
    Plant("hosts of a live session", "a page shows another reply", file="docs/FILES.md", old="r,delivered", new="r,deliverer"),
    Plant("writers that are killed", "a cut line goes on", file="tools/gate/killed_writes.c", old="real(file, bytes, len / 2);", new='real(file, "#", 1);'),
    Plant("programs in simulated time", words=(PROGRAM, "tests/simulated/test_exact.py::OfPings"), **LATE),
    Plant("limits of input", "a limit is told otherwise", "e = e.replace(b'long', b'lonG')"),
    Plant("lists of the reference", "a queue has 51 slots", file="tools/oracle/model.py", old="Limit(50, None)", new="Limit(51, None)"),
    Plant("the C library", "a status has another number", file="crates/hingetulip_c/include/hingetulip.h", old="DN_BAD_LENGTH = 13", new="DN_BAD_LENGTH = 12"),
    Plant("the service from C", "the audit finds another entry", "o = o.replace(b'lawful ', b'lawful 1')", (PROGRAM, "1", "1")),
    Plant("audits from C", "a record is told by another status", file="crates/hingetulip_c/include/hingetulip.h", old="DN_DIFFERS = 1", new="DN_DIFFERS = 2"),
    Plant("the C library and Python from a prefix", "a file isn't installed", file="install", old="hingetulip.tsan", new="hingetulip.tsam"),
    Plant("the program without memory", "want of memory is told otherwise", file=PROGRAM, old="out of memory", new="out of memorY"),
    Plant("chosen keys", "twice as many rows are four times as many", file="tools/hostile/inputs.py", old="for ports in range(flows)", new="for ports in range(flows**2 // 2000)"),
    Plant("a history of sixteen threads", "the audit finds another entry", "o = o.replace(b'lawful ', b'lawful 1')", needs="crates/many_senders/out/many_senders"),
    Plant("keys of the hash", "want of a key is told otherwise", file=PROGRAM, old="cannot read random", new="cannot reaD random"),
    Plant("what is inherited", "a script takes the user's CDPATH", file="install", old="unset CDPATH", new="unset CDPAT"),
    Plant("pictures of the pages", "a picture is of another line", file="python/tests/kit_data/dsl.config", old="delay 20", new="delay 200"),
    Plant("a bare root", is_long=True, **LATE),
    Plant("what a team installs", "the wheel has another name", file="python/build_wheel.py", old="manylinux_2_34", new="manylinux_2_35"),
    Plant("the crate for cargo", "a word has another answer", file="rust/hingetulip/tests/words.txt", old="; 0 0", new="; 1 0"),
    Plant("why not one mutex", "the prover proves two calls under one mutex", given="RT=echo fn one_mutex::two_calls: proved"),
    Plant("tests in simulated time", "an example is too long", file="examples/tests/test_dns.py", new="\n" * 60),
    Plant("libraries in simulated time", "no datagram arrives", file="python/hingetulip/aio/traffic.py", old="if self.closing or", new="if True or"),
    Plant("fuzzing of the hosts", "a pipe is out of its array", words=("2000", "plan"), file="hosts/link/plan.c", old="host->carrier.ways, pipe", new="99999, pipe"),
    Plant("fuzzing of the kit", "a line of a net ends in an exception", words=("1", "nets"), file="python/hinge/net/description.py", old="kinds[statement.word](", new="kinds[statement]("),
    Plant("readers that agree", "a row has another number", file="python/hingetulip/packet_file.py", old="total + row.value", new="total + row.value + 1"),
    Plant("kills of the kit's commands", "nothing is removed", words=("1",), file="python/hinge/border/scratch.py", old="if entry.name.startswith(PREFIX)", new="if entry.name.startswith(PREFIX * 2)"),
    Plant("the words of nets and runs", "the judge takes any random word", words=("--runs", "0", "--real", "0", "5"), file="python/hinge/plans/of_draws.py", old="not in wanted:", new="in ():"),
    Plant("the notices of the crates", "a licence has another text", file="release/NOTICE", old="Permission is hereby granted", new="Permission is hereby Granted"),
    Plant("wrong definitions", "a refutation is of no row", words=("--anew", "0"), file="tools/laws/refuted/*.proof", old="-- Wrong: ", new="-- Right: "),
    Plant("stores that are fences", "a store is a mov", file="release/libhingetulip.a", old="H\x87\x08", new="H\x89\x08"),
    Plant("plain calls in real time", "a call is told of late", file="tools/gate/rt_order.c", old="moments[caller][call].begun = now();", new="moments[caller][call].begun = now() + 1000000;"),
    Plant("parts that turn red", "a plant changes nothing", words=(PROGRAM, "the version"), file="tools/gate/plants.py", old='new="version: 1"', new='new="version: "'),
    Plant("README as a script", **LATE),
    Plant("types of Python", "a number is a text", file="python/hinge/__init__.py", new="\nWRONG: int = '1'\n", is_long=True),
    Plant("unused names of Python", "an import is unused", file="bench/aio.py", new="\nimport shutil\n"),
    Plant("the form of Python", "a line isn't in black's form", file="bench/aio.py", new="\nx = (1)\n", is_long=True),
    Plant("the form and checks of C", "a line isn't in clang-format's form", file="hosts/clock.c", new="\nint   x;\n"),
    Plant("what grows", "a tool has 100,000 lines more", file="tools/gate/growths.py", new="\n" * 100_000),
    Plant("edits", "an edit fits no source", words=("--built", "dn_heap/pop_keeps_its_room"), file="crates/dn_heap/edits/pop_keeps_its_room.edit", old="old: ", new="old: no such "),
    *(Plant(part.name, "no growth is refused", file="tools/gate/refused_growths.c", old="first_refused == 0 ||", new="1 ||", needs=f"crates/{part.words[2]}/out/{part.words[2]}_tests") for part in parts.growths()),
]
# fmt: on


def planted(path: Path, plant: Plant) -> bytes:
    """Plants a defect in a file, at its end if it replaces no text; returns the old content."""
    before = path.read_bytes()
    old, new = (text.encode("latin-1") for text in (plant.old, plant.new))
    if old not in before:
        raise ValueError(f"{path.name} has no {plant.old}")
    path.write_bytes(before.replace(old, new) if old else before + new)
    return before


class Field:
    """A clone in which defects are planted, with what `rt ci` has built and a copy of the program."""

    def __init__(self, folder: Path, program: str) -> None:
        self.clone, self.program, self.wrong = folder / "clone", folder / "program", folder / "wrong"
        subprocess.run(["git", "clone", "-q", "--shared", str(TOP), str(self.clone)], check=True)
        shutil.copy2(program, self.program)
        for built in filter(Path.is_file, (*TOP.glob("crates/*/out/*"), *TOP.glob(f"built/{'?' * SUM}/*"))):
            place = self.clone / built.relative_to(TOP)
            place.parent.mkdir(parents=True, exist_ok=True)
            place.symlink_to(built)

    def file(self, plant: Plant) -> Path:
        return self.program if plant.file == PROGRAM else sorted(self.clone.glob(plant.file))[0]

    def script(self, change: str) -> Path:
        """Returns a script in the program's place."""
        self.wrong.write_text(WRAPPER.format(python=sys.executable, program=str(self.program), change=change))
        self.wrong.chmod(self.wrong.stat().st_mode | stat.S_IXUSR)
        return self.wrong

    def run(self, plant: Plant, part: parts.Part, program: Path) -> command.Ended:
        """Runs the part's script in the clone, with the plant's words or else its own."""
        words = [str(program) if word == PROGRAM else word for word in plant.words or part.words[2:]]
        given = dict([plant.given.split("=", 1)] if plant.given else [])
        env = {**os.environ, "DUMMYNET": str(program), AT_ONCE: "yes", **given}
        return command.run([*part.words[:2], *words], LONGEST, self.clone, env)

    def result(self, plant: Plant, part: parts.Part, is_controlled: bool) -> tuple[str, str]:
        """Returns what is wrong, if anything, and the part's last line with the plant."""
        sound = self.script("pass") if plant.change else self.program
        is_tried = is_controlled and (plant.words or plant.change) and part.needs != "rt"  # the prover takes minutes
        before = self.run(plant, part, sound) if is_tried else None
        path = self.file(plant) if plant.file else None
        kept = planted(path, plant) if path else b""
        after = self.run(plant, part, self.script(plant.change) if plant.change else self.program)
        if path:
            path.write_bytes(kept)
        last = (after.text.strip().splitlines() or ["nothing"])[-1]
        tally = parts.TALLY.match(last)
        is_red = after.status != 0 and tally is not None and int(tally[2]) > 0
        fault = "" if is_red else f"the part doesn't turn red: {after.text[-2000:]}"
        if before and parts.sum_in(before.text, before.status).failed:
            fault += f"the part is red without the plant: {before.text[-2000:]}"
        return fault, f"{last} | {after.seconds:.1f}"


def lacks(plant: Plant, part: parts.Part) -> str:
    """Returns what this machine or clone lacks for a plant, if anything."""
    return str(part.needs) if part.lacks() else plant.needs if plant.needs and not (TOP / plant.needs).exists() else ""


def chosen(words: list[str]) -> list[Plant]:
    if words == ["all"]:
        return PLANTS
    if len(words) == 1 and words[0].isdigit():
        short, long = ([plant for plant in PLANTS if plant.is_long == is_long] for is_long in (False, True))
        return [*short[int(words[0]) % SHARES :: SHARES], long[int(words[0]) % len(long)]]
    return [plant for plant in PLANTS if plant.part in words]


def main(tally: Tally, program: str, *words: str) -> None:
    each = {part.name: part for part in [*parts.parts(None, PROGRAM), parts.edits_part()]}
    tally.equal("parts with a plant, and plants of no part", set(), {*each} ^ {plant.part for plant in PLANTS})
    field = Field(tally.place, program)
    lacking = [
        one.part
        for one in PLANTS
        if one.file not in ("", PROGRAM) and one.old.encode("latin-1") not in field.file(one).read_bytes()
    ]
    tally.equal("plants whose texts are gone", [], lacking)
    print(f"{len(chosen(list(words)))} of {len(PLANTS)} plants are tried here")
    for plant in chosen(list(words)):
        if why := lacks(plant, each[plant.part]):
            print(f"| {plant.part} | {plant.wrong} | skipped, since there is no {why} |", flush=True)
            continue
        fault, line = field.result(plant, each[plant.part], not words[0].isdigit())
        tally.note(f"{plant.part}: {plant.wrong}", fault)
        print(f"| {plant.part} | {plant.wrong} | {line} |", flush=True)


if __name__ == "__main__":
    judge(main)
