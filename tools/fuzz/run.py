#!/usr/bin/env python3
"""Coverage-guided fuzzing of what the hosts in C read from a stranger.

    python3 tools/fuzz/run.py [--keep] [--seed N] COUNT [NAME ..]

A NAME is one of capture_rows, columns, frames, packets and plan; all by default, each with so many inputs. The seed follows from the sources of the hosts, or is N, or
a new one by `--seed fresh`. Each begins with its kept inputs in corpus/NAME, with the
sanitizers for addresses and undefined behaviour. An input that crashes, hangs for ten seconds or takes 2 GB is printed, and left in
built/fuzz. With --keep the kept inputs are those that reach the most with the least bytes. It takes clang and libFuzzer.
"""

import argparse
import os
import re
import shutil
import subprocess
import sys
from pathlib import Path

HERE = Path(__file__).resolve().parent
sys.path.insert(0, str(HERE.parent / "gate"))

import seeds  # noqa: E402
from tally import TOP, Tally, judge  # noqa: E402

FLAGS = ["-g", "-O1", "-w", "-D_GNU_SOURCE", "-fno-sanitize-recover=undefined", "-fsanitize=fuzzer,address,undefined"]
LIMITS = ["-timeout=10", "-rss_limit_mb=2048", "-max_len=1024", "-verbosity=0", "-close_fd_mask=2", "-print_final_stats=1"]
TARGETS = ("capture_rows", "columns", "frames", "packets", "plan")
HOST = dict.fromkeys(("capture_rows", "columns"), "packets")  # of the others it is link
OF_EXIT = {
    **dict.fromkeys(("capture_rows", "plan"), ["-Dexit=leave_the_host"]),  # a refusal goes back to the target
    "columns": ["-Dexit=leave_the_host", "-DREAD_TOGETHER=97"],  # so that lines are read in parts, and little is kept of an input
}
VALUES = """pipe 1 config bw 8Mbit/s|pipe 2 config delay 5|queue 1 config pipe 1 weight 2|pipe 1 delete| 1 | 1000000000|\\x0a|\
00000000000000000000ffff0a080001""".split(
    "|"
)  # of a plan's lines
MOST = {"columns": 100_000, "plan": 200_000}  # inputs, since what an input asks for is kept to the end of the program
WITHOUT_LEAKS = {**os.environ, "ASAN_OPTIONS": "detect_leaks=0"}  # of a line whose reader was left by its refusal


def library() -> Path:
    """Returns the static library built here from these sources, otherwise the released one."""
    words = [TOP / "tools" / "release" / "program_sources", "hingetulip_c"]
    tag = subprocess.run(words, stdout=subprocess.PIPE, text=True, check=True).stdout.strip()
    built = TOP / "built" / tag / "libhingetulip.a"
    return built if built.exists() else TOP / "release" / "libhingetulip.a"


def built(name: str, folder: Path) -> Path:
    include, made = f"-I{TOP / 'crates/hingetulip_c/include'}", []
    for path in sorted((TOP / "hosts" / HOST.get(name, "link")).glob("*.c")):
        if path.name == "main.c":
            continue
        made.append(folder / f"{name}-{path.stem}.o")
        subprocess.run(["clang", *FLAGS, *OF_EXIT.get(name, []), include, "-c", path, "-o", made[-1]], check=True)
    target = folder / name
    subprocess.run(["clang", *FLAGS, include, HERE / f"{name}.c", *made, library(), "-pthread", "-o", target], check=True)
    return target


def dictionary(name: str, folder: Path) -> list[str]:
    """Returns the option that names a plan's words, whose first ones plan.c lists."""
    words = re.findall(r'\{"(\w+ ?)", read_\w+\}', (TOP / "hosts" / "link" / "plan.c").read_text())
    (folder / "plan.words").write_text("".join(f'"{word}"\n' for word in (*words, *VALUES)))
    return [f"-dict={folder}/plan.words"] if name == "plan" else []


def faults(name: str, count: int, seed: int, folder: Path) -> str:
    """Returns the fuzzer's report on an input that fails, or an empty text."""
    found, kept = folder / f"{name}-found", HERE / "corpus" / name
    shutil.rmtree(found, ignore_errors=True)  # of another run
    for path in (found, kept):
        path.mkdir(parents=True, exist_ok=True)
    limits = [*LIMITS, *dictionary(name, folder), f"-runs={min(count, MOST.get(name, count))}", f"-seed={seed}"]
    words = [built(name, folder), *limits, f"-artifact_prefix={folder}/{name}-", found, kept]
    done = subprocess.run(words, stdout=subprocess.PIPE, stderr=subprocess.STDOUT, text=True, errors="replace", env=WITHOUT_LEAKS)
    figures = dict(line.split(":")[-2:] for line in done.stdout.splitlines() if line.startswith("stat::"))
    print(
        f"{name}: {figures.get('number_of_executed_units', '?').strip()} inputs, {len(list(kept.iterdir()))} of them kept, seed {seed}",
        flush=True,
    )
    return "" if done.returncode == 0 else "\n".join(done.stdout.splitlines()[-40:])


def keep(name: str, folder: Path) -> None:
    """Replaces the kept inputs by a least set that reaches as much."""
    least, kept = folder / f"{name}-least", HERE / "corpus" / name
    least.mkdir(exist_ok=True)
    subprocess.run(
        [folder / name, "-merge=1", *LIMITS, least, kept, folder / f"{name}-found"],
        stderr=subprocess.DEVNULL,
        check=True,
        env=WITHOUT_LEAKS,
    )
    for path in kept.iterdir():
        path.unlink()
    for path in least.iterdir():
        path.rename(kept / path.name[:12])


def main(tally: Tally, *words: str) -> None:
    parser = argparse.ArgumentParser(description=__doc__, formatter_class=argparse.RawDescriptionHelpFormatter)
    parser.add_argument("--keep", action="store_true")
    parser.add_argument("--seed")
    parser.add_argument("count", type=int)
    parser.add_argument("names", nargs="*", choices=[*TARGETS, []], metavar="NAME")
    asked = parser.parse_args(words)
    folder = TOP / "built" / "fuzz"
    seed = seeds.chosen(asked.seed, *seeds.HOSTS)
    folder.mkdir(parents=True, exist_ok=True)
    for name in asked.names or TARGETS:
        tally.note(name, faults(name, asked.count, seed, folder))
        if asked.keep:
            keep(name, folder)


if __name__ == "__main__":
    judge(main)
