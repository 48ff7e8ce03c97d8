"""The gate: `rt ci`, and then the checks on its builds.

    python3 tools/gate/run.py [--built | --quick | --needs] [--fresh]

With --quick the program is that of ./dummynet, or the one that DUMMYNET names. Without `rt` on the path the short parts are
tried, and the status is 2, since that isn't the gate. The seeds of random parts follow from the sources that they try.

Each part is a command whose last line is 'N passed, M failed'; one that ends otherwise counts as one that failed. The
last line is the sum. A part that needs what this machine lacks passes nothing. The last line says how many were left
out, and what is lacking. The lines above it name what failed, and the table above those says where the minutes went,
which is kept in built/minutes. DUMMYNET names the program for the parts that aren't told.
"""

import os
import resource
import shutil
import signal
import subprocess
import sys
import time
from concurrent.futures import ThreadPoolExecutor
from pathlib import Path
from typing import Any, Optional

import command
import needs
import seeds
from machine import lanes
from parts import TALLY, TOP, Sum, Tried, edits_part, faults_in, left_out, parts, sum_in, tried, tried_again

MADE = TOP / "crates" / "dummynet" / "out" / "dummynet"
NOT_THE_GATE = 2
MISTYPED = 2
MOST_AGAIN = 2  # things that pass at the second try: more of them are no chance
HELP = """usage: ./check [--quick | --built | --needs | --help] [--fresh]

./check          the gate: proves all crates, tries the edits, runs the tests and the programs; 40 to 60 minutes
./check --quick  what needs no prover, over the program of these sources; some two minutes
./check --built  what the gate tries behind `rt ci`, over what an earlier one built
./check --needs  which of Debian's packages the parts lack here

With --fresh random parts have a new seed, in the place of the one that follows from the sources."""
MINUTES = TOP / "built" / "minutes"


def sources() -> str:
    script = TOP / "tools" / "release" / "program_sources"
    return subprocess.run([script], stdout=subprocess.PIPE, text=True, check=True).stdout.strip()


def environment() -> dict[str, str]:
    """For `rt ci`, which reckons a prover's memory at over twice what ours take, and so leaves processors idle."""
    words = dict(os.environ)
    if lanes() > 1:
        words.setdefault("RT_JOBS", str(lanes()))
    return words


def proved() -> Tried:
    """Runs `rt ci` and passes its lines on; its program becomes that of ./dummynet."""
    before, text = sources(), ""
    how: dict[str, Any] = {"stdin": subprocess.DEVNULL, "stdout": subprocess.PIPE, "text": True, "errors": "replace"}
    with subprocess.Popen(["rt", "ci"], cwd=TOP, env=environment(), **how) as ci:
        for line in ci.stdout or ():
            text += line
            print(f"rt ci: {line}" if TALLY.match(line) else line, end="", flush=True)
    told = sum_in(text, ci.returncode)
    if told.failed == 0 and sources() == before:
        keep_program(before)
    return Tried("rt ci", told, processor_seconds(), faults_in(text) if told.failed else "")


def keep_program(sum: str) -> None:
    place = TOP / "built" / sum
    place.mkdir(parents=True, exist_ok=True)
    room = place / f"new-{os.getpid()}"
    shutil.copyfile(MADE, room)
    room.chmod(0o755)
    room.replace(place / "dummynet")


def quick_program() -> Path:
    """Returns the path of the program for a quick check. The environment variable DUMMYNET can name the program; otherwise the
    path is the program built from the current sources, or the released program if its sources are the current ones and no
    build exists.
    """
    sum = sources()
    released, built = TOP / "release" / "dummynet", TOP / "built" / sum / "dummynet"
    is_released = (TOP / "release" / "sources").read_text().strip() == sum and not built.exists()
    return Path(os.environ.get("DUMMYNET") or (released if is_released else built)).absolute()


def tried_over(program: Path, is_quick: bool, fresh: Optional[int]) -> tuple[list[Tried], str]:
    """Tries the parts over a program, and says which this machine lacks something for."""
    print(f"== parts over {program}, random ones by {'seeds of the sources' if fresh is None else f'seed {fresh}'}", flush=True)
    with ThreadPoolExecutor(len(os.sched_getaffinity(0))) as pool:
        wanted = [part for part in parts(fresh, str(program)) if not (is_quick and part.is_long)]
        try:
            first = list(pool.map(lambda part: tried(part, str(program)), wanted))
        except KeyboardInterrupt:
            pool.shutdown(wait=False, cancel_futures=True)
            command.end_all()
            raise
    return [tried_again(part, one, str(program)) for part, one in zip(wanted, first)], left_out(wanted)


def processor_seconds() -> float:
    used = resource.getrusage(resource.RUSAGE_CHILDREN)
    return used.ru_utime + used.ru_stime


def tell_minutes(begun: float, parts: list[Tried]) -> None:
    """Prints the minutes of each part and the greatest memory of a process, and saves this table, so that growth is seen."""
    rows = sorted([(part.seconds, part.name) for part in parts], reverse=True)
    lines = [f"{name:44}{seconds / 60:8.1f}" for seconds, name in [*rows, (processor_seconds(), "the whole, by processors")]]
    lines.append(
        f"{f'the whole, by the clock, on {len(os.sched_getaffinity(0))} of them':44}{(time.monotonic() - begun) / 60:8.1f}"
    )
    lines.append(f"greatest process: {resource.getrusage(resource.RUSAGE_CHILDREN).ru_maxrss * 1024 / 10**9:.1f} GB")
    table = "".join(f"{line}\n" for line in lines)
    try:
        MINUTES.parent.mkdir(exist_ok=True)
        MINUTES.write_text(table)
        where = f", also in {MINUTES.relative_to(TOP)}"
    except OSError:  # a clone that can't be written
        where = ""
    print(f"== where the minutes went{where}\n{table}", end="", flush=True)


def tried_and_told(words: list[str], is_quick: bool, fresh: Optional[int]) -> tuple[list[Tried], str]:
    """Runs everything that these words select; returns the results, and a note on omissions."""
    begun, done, note = time.monotonic(), list[Tried](), ""
    ci = [] if words or is_quick else [proved()]
    program = quick_program() if is_quick else MADE
    if program.exists():
        done += [] if is_quick else [tried(edits_part(), str(program))]
        others, note = tried_over(program, is_quick, fresh)
        done += others
    else:
        ci.append(Tried("the program", Sum(0, 1), 0, "none of these sources is built, so no part is tried: ./build makes one"))
    tell_minutes(begun, [*ci, *done])
    return [*ci, *done], note


def main(words: list[str]) -> int:
    fresh = seeds.fresh() if "--fresh" in words else None
    words = [word for word in words if word != "--fresh"]
    if words not in ([], ["--built"], ["--quick"], ["--needs"]):
        is_asked = words in (["--help"], ["-h"])
        print(HELP, file=sys.stdout if is_asked else sys.stderr)
        return 0 if is_asked else MISTYPED
    if words == ["--needs"]:
        return needs.main([])
    # A shell that starts this in the background has ^C ignored, and so would all programs that the tests interrupt.
    signal.signal(signal.SIGINT, signal.default_int_handler)
    lacks_prover = not words and shutil.which("rt") is None
    done, note = tried_and_told(words, lacks_prover or words == ["--quick"], fresh)
    if lacks_prover:
        note += "; this isn't the gate: no proof, edit or test was tried, since there is no rt on the path"
    again = [f"{one.name}: {line}" for one in done for line in one.again]
    if len(again) > MOST_AGAIN:
        done.append(
            Tried("second tries", Sum(0, 1), 0, f"{len(again)} things passed at the second try alone, of which {MOST_AGAIN} may")
        )
    print("".join(f"{line}\n" for line in again), end="")
    for one in done:
        if one.sum.failed:
            print(f"== failed in {one.name}\n{one.faults}")
    failed = sum(one.sum.failed for one in done)
    print(f"{sum(one.sum.passed for one in done)} passed, {failed} failed{note}")
    return 1 if failed else NOT_THE_GATE if lacks_prover else 0


if __name__ == "__main__":
    sys.exit(main(sys.argv[1:]))
