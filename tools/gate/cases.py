"""The fixed cases of the program and random ones of a seed, each with the outcome of the independent reference.

    python3 tools/gate/cases.py PROGRAM SEED COUNT

tools/oracle/program_cases.py has the cases. PROGRAM may have several words, as 'python3 tools/oracle/program.py'. Each case runs in
a separate folder with its files.
"""

import os
import shlex
import subprocess
from collections.abc import Iterable
from concurrent.futures import ThreadPoolExecutor
from pathlib import Path
from tempfile import TemporaryDirectory

from tally import Tally, judge

from program_cases import Case, cases

SECONDS = 120


def shortened(data: bytes) -> str:
    text = data.decode("utf-8", "backslashreplace")
    return repr(text if len(text) <= 400 else text[:200] + " .. " + text[-200:])


def first_difference(want: bytes, got: bytes) -> str:
    for i, (a, b) in enumerate(zip(want.split(b"\n"), got.split(b"\n")), 1):
        if a != b:
            return f"line {i}: want {shortened(a)}, got {shortened(b)}"
    return f"want {len(want)} bytes ending {shortened(want[-80:])}, got {len(got)} bytes ending {shortened(got[-80:])}"


def faults_of(program: list[str], case: Case, more: Iterable[str] = ()) -> list[str]:
    """Returns the faults in a case's run, with additional words."""
    with TemporaryDirectory() as place:
        for name, data in case.files.items():
            Path(place, name).write_bytes(data)
        try:
            done = subprocess.run([*program, *case.words, *more], input=case.stdin, capture_output=True, cwd=place, timeout=SECONDS)
        except subprocess.TimeoutExpired:
            return [f"no end within {SECONDS} s"]
        files = {file.name: file.read_bytes() for file in Path(place).iterdir() if file.is_file()}
    wanted = case.files | case.wanted.files
    faults = [
        f"file {name}: {first_difference(wanted.get(name, b''), files.get(name, b''))}"
        for name in sorted(wanted.keys() | files.keys())
        if wanted.get(name) != files.get(name)
    ]
    if done.returncode != case.wanted.status:
        faults.append(f"status: want {case.wanted.status}, got {done.returncode} (standard error {shortened(done.stderr)})")
    for stream in ("stdout", "stderr"):
        want, got = getattr(case.wanted, stream), getattr(done, stream)
        faults += [] if want == got else [f"{stream}: {first_difference(want, got)}"]
    return faults


def run(tally: Tally, program: list[str], tried: Iterable[tuple[Case, list[str]]]) -> None:
    """Runs cases with additional words, and notes their faults."""
    with ThreadPoolExecutor(max_workers=2) as pool:
        done = pool.map(lambda one: (one, faults_of(program, *one)), tried)
        for (case, more), faults in done:
            tally.note(" ".join([case.name, *more]), *faults)


def main(tally: Tally, program_text: str, seed: str, count: str) -> None:
    print(f"seed {seed}", flush=True)
    program = [os.path.abspath(word) if os.path.isfile(word) else word for word in shlex.split(program_text)]
    run(tally, program, ((case, []) for case in cases(seed, int(count))))


if __name__ == "__main__":
    judge(main)
