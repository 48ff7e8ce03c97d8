"""The laws of dn_laws refuse wrong definitions: some rows of tools/laws, by turns.

    python3 tools/gate/laws.py [--anew] SEED

Of eight or nine rows that the seed chooses, refuted_laws.py asks that the prover refutes the law. With the seeds 0 to 29 each row is tried.

A row that passed is kept beside the verdicts on edits, under a checksum of everything that its trial reads: the crates, the scripts, the row's
refutation and the toolchain. A later run on this machine names such a row and doesn't try it again, unless it runs with --anew.
"""

import os
import re
import subprocess
import sys
from hashlib import sha256
from pathlib import Path

from tally import TOOLS, Tally, judge, ran

import wrong_definitions
from edits import kept, prover

LAWS = TOOLS / "laws"
SHARES = 30


def rows_of(seed: int) -> list[int]:
    """The numbers of the rows, which count from 1. They lie far apart, since neighbours are about one law."""
    return [*range(1 + seed % SHARES, len(wrong_definitions.ROWS) + 1, SHARES)]


def refutation_of(row: int) -> bytes:
    """Returns the text of the row's refutation, or an empty text."""
    head = f"-- Wrong: {wrong_definitions.ROWS[row - 1][0]}\n".encode()
    texts = (path.read_bytes() for path in sorted((LAWS / "refuted").glob("*.proof")))
    return next((text for text in texts if text.startswith(head)), b"")


def place_of(row: int) -> Path:
    """Returns the file that keeps the row's verdict; its name is a checksum of everything that the trial reads."""
    crates = ["dn_laws", *prover.below("dn_laws")]
    folders = [prover.CRATES / crate / part for crate in crates for part in prover.PARTS]
    files = [path for folder in folders for path in sorted(folder.rglob("*")) if path.is_file()]
    files += [*sorted(LAWS.glob("*.py")), *sorted((LAWS / "refuted").glob("dn_*")), prover.TOP / "crates.txt", Path(__file__)]
    texts = b"".join(sha256(path.read_bytes()).digest() for path in files)
    version = subprocess.run(["rt", "version"], stdout=subprocess.PIPE, check=True).stdout
    return kept.folder() / sha256(version + texts + repr(wrong_definitions.ROWS[row - 1]).encode() + refutation_of(row)).hexdigest()


def keep(place: Path) -> None:
    try:
        place.parent.mkdir(mode=0o700, parents=True, exist_ok=True)
        beside = place.with_name(f"{place.name}.{os.getpid()}")
        beside.write_text("refuted")
        os.replace(beside, place)
    except OSError:  # what can't be written isn't kept
        pass


def tried(tally: Tally, rows: list[int]) -> bool:
    """Runs refuted_laws.py over rows; returns whether all of them passed."""
    done = ran(sys.executable, LAWS / "refuted_laws.py", "--built", *rows, errors="replace")
    print(done.stdout, flush=True)
    wanted = (0, f"{len(rows)} refuted, 0 not refuted")
    seen = (done.returncode, (done.stdout.strip().splitlines() or [""])[-1])
    tally.equal(f"refuted_laws.py of rows {rows}", wanted, seen)
    tally.passed += len(re.findall(r"(?m): refuted$", done.stdout))
    return seen == wanted


def main(tally: Tally, *words: str) -> None:
    rows = rows_of(int(words[-1]))
    print(f"rows {', '.join(map(str, rows))}", flush=True)
    places = {row: place_of(row) for row in rows}
    old = [row for row in rows if places[row].exists() and "--anew" not in words]
    for row in old:
        print(f"row {row} is kept: an earlier run on this machine tried the same files: {places[row].read_text()}", flush=True)
        tally.note(f"row {row}")
    new = [row for row in rows if row not in old]
    if new and tried(tally, new):
        for row in new:
            keep(places[row])


if __name__ == "__main__":
    judge(main)
