"""Lists of the reference, over the program: histories that it has to find lawful, and configuration lines that a live session reads.

    python3 tools/gate/lists.py PROGRAM SEED

Each list is tried by a kept seed and by SEED. A history's calls have the reference's replies, under both rules, with deletes, queues that move
between pipes, masks, losses, limits, odd and unlimited bandwidths, and earlier moments. A line is answered by its canonical text, or by its
fault and the fault's word. When 2.0.0 was made, the kept histories refused 36 of 37 slips in the reference, and no list can show the last one.
"""

import subprocess
from pathlib import Path
from tempfile import TemporaryDirectory

from cases import first_difference
from tally import Tally, judge, ran

from config_line_cases import lines
from history import history_text
from live import session
from shaper_cases import histories

OF_HISTORIES, HISTORIES, CALLS = 10, 100, 45
OF_LINES, LINES = 1, 3000


def not_lawful(program: str, seed: int) -> str:
    """Returns the first history that the program finds wrong, with its verdict."""
    with TemporaryDirectory() as folder:
        file = Path(folder, "history")
        for number, (rule, calls, replies) in enumerate(histories(seed, HISTORIES, CALLS)):
            file.write_text(history_text(rule, calls, replies))
            told = ran(program, "audit", file).stdout
            if told != f"lawful {len(calls)}\n":
                return f"history {number}: {told}"
    return ""


def other_answer(program: str, seed: int) -> str:
    """Returns the first answer to a configuration line that isn't the reference's."""
    quoted = (line.replace('"', '""') for line in lines(seed, LINES))
    data = "".join(f'c,0,configure,"{line}"\n' for line in quoted).encode()
    texts, status = session(data)
    done = subprocess.run([program, "live"], input=data, capture_output=True)
    wanted = "".join(texts).encode()
    return "" if (done.stdout, done.returncode) == (wanted, status) else first_difference(wanted, done.stdout)


def main(tally: Tally, program: str, seed: str) -> None:
    for name, faults, kept in (("histories", not_lawful, OF_HISTORIES), ("configuration lines", other_answer, OF_LINES)):
        for one in (kept, int(seed)):
            tally.note(f"{name}, seed {one}", faults(program, one))


if __name__ == "__main__":
    judge(main)
