"""The pictures of the pages, drawn by the commands of the block above each, and compared with docs/pictures.

    python3 tools/gate/pictures.py [--write]

With --write they are put there. The same version of matplotlib has to draw the same pixels, but for a few where programs ran in simulated
time, whose ports may be others, or where another processor rounds otherwise. By another version more may differ.
"""

import os
import re
import shutil
import subprocess
import sys
from pathlib import Path
from tempfile import TemporaryDirectory

from installs import joined
from matplotlib.image import imread
from tally import TOP, Tally, judge, lacks

PICTURES = TOP / "docs" / "pictures"
PAGES = ("docs/CAPTURE.md", "docs/EMBEDDING.md")
DRAWN = re.compile(r"^```\w*\n((?:(?!```).*\n)+)```\n\n!\[[^\]]*\]\(pictures/(\S+)\)$", re.M)
VERSION = re.compile(rb"Matplotlib version[\d.]+")
LEAST = 4  # pictures
BY_THE_SAME, BY_OTHERS = 0.002, 0.03  # of the pixels may differ


def draw(block: str, place: Path) -> Path:
    """Runs a block's commands, the last of which draws; returns the picture."""
    commands = [line.replace("PREFIX/lib/python", "python") for line in joined(block)]
    env = {**os.environ, "PATH": f"{TOP}:{Path(sys.executable).parent}:{os.environ['PATH']}"}
    for name in ("examples", "python"):
        (place / name).symlink_to(TOP / name)
    done = subprocess.run(["sh", "-e"], input="\n".join(commands), cwd=place, env=env, capture_output=True, text=True)
    if done.returncode:
        raise SystemExit(f"{commands[-1]}: status {done.returncode}: {done.stderr}")
    return Path(place, re.findall(r"\S+\.png", block)[-1])


def difference(drawn: Path, kept: Path) -> str:
    """Returns the difference of a picture, or an empty text."""
    one = drawn.read_bytes()
    other = kept.read_bytes() if kept.exists() else b""
    is_same = VERSION.findall(one) == VERSION.findall(other)
    part = 0.0 if one == other else 1.0
    if part and other:
        pixels, before = imread(drawn), imread(kept)
        part = float((abs(pixels - before).max(axis=2) > 0.2).mean()) if pixels.shape == before.shape else 1.0
    most = BY_THE_SAME if is_same else BY_OTHERS
    return f"{part:.1%} is another: look at it, and write it by tools/gate/pictures.py --write" if part > most else ""


def main(tally: Tally, *words: str) -> None:
    count = 0
    for block, name in [match for page in PAGES for match in DRAWN.findall((TOP / page).read_text())]:
        count += 1
        if "iperf3" in block and lacks(name, "iperf3"):
            continue
        with TemporaryDirectory() as folder:
            drawn = draw(block, Path(folder))
            if words == ("--write",):
                shutil.copyfile(drawn, PICTURES / name)
            tally.note(name, difference(drawn, PICTURES / name))
    tally.note("pictures", "" if count >= LEAST and count == len(list(PICTURES.iterdir())) else f"only {count} have commands")


if __name__ == "__main__":
    judge(main)
