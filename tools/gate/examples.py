"""The scenes: the program writes each report of the reference, and the page contains first.txt's scene.

    python3 tools/gate/examples.py PROGRAM
"""

import subprocess

from scenes import EXAMPLES, made_scenes
from tally import Tally, judge


def main(tally: Tally, program: str) -> None:
    scenes = made_scenes(tally.place)
    for report in sorted(scenes.glob("*.report")):
        name = report.stem
        done = subprocess.run([program, "replay", f"{name}.config", f"{name}.csv"], cwd=scenes, capture_output=True)
        same = (done.returncode, done.stdout, done.stderr) == (0, report.read_bytes(), b"")
        tally.note(name, "" if same else f"another report: status {done.returncode} {done.stderr!r}")
    tally.note("the count of scenes", "" if len(list(scenes.glob("*.report"))) >= 10 else "fewer than ten have a report")
    with open(EXAMPLES / "first.txt", "rb") as first:
        done = subprocess.run([program], stdin=first, capture_output=True, text=True)
    tally.note(
        "the report in examples/README.md",
        "" if f"< examples/first.txt\n{done.stdout}```" in (EXAMPLES / "README.md").read_text() else "isn't what first.txt gives",
    )


if __name__ == "__main__":
    judge(main)
