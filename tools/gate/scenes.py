"""The scenes of examples, in a folder: those that tools/release/examples.py writes, and the files that are kept."""

import shutil
import subprocess
import sys
from pathlib import Path

TOP = Path(__file__).resolve().parent.parent.parent
EXAMPLES = TOP / "examples"


def made_scenes(folder: Path) -> Path:
    place = folder / "scenes"
    place.mkdir()
    subprocess.run([sys.executable, TOP / "tools" / "release" / "examples.py", place], check=True)
    for kept in EXAMPLES.glob("shared.*"):
        shutil.copy(kept, place)
    return place
