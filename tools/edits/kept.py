"""The verdicts of earlier runs on this machine, keyed by a checksum of all their inputs, so that none is stale."""

from __future__ import annotations

import json
import os
from hashlib import sha256
from pathlib import Path
from tempfile import NamedTemporaryFile
from typing import Optional

from edits.edit import Edit
from edits.prover import kit
from edits.verdict import Verdict


SCRIPTS = ("edit_controls.py", "mustfail_reasons.py")  # beside these modules; they judge no edit


def own_sum() -> bytes:
    """Returns the text of these modules, since other code may judge differently."""
    modules = sorted(path for path in Path(__file__).parent.glob("*.py") if path.name not in SCRIPTS)
    return b"".join(path.read_bytes() for path in modules)


def folder() -> Path:
    """Returns the folder of kept verdicts: inside that of `rt ci` if writable, otherwise in the user's cache."""
    beside = kit().parent / "rattle-kept" / "hingetulip"
    if os.access(beside if beside.is_dir() else beside.parent, os.W_OK):
        return beside
    return Path(os.environ.get("XDG_CACHE_HOME") or Path.home() / ".cache") / "hingetulip"


class Kept:
    """The verdicts on the edits of a crate whose sum this is."""

    def __init__(self, crate_sum: str) -> None:
        self.place = folder()
        self.sum = sha256(own_sum() + crate_sum.encode()).hexdigest()

    def path(self, edit: Edit) -> Path:
        return self.place / sha256(repr((self.sum, edit.name, edit.text)).encode()).hexdigest()

    def get(self, edit: Edit) -> Optional[Verdict]:
        try:
            kind, where, goal = json.loads(self.path(edit).read_text())
            return Verdict(str(kind), str(where), str(goal))
        except (OSError, ValueError):
            return None

    def put(self, edit: Edit, verdict: Verdict) -> None:
        """Keeps a verdict, written separately and then renamed. Failed writes are ignored."""
        try:
            self.place.mkdir(mode=0o700, parents=True, exist_ok=True)
            with NamedTemporaryFile("w", dir=self.place, delete=False) as file:
                json.dump(verdict, file)
            os.replace(file.name, self.path(edit))
        except OSError:
            pass
