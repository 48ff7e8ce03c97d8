"""The state of a machine that was killed, which the machine's kernel writes to a file in shared memory."""

from __future__ import annotations

import struct
from pathlib import Path
from typing import NamedTuple, Optional

from hinge.simulated.calls_of_linux import call_name

NAME, PLACE = "stood", struct.Struct("=5Q16s")
MANY = 10_000  # calls without a wait that are worth a word


class Stood(NamedTuple):
    """Describes a machine's state: the simulated time and the moment of the last wait, in ns, and the calls since that moment."""

    now: int
    since: int
    calls: int
    process: int
    call: str
    program: str

    def line(self) -> str:
        where = f"simulated time was at {self.now / 1e9:.6f} s"
        last = f"the last was {self.call} by process {self.process} ({self.program})"
        if self.calls < MANY:
            return f"{where}; {last}"
        return f"{where}; nothing has waited since {self.since / 1e9:.6f} s, in {self.calls:,} calls, of which {last}"


def make_place(folder: Path) -> None:
    """Creates the file to which the machine's kernel writes its state."""
    (folder / NAME).write_bytes(bytes(PLACE.size))


def stood(folder: Path, start: int) -> Optional[Stood]:
    """Returns the state that the kernel reported last, if any. `start` is the moment in ns at which the job began."""
    now, since, calls, process, call, name = PLACE.unpack((folder / NAME).read_bytes()[: PLACE.size])
    if not now:
        return None
    program = name.partition(b"\0")[0].decode(errors="replace")
    return Stood(max(0, now - start), max(0, since - start), calls, process, call_name(call), program)
