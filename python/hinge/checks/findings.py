"""A check's findings, printed at once."""

from __future__ import annotations

from dataclasses import dataclass

from hinge.border.terminal import printable, show

MOST_FAULTS = 20  # the faults of one file that are reported


@dataclass
class Findings:
    """Counts faults and warnings. `status` is the first fault's status, or 0."""

    faults: int = 0
    warnings: int = 0
    status: int = 0

    def fault(self, where: str, what: str, status: int) -> None:
        show(printable(f"{where}: {what}"))
        self.faults += 1
        self.status = self.status or status

    def warn(self, where: str, what: str) -> None:
        show(printable(f"{where}: warning: {what}"))
        self.warnings += 1
