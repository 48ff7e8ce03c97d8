"""Sorts why each edit was refused, from what `rt must-fail`, `rt ci`, tools/gate/edits.py or `./check` printed.

    ./check | tee log; python3 tools/edits/mustfail_reasons.py < log

The kinds are those of tools/edits/verdict.py: only a promise or an answer tells something of the contract. An answer is
a proof file that no longer fits: look whether its goal is a promise or the name of a step. The last line counts each
kind and all edits. The status is 1 if there is any other kind, among them an edit that wasn't tried or refused.
"""

import re
import sys
from collections import Counter
from pathlib import Path
from typing import Optional

sys.path.insert(0, str(Path(__file__).resolve().parent.parent))

from edits.verdict import DECIDED, goal_of, kind_of  # noqa: E402

BY_RT = re.compile(r"must-fail (\S+?)(?:\.edit)?: (refused, as it must be|NOT REFUSED|BAD EDIT|NOT TRIED)(.*)")
BY_US = re.compile(r"edit (\S+): (?:refused.*?, (\w+): (\S+) at (\S+)|(NOT REFUSED|BAD EDIT|not tried))")
OTHERWISE = {"NOT REFUSED": "unrefused", "BAD EDIT": "bad", "NOT TRIED": "untried", "not tried": "untried"}


def sorted_of(line: str) -> Optional[tuple[str, str, str]]:
    """Returns the kind, the edit and the refusing goal of a verdict's line, or None."""
    ours = BY_US.search(line)
    if ours:
        return ours[2] or OTHERWISE[ours[5]], ours[1], ours[4] or ""
    found = BY_RT.search(line)
    if not found:
        return None
    name, what, told = found.groups()
    if what in OTHERWISE:
        return OTHERWISE[what], name, ""
    only = "form" if "(only because" in told else "limit" if "(only by a limit" in told else ""
    return only or kind_of(told), name, goal_of(told)


def main() -> int:
    counts: Counter[str] = Counter()
    for kind, name, goal in filter(None, map(sorted_of, sys.stdin)):
        counts[kind] += 1
        print(f"{kind:9} {name}  {goal}")
    print(" ".join(f"{kind}={count}" for kind, count in sorted(counts.items())), f"all={sum(counts.values())}")
    return 0 if set(counts) <= set(DECIDED) else 1


if __name__ == "__main__":
    sys.exit(main())
