"""How many provers this machine can run at once."""

import os
import re
from pathlib import Path

# The most bytes that a prover of our crates takes (3.7 GiB were seen), and those that one takes beside it.
GREATEST_PROVER = 9 * 2**29
ANOTHER_PROVER = 4 * 2**29


def free_memory() -> int:
    """The bytes that are free, under the limit of the control group too."""
    found = re.search(r"MemAvailable:\s+(\d+) kB", Path("/proc/meminfo").read_text())
    limit = Path("/sys/fs/cgroup/memory.max")
    limits = [int(text) for text in [limit.read_text().strip() if limit.exists() else ""] if text.isdigit()]
    return min([1024 * int(found[1]) if found else 0, *limits])


def lanes() -> int:
    """How many provers run at once: one on each processor, as many as memory holds, and one at least."""
    return max(1, min(len(os.sched_getaffinity(0)), 1 + (free_memory() - GREATEST_PROVER) // ANOTHER_PROVER))
