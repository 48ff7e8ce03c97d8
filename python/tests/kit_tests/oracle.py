"""The reference (tools/oracle), against which the kit's queues are tested."""

import sys
from pathlib import Path

sys.path.append(str(Path(__file__).resolve().parents[3] / "tools" / "oracle"))

from fast import FastDummynet  # noqa: E402
from history import call_text, reply_lines  # noqa: E402
from program import configured  # noqa: E402
from scenarios import STYLES, random_calls  # noqa: E402

__all__ = ["STYLES", "FastDummynet", "call_text", "configured", "random_calls", "reply_lines"]
