"""Reports the waiting tasks and the places in the code where they wait."""

from __future__ import annotations

import asyncio
import linecache
from types import FrameType
from typing import TYPE_CHECKING, Optional

if TYPE_CHECKING:
    from hingetulip.aio.loop import Loop

# The names of the frame, and of the object for which the frame waits, in coroutines, generators and asynchronous generators.
CHAINS = (("cr_frame", "cr_await"), ("gi_frame", "gi_yieldfrom"), ("ag_frame", "ag_await"))


def step(awaited: object) -> tuple[Optional[FrameType], object]:
    """Returns the frame of a coroutine or generator, and the object for which the frame waits; None and None for other objects."""
    for frame, inner in CHAINS:
        if hasattr(awaited, inner):
            return getattr(awaited, frame), getattr(awaited, inner)
    return None, None


def frames(task: asyncio.Task[object]) -> list[FrameType]:
    """Returns a task's frames, from its coroutine to the innermost waiting frame."""
    chain: list[FrameType] = []
    awaited: object = task.get_coro()
    while awaited is not None:
        frame, awaited = step(awaited)
        if frame is not None:
            chain.append(frame)
    return chain


def is_of_user(frame: FrameType) -> bool:
    """Returns whether a frame belongs to code outside asyncio and this package."""
    name = str(frame.f_globals.get("__name__", ""))
    return not name.startswith(("asyncio.", "hingetulip.aio"))


def place(task: asyncio.Task[object]) -> str:
    """Returns the place where a task waits: the innermost line outside asyncio and this package."""
    of_user = [frame for frame in frames(task) if is_of_user(frame)]
    if not of_user:
        return "it hasn't begun or isn't Python code"
    frame = of_user[-1]
    code = frame.f_code
    text = linecache.getline(code.co_filename, frame.f_lineno, frame.f_globals).strip()
    return f"{code.co_name}, {code.co_filename}:{frame.f_lineno}: {text}"


def waiting(loop: Loop) -> str:
    """Returns a line for each waiting task, in the order of creation, behind a headline; an empty text without such tasks."""
    lines = []
    for task in loop.pending():
        host = f" on {task.host.name}" if task.host else ""
        lines.append(f"\n  {task.get_name()}{host} waits in {place(task)}")
    return " These tasks wait:" + "".join(lines) if lines else ""
