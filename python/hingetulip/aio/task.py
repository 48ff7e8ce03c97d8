"""The loop's tasks, each with a number and a host."""

from __future__ import annotations

import asyncio
from typing import TYPE_CHECKING, Any, Coroutine, Optional, TypeVar

from hingetulip.aio.host import Host, here

if TYPE_CHECKING:
    from hingetulip.aio.loop import Loop

T = TypeVar("T")


class Task(asyncio.Task[T]):
    """A task whose hash is its number, so that sets of tasks, as in asyncio.wait, have the same order in each run."""

    def __init__(self, coroutine: Coroutine[Any, Any, T], *, loop: Loop, **more: Any) -> None:
        loop.count += 1
        self.number = loop.count
        context = more.get("context")
        self.host: Optional[Host] = here.get(None) if context is None else context.get(here)
        super().__init__(coroutine, loop=loop, **more)
        loop.keep(self)

    def __hash__(self) -> int:
        return self.number

    def has_lost_exception(self) -> bool:
        """Returns whether the task failed with an exception that no code has retrieved."""
        return self.done() and not self.cancelled() and bool(self._log_traceback)
