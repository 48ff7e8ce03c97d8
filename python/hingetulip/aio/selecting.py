"""Replaces `select`, `poll` and `epoll` in a run: they accept simulated sockets, and yield to other threads instead of waiting."""

from __future__ import annotations

from typing import TYPE_CHECKING, Any, Callable, Optional

from hingetulip.aio.member import LONGEST
from hingetulip.aio.switched import Function

if TYPE_CHECKING:
    from hingetulip.aio.descriptors import Descriptors

Ask = Callable[[Any], Any]  # calls the system's function with a timeout, and returns its result


class Selecting:
    """Makes the run's version of each call that waits for descriptors from `own`, the system's version."""

    def __init__(self, descriptors: Descriptors) -> None:
        self.descriptors = descriptors
        self.baton = descriptors.loop.baton

    def answer(self, ask: Ask, timeout: Any, nothing: Any, scale: float = 1, has_own: bool = False) -> Any:
        """Returns the result of a call, once a descriptor is ready or after the timeout. `nothing` is the result without a ready
        descriptor, and `scale` the timeout's units in a second.

        A call for system descriptors alone waits in real time in the loop's thread, and in other threads if the run has processes.
        A call that `has_own` timers, like another event loop's, never does. RealTimeError: the loop's thread would wait for a
        simulated socket.
        """
        answers = [nothing]

        def ready() -> bool:
            self.descriptors.settle()
            answers[0] = ask(0)
            return bool(answers[0] != nothing)

        def really() -> Optional[bool]:
            is_bounded = seconds is not None and seconds < LONGEST
            answers[0] = ask(timeout if is_bounded else LONGEST * scale)
            if answers[0] != nothing:
                return True
            return False if is_bounded else None

        seconds = None if timeout is None or timeout < 0 else timeout / scale
        member = self.baton.member()
        is_of_system = not (has_own or self.is_simulated(ask, nothing))
        if member is not None and seconds == 0 and not has_own:
            seconds = member.polling_wait(self.baton.loop.clock.now)
        own_wait = really if member is None and is_of_system else None
        is_met = self.baton.wait(ready, seconds, own_wait, is_of_process=is_of_system)
        if member is None and seconds == 0 and not has_own and not is_met:
            self.baton.look()
        return answers[0]

    def is_simulated(self, ask: Ask, nothing: Any) -> bool:
        """Returns whether a call concerns a simulated socket: whether it returns any descriptor if all simulated sockets are
        readable."""
        ask(0)  # lets each simulated socket open its descriptor
        self.descriptors.settle(are_all=True)
        has_result = ask(0) != nothing
        self.descriptors.settle()
        return bool(self.descriptors.sockets) and has_result

    def select(self, own: Function) -> Function:
        """Returns `select.select`, which other event loops call without descriptors to wait for their timers."""

        def selected(*arguments: Any) -> Any:
            timeout = arguments[3] if len(arguments) > 3 else None
            return self.answer(lambda most: own(*arguments[:3], most), timeout, ([], [], []), has_own=not any(arguments[:3]))

        return selected

    def poll(self, own: Function) -> Function:
        """Returns a poll object's `poll`."""
        return lambda poll, timeout=None: self.answer(lambda most: own(poll, most), timeout, [], 1000)

    def epoll(self, own: Function) -> Function:
        """Returns an epoll object's `poll`, which event loops call."""

        def poll(epoll: Any, timeout: Any = None, maxevents: int = -1) -> Any:
            return self.answer(lambda most: own(epoll, most, maxevents), timeout, [], has_own=True)

        return poll
