"""The actions that make rooms (network namespaces), recorded as steps, which the first process of a simulated machine performs
(rooms.c)."""

from __future__ import annotations

import threading
from functools import wraps
from typing import Any, Callable, Optional, TypeVar, cast

FIRST_INTERFACES = ("", "lo", "sit0")  # those of a new network in the machine; their places are the interfaces' numbers, from 1
Call = TypeVar("Call", bound=Callable[..., Any])


class Steps:
    """Records the calls of this thread within a `with` block. Each method has the name of the function that it replaces. Networks
    and interfaces are numbers in place of descriptors; network 0 belongs to the first process."""

    def __init__(self, root: str) -> None:
        """`root` is the folder that the machine has at /."""
        self.root = root
        self.texts = list[str]()  # the steps' words
        self.network = 0  # the current network's number
        self.interfaces = 0  # how many there are
        self.names = [[*FIRST_INTERFACES]]  # for each network, the names of its interfaces

    def __enter__(self) -> Steps:
        PRESENT.steps = self
        return self

    def __exit__(self, *_: object) -> None:
        PRESENT.steps = None

    def see_own_processes(self) -> None:
        """Does nothing: the machine's first process sees no other processes."""

    def unshare(self, _: int) -> None:
        self.network = len(self.names)
        self.names.append([*FIRST_INTERFACES])
        self.texts.append("room")

    def this_network(self) -> int:
        return self.network

    def enter(self, network: int) -> None:
        self.network = network
        self.texts += ["enter", str(network)]

    def try_to_write(self, path: str, text: str) -> None:
        self.texts += ["set", path, text]

    def put_over(self, path: str, text: str) -> None:
        self.texts += ["over", path, text]

    def open_tun(self, name: str, flags: int, offload: int, persists: bool) -> int:
        self.names[self.network].append(name)
        self.interfaces += 1
        self.texts += ["tun", name, str(flags), str(offload), str(self.index_of(name))]
        return self.interfaces - 1

    def index_of(self, name: str) -> int:
        return self.names[self.network].index(name)

    def send_batch(self, data: bytes, requests: "list[Any]") -> None:
        self.texts += ["ask", str(len(requests)), data.hex()]


class Present(threading.local):
    """Holds each thread's steps. A search plans several machines at a time: when a thread ends its recording, the calls of other
    threads must still be recorded."""

    steps: Optional[Steps] = None


PRESENT = Present()


def kept_as_step(do: Call) -> Call:
    """Wraps a function: while this thread records steps, a call is recorded instead; returns the new function."""

    @wraps(do)
    def record_or_do(*arguments: Any, **named_arguments: Any) -> Any:
        steps = PRESENT.steps
        function = getattr(steps, do.__name__) if steps else do
        return function(*arguments, **named_arguments)

    return cast(Call, record_or_do)


def at_root(path: str) -> str:
    """Returns the path at which this process finds a file of the rooms' system."""
    root = PRESENT.steps.root if PRESENT.steps else ""
    return root + path
