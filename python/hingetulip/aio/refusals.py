"""The texts of a run's refusals: calls that depend on the real clock or network, or that simulated hosts lack."""

from __future__ import annotations

SOCKET = "a socket of the system reaches the real network: simulated hosts have datagrams alone, by `socket.socket` and the loop"
NO_TCP = "simulated hosts have datagrams alone: `hinge run --simulated` takes programs with the kernel's TCP into simulated time"
SLEEP = "time.sleep stops no simulated clock: write `await asyncio.sleep(..)`, or `await asyncio.to_thread(function, ..)`"
BLOCKS = (
    "a call that waits stops the loop, and with it the simulated clock: write `await asyncio.to_thread(function, ..)`, or"
    " `await loop.sock_recv(..)`"
)
HANGS = "a thread of the run has waited for something real for 20 s, and the simulated clock stood still: give that wait a timeout"
NO_TRIO = "trio's sockets are the system's: use `socket.socket` with `trio.lowlevel.wait_readable`, or in `trio.to_thread.run_sync`"
NO_COPY = "a socket of a simulated host has one descriptor, for select and the like: it isn't copied, and its data isn't scattered"
OF_C = "C code began threads, whose clock is the system's: `hinge run --simulated` takes programs into simulated time"
ALLOWED = ", or set `real` of the network"


class RealTimeError(RuntimeError):
    """Raised if code in simulated time depends on the real clock or the real network."""
