"""The link emulator dummynet, as ipfw(8) configures it: packets enter with their arrival moments, and leave when they are due.

    import hingetulip

    with hingetulip.Shaper() as shaper:
        shaper.configure("pipe 1 config bw 8Mbit/s delay 20ms")
        shaper.submit(0, 1000, pipe=1)
        print(shaper.collect(shaper.wake()))

Moments are whole nanoseconds on the caller's clock, from 0 to LAST_MOMENT. Lengths are bytes. Only the words that a Shaper draws
for packets without a word are random, and they follow from its seed.

The emulator is the C library libhingetulip.so. The module looks for the library when it is imported: at HINGETULIP_LIBRARY, if that
is set, otherwise beside the module, then in the `lib` folder of the module's prefix, and finally where the system looks.
"""

from __future__ import annotations

from hingetulip.audits import Audit, audit
from hingetulip.batches import Deliveries, Fates, Packets
from hingetulip.entries import Entry, EntryCall, EntryReply, History, Submitted, read_history
from hingetulip.errors import (
    ClosedError,
    ExhaustedError,
    HingetulipError,
    HistoryError,
    InUseError,
    LineError,
    OutOfMemoryError,
    RangeError,
    RefusedError,
    RowError,
)
from hingetulip.library import HISTORY_LIMIT, LAST_MOMENT, LIBRARY, VERSION
from hingetulip.packet_file import read_packets
from hingetulip.records import Delivery, Fate, FlowStatus, Outcome, Rule, Verdict
from hingetulip.service import Caller, Service
from hingetulip.shaper import Shaper

__all__ = [
    "HISTORY_LIMIT",
    "LAST_MOMENT",
    "LIBRARY",
    "VERSION",
    "Audit",
    "Caller",
    "ClosedError",
    "Deliveries",
    "Delivery",
    "Entry",
    "EntryCall",
    "EntryReply",
    "ExhaustedError",
    "Fate",
    "Fates",
    "FlowStatus",
    "HingetulipError",
    "History",
    "HistoryError",
    "InUseError",
    "LineError",
    "OutOfMemoryError",
    "Outcome",
    "Packets",
    "RangeError",
    "RefusedError",
    "RowError",
    "Rule",
    "Service",
    "Shaper",
    "Submitted",
    "Verdict",
    "audit",
    "read_history",
    "read_packets",
]
__version__ = VERSION
