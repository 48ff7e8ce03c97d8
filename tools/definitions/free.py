"""Rule Free: the definitions answer drawn sessions by it, and the program audits what they say.

The program writes no history by rule Free. So the definitions write one history per session, in version 2, and `dummynet audit` has
to find it valid. Where a session has other replies by rule Ordered, the program has to find the first of these in a history that
says Free.
"""

import subprocess
from collections.abc import Iterator, Sequence
from itertools import chain
from pathlib import Path
from tempfile import TemporaryDirectory

from emulator import Emulator
from records import Entry, call_of, reply_records
from tally import Tally
from values import NIL, apply, data

SESSIONS = 200
LEAST_DIFFERENT = 5  # sessions in which the rules answer otherwise
FREE, ORDERED = "dummynet-history,2", "dummynet-history,3"


def answered(emulator: Emulator, lines: Sequence[str], rule: str) -> list[Entry]:
    """Returns the calls with the definitions' replies."""
    emulator.definitions.forget()
    reply = emulator.definitions.value("Replies", "reply")
    under = data(f"Rule.{rule}")
    calls = NIL
    entries = []
    for line in lines:
        call = call_of(line)
        entries.append(Entry(line, reply_records(apply(reply, under, calls, call))))
        calls = data("∷", call, calls)
    return entries


def audited(program: str, folder: Path, first: str, entries: Sequence[Entry]) -> str:
    """Returns the program's verdict on a history."""
    lines = [first, *(line for entry in entries for line in (entry.call, *entry.reply)), f"end,{len(entries)}"]
    (folder / "history").write_text("".join(line + "\n" for line in lines))
    return subprocess.run([program, "audit", folder / "history"], stdout=subprocess.PIPE, text=True, timeout=120).stdout.strip()


def compare(tally: Tally, emulator: Emulator, program: str, sessions: Sequence[list[Entry]], more: Iterator[list[Entry]]) -> None:
    """Answers these sessions, and more until enough of them are answered otherwise."""
    different = tried = 0
    with TemporaryDirectory() as folder:
        for entries in chain(sessions[:SESSIONS], more):
            if tried >= len(sessions[:SESSIONS]) and different >= LEAST_DIFFERENT:
                break
            free = answered(emulator, [entry.call for entry in entries], "Free")
            said = audited(program, Path(folder), FREE, free)
            place = next((place for place, (one, other) in enumerate(zip(free, entries)) if one.reply != other.reply), None)
            told = (
                [audited(program, Path(folder), ORDERED, free), audited(program, Path(folder), FREE, entries)]
                if place is not None
                else []
            )
            different, tried = different + (place is not None), tried + 1
            if (said, told) != (f"lawful {len(free)}", [f"differs {place}"] * len(told)):
                tally.note(f"session {tried - 1} by rule Free", f"{said}; by the other rule {told}, and they differ at {place}")
    print(f"rule Free: {tried} sessions, {different} of them answered otherwise than by rule Ordered")
    tally.note("sessions in which the rules differ", "" if different >= LEAST_DIFFERENT else f"{different}, so little is shown")
