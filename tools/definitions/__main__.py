"""Runs the definitions of the emulation from their own text, crates/dn_types/specs, in plain Python, and those of what C is told.

    python3 tools/definitions gate PROGRAM SEED CALLS   compares so many calls with the program, and tries wrong ones
    python3 tools/definitions audit FILE                audits a history or a transcript, as `dummynet audit`
    python3 tools/definitions wrong PROGRAM [ROW ..]    tries wrong definitions, all or these, and prints a table
    python3 tools/definitions changes PROGRAM [SEED]    tries changes made mechanically, all or a share by the seed
    python3 tools/definitions checks                    tries the checker itself

It shares no code with Rattle, with the crates or with tools/oracle. A command is read in its canonical form alone, and
numbers as the program writes them: what a text may be else, the other references try. An audit takes some 2 ms a call
of a short history, and a time as the square of its calls of a long one.
"""

import sys
import threading
from collections.abc import Callable
from pathlib import Path

sys.path.insert(0, str(Path(__file__).resolve().parent.parent / "gate"))

import changes  # noqa: E402
import checks  # noqa: E402
import free  # noqa: E402
import in_c  # noqa: E402
import lines  # noqa: E402
import wrong  # noqa: E402
from compare import Given, answered, first_difference, sessions  # noqa: E402
from emulator import Emulator, texts  # noqa: E402
from records import BadRecord, read_history  # noqa: E402
from tally import Tally  # noqa: E402

# A definition calls itself once for each thing that happened.
DEPTH, STACK = 10**6, 2**29
SESSIONS_IN_C, MOST_MORE = 30, 20_000  # sessions, and calls until the rules differ often enough
LAWFUL, DIFFERS, BAD, USAGE = 0, 1, 4, 2


def audit(path: str) -> int:
    try:
        history = read_history(Path(path).read_text())
        difference = Emulator(texts()).difference(history.rule, history.entries)
    except (BadRecord, OSError, UnicodeDecodeError) as fault:
        print(fault, file=sys.stderr)
        return BAD
    if difference is None:
        print(f"lawful {len(history.entries)}")
        return LAWFUL
    print(f"differs {difference.place}")
    print(difference.what, file=sys.stderr)
    return DIFFERS


def gate(program: str, seed: str, calls: str) -> int:
    """The part of the gate: the program's replies, then a share of the wrong definitions, and one of the changes."""
    tally = Tally()
    print(f"seed {seed}", flush=True)
    checks.all_of(tally)
    given = Given(list(sessions(program, int(seed), int(calls))), answered(program))
    made, difference = first_difference(Emulator(texts()), given)
    tally.note(f"{made} calls of {len(given.sessions)} sessions", difference.what if difference else "")
    print(f"{made} calls of {len(given.sessions)} sessions")
    free.compare(tally, Emulator(texts()), program, given.sessions, sessions(program, int(seed) + 1, MOST_MORE))
    others = wrong.what_is_given(program)
    wrong.try_share(tally, others, int(seed))
    given = changes.with_edges(program, others)
    share = changes.share(changes.of_replies(), int(seed), changes.SHARES, changes.UNSEEN)
    changes.try_changes(tally, share, lambda change: changes.what_differs(change, given), changes.UNSEEN)
    in_c.compare(tally, others.sessions[:SESSIONS_IN_C])
    lines.compare(tally)
    return tally.end()


def table(program: str, *numbers: str) -> int:
    tally = Tally()
    wrong.print_table(tally, program, [int(number) for number in numbers])
    return tally.end()


def changed(program: str, seed: str = "") -> int:
    tally = Tally()
    given = changes.with_edges(program, wrong.what_is_given(program))
    of_replies = changes.of_replies()
    some = changes.share(of_replies, int(seed), changes.SHARES, changes.UNSEEN) if seed else of_replies
    changes.try_changes(tally, some, lambda change: changes.what_differs(change, given), changes.UNSEEN)
    lines.compare(tally)
    return tally.end()


def main(words: list[str]) -> int:
    commands: dict[str, tuple[Callable[..., int], range]] = {
        "audit": (audit, range(1, 2)),
        "gate": (gate, range(3, 4)),
        "wrong": (table, range(1, 200)),
        "changes": (changed, range(1, 3)),
        "checks": (checks.main, range(1)),
    }
    if words[:1] == [] or words[0] not in commands or len(words) - 1 not in commands[words[0]][1]:
        print(__doc__, file=sys.stderr)
        return USAGE
    return commands[words[0]][0](*words[1:])


def run(statuses: list[int]) -> None:
    statuses.append(main(sys.argv[1:]))


if __name__ == "__main__":
    sys.setrecursionlimit(DEPTH)
    threading.stack_size(STACK)
    ended: list[int] = []
    worker = threading.Thread(target=run, args=(ended,), daemon=True)
    worker.start()
    worker.join()
    sys.exit(ended[0] if ended else 1)
