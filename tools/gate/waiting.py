"""No caller that waits sleeps for ever: every schedule of a few callers, in a model of the lock and bell of dn_service.

    python3 tools/gate/waiting.py

The model has the steps of `Caller::call` that others see, from src/lock.rt, src/bell.rt and src/patience.rt, which have
to be as they were when it was written. `take` and `call_after` wait in the same way. A caller sleeps for ever if no
caller can make a step and it isn't done.

The model rests on this: the store that gives the word back is a fence, so that for all others the load of the bell
comes after it. If the store may wait in a buffer while that load is made, a caller does sleep for ever. The last model
has such a store, and has to fail. No contract says that the store is a fence: it is what `atomic_table` makes of it. So
tools/gate/fences.py counts such stores in the machine code.
"""

from collections import deque
from collections.abc import Iterator
from enum import Enum
from typing import NamedTuple, Optional

from tally import TOP, Tally, judge

SOURCES = TOP / "crates" / "dn_service" / "src"
# What the model was read from.
TEXTS = {
    "lock.rt": ["compare_exchange::<Try>(seat, 0, 0, number as u64 + 1);", "desk.table.shared.store::<Publish>(seat, 0, 0);"],
    "bell.rt": [
        "if self.word.load(Ordering::SeqCst) == 0 { self.word.store(1, Ordering::SeqCst); } }",
        "{ self.word.park(rt, 1); self.raise(); }",
        "if self.word.load(Ordering::SeqCst) != 0 && self.word.swap(0, Ordering::SeqCst) != 0 " "{ self.word.wake_one(); } }",
    ],
    "patience.rt": [
        "{ spin(*turns); self.spun += 1; if self.spun == SPINS.len() { bell.raise(); } }",
        "else { bell.sleep(rt); self.spun = 0; }",
    ],
}


class At(Enum):
    """The next step of a caller."""

    TRY = "tries to take the book"
    PUBLISH = "gives the book back"
    LOOK = "looks at the bell"
    SWAP = "swaps the bell"
    WAKE = "wakes a sleeper"
    RETURN = "returns"
    WAIT = "passes the time"
    SEE = "sees whether the bell is raised"
    RAISE = "raises the bell"
    PARK = "goes to sleep"
    ASLEEP = "sleeps"
    DONE = "is done"


class Caller(NamedTuple):
    """A caller: its next step, its remaining calls, its spins since the last sleep, whether its store waits in a buffer, and
    whether it raises the bell after a sleep."""

    at: At
    calls: int
    spun: int = 0
    is_buffered: bool = False
    has_slept: bool = False


class State(NamedTuple):
    """The word is 0, or k + 1 while caller k has the book. The bell is 1 while a caller may be asleep and nobody is about to wake
    it."""

    word: int
    bell: int
    callers: tuple[Caller, ...]


class Model(NamedTuple):
    """So many callers that make so many calls each, with so many spins before a sleep."""

    callers: int
    calls: int
    spins: int
    is_fence: bool = True  # whether the store that gives the word back is one
    wakes_by_itself: bool = False  # whether a sleeper may wake though nobody woke it

    def first(self) -> State:
        return State(0, 0, (Caller(At.TRY, self.calls),) * self.callers)

    def after(self, state: State) -> Iterator[tuple[str, State]]:
        """Yields each possible step of a caller, with the next state."""
        for place, caller in enumerate(state.callers):
            if caller.is_buffered:
                seen = with_caller(state._replace(word=0), place, caller._replace(is_buffered=False))
                yield f"the store of caller {place} is seen", seen
            for changed, new in self.steps(state, place, caller):
                yield f"caller {place} {caller.at.value}", with_caller(changed, place, new)

    def steps(self, state: State, place: int, caller: Caller) -> Iterator[tuple[State, Caller]]:
        """Yields the steps of a caller. A step that must be visible at once waits for the caller's store."""
        at = caller.at
        if at in (At.TRY, At.SWAP, At.RAISE) and caller.is_buffered:
            return
        if at is At.TRY and state.word == 0:
            yield state._replace(word=place + 1), caller._replace(at=At.PUBLISH)
        elif at is At.TRY:
            yield state, caller._replace(at=At.WAIT)
        elif at is At.PUBLISH:
            given_back = state._replace(word=0) if self.is_fence else state
            yield given_back, caller._replace(at=At.LOOK, is_buffered=not self.is_fence)
        elif at is At.LOOK:
            yield state, caller._replace(at=At.SWAP if state.bell else At.RETURN)
        elif at is At.SWAP:
            yield state._replace(bell=0), caller._replace(at=At.WAKE if state.bell else At.RETURN)
        elif at is At.WAKE:
            yield from woken(state, caller)
        elif at is At.RETURN:
            yield state, Caller(At.TRY if caller.calls > 1 else At.DONE, caller.calls - 1, 0, caller.is_buffered)
        else:
            yield from self.waits(state, caller)

    def waits(self, state: State, caller: Caller) -> Iterator[tuple[State, Caller]]:
        at = caller.at
        tries = caller._replace(at=At.TRY, spun=0 if caller.has_slept else caller.spun, has_slept=False)
        if at is At.WAIT and caller.spun < self.spins:
            yield state, caller._replace(at=At.SEE if caller.spun + 1 == self.spins else At.TRY, spun=caller.spun + 1)
        elif at is At.WAIT:
            yield state, caller._replace(at=At.PARK)
        elif at is At.SEE:
            yield state, tries if state.bell else caller._replace(at=At.RAISE)
        elif at is At.RAISE:
            yield state._replace(bell=1), tries
        elif at is At.PARK:
            yield state, caller._replace(at=At.ASLEEP) if state.bell else roused(caller)
        elif at is At.ASLEEP and self.wakes_by_itself:
            yield state, roused(caller)


def with_caller(state: State, place: int, caller: Caller) -> State:
    return state._replace(callers=(*state.callers[:place], caller, *state.callers[place + 1 :]))


def roused(caller: Caller) -> Caller:
    return caller._replace(at=At.SEE, has_slept=True)


def woken(state: State, caller: Caller) -> Iterator[tuple[State, Caller]]:
    """Yields the states in which one of the sleeping callers is woken."""
    asleep = [place for place, other in enumerate(state.callers) if other.at is At.ASLEEP]
    for place in asleep:
        yield with_caller(state, place, roused(state.callers[place])), caller._replace(at=At.RETURN)
    if not asleep:
        yield state, caller._replace(at=At.RETURN)


class Search(NamedTuple):
    """The number of states, and the steps to a state in which a caller sleeps forever, if any."""

    states: int
    steps: Optional[list[str]]


def search(model: Model) -> Search:
    """All states that the model can reach."""
    first = model.first()
    before: dict[State, Optional[tuple[State, str]]] = {first: None}
    left, stuck = deque([first]), None
    while left:
        state = left.popleft()
        is_stuck = any(caller.at is not At.DONE for caller in state.callers)
        for step, new in model.after(state):
            is_stuck = False
            if new not in before:
                before[new] = (state, step)
                left.append(new)
        stuck = state if is_stuck and stuck is None else stuck
    return Search(len(before), path(before, stuck) if stuck else None)


def path(before: dict[State, Optional[tuple[State, str]]], state: State) -> list[str]:
    steps = []
    while came := before[state]:
        state, step = came
        steps.append(step)
    return steps[::-1]


def main(tally: Tally) -> None:
    for name, texts in TEXTS.items():
        source = " ".join((SOURCES / name).read_text().split())
        for text in texts:
            tally.note(f"{name} is what the model has", "" if text in source else f"there is no more: {text}")
    for model in (Model(2, 2, 1), Model(2, 3, 2), Model(2, 2, 2, wakes_by_itself=True), Model(3, 1, 2), Model(3, 2, 1)):
        found = search(model)
        print(f"{model}: {found.states} states", flush=True)
        tally.note("a caller sleeps for ever", "; ".join(found.steps or []))
    unfenced = search(Model(2, 1, 1, is_fence=False))
    tally.note("a store that is no fence", "" if unfenced.steps else "no caller sleeps for ever")
    print("where the store is no fence: " + "; ".join(unfenced.steps or []))


if __name__ == "__main__":
    judge(main)
