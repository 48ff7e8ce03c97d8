#!/usr/bin/env python3
"""Shows that an edit is refused for its mistake and not for its form.

An edit that adds code, a wrapper or a field would prove nothing if a change that does no harm in the same form were refused
too. So for each edit of the table below the mistake is undone and the form kept, and the crate has to prove. Edits that
only change a value have no entry: without the mistake they are the crate itself.

Usage: tools/edits/edit_controls.py [CRATE..] [CRATE/EDIT..]. It works in a copy of the repository, so the checkout stays as it is,
and prints a line for each control and then 'N controls prove, M do not'. The controls of a crate are tried together, and in
halves where together they are refused. RT is the command that checks, `rt` without it.

`tools/edits/edit_controls.py --missing` needs no prover. It names the edits that add code and have no control, and the edits and the
controls that no longer fit the sources, and ends with 'N passed, M failed'.
"""
import os
import re
import shlex
import shutil
import subprocess
import sys
import tempfile
from collections.abc import Iterator
from pathlib import Path

TOP = Path(__file__).resolve().parents[2]
sys.path[:0] = [str(TOP / "tools"), str(TOP / "tools" / "release")]

from build_program import copied, crate_of  # noqa: E402
from edits.edit import BOTH, Pair  # noqa: E402
from edits.edit import pairs_of as pairs_of_text  # noqa: E402

# An edit adds code where its new texts have more characters than this beyond the old ones, or more of these words.
MOST_ADDED = 40
NEW_CODE = re.compile(r"\b(?:fn|impl|trait|struct|enum|for|while|loop)\b")

LEAST = "ensures least { IfSome result (λ key. IsLeast %s key self.old.keys) } ensures keys {"
IS_LEAST = "ghost use Rattle.dn_heap.specs.Heap.{IsLeast}; "

# For each edit the pairs that undo its mistake, each applied to the text that the edit puts in.
CONTROLS = {
    "dn_types/a_copied_list_loses_its_last": [("items.pop()", "items.len()")],
    "dn_types/a_list_made_without_its_last": [("items.pop()", "items.len()")],
    "dn_types/copied_states_lose_their_last": [("items.pop()", "items.len()")],
    "dn_types/states_made_without_the_last": [("items.pop()", "items.len()")],
    "dn_heap/pop_keeps_its_room": [("self.room = room;", "self.room = self.room;")],
    "dn_heap/reserves_without_the_keys_of_the_heap": [(".min(n))", ".max(n))")],
    "dn_files/row_read_twice": [("self.start = start;", "let _ = start;")],
    "hingetulip_c/no_room_for_plain_rows": [("packets.len() == 1", "packets.len() == 0")],
    "dn_wf2q/empty_heaps": [
        ("self.arrivals", "self.eligible.moves() + self.waiting.moves()"),
        ("self.eligible.pop()", "self.eligible.moves()"),
        ("self.waiting.pop()", "self.waiting.moves()"),
    ],
    "dn_wf2q/left_in_waiting_heap": [("leave(&mut self.waiting, first);", "let _ = self.waiting.moves();")],
    "dn_wf2q/picks_ineligible": [("top.tag() * 0", "top.tag() * 1")],
    "dn_wf2q/without_the_least_key": [
        ("use dn_heap::PlacedHeap;", IS_LEAST + "ghost use Rattle.dn_wf2q.specs.Rank.{rank_cmp}; use dn_heap::PlacedHeap;"),
        ("ensures keys {", LEAST % "rank_cmp"),
    ],
    "dn_link/without_the_least_key": [
        ("trait Pops", IS_LEAST + "ghost use Rattle.dn_types.specs.Deliveries.{delivery_cmp}; trait Pops"),
        ("ensures keys {", LEAST % "delivery_cmp"),
    ],
    "dn_link/without_the_value_of_a_bandwidth": [("ensures in_range", "ensures value { result ≡ self } ensures in_range")],
    "dn_flows/limit_before_loss": [("&& !self.is_full(&rule.limit)", "&& self.len == self.len")],
    "dn_flows/an_active_flow_loses_its_place": [("std::mem::replace(&mut self.queues[flow].reserved, false)", "false")],
    "dn_flows/answers_the_flow_before": [("saturating_sub(1)", "saturating_sub(0)")],
    "dn_service/a_packet_recorded_twice": [("pages.history.push_reserved(", "drop(")],
    "dn_service/always_busy": [("number < 16", "number >= 16")],
    "dn_service/busy_without_a_try": [("number > 0", "number >= 16")],
    "dn_service/front_forgets": [("pages.history.clear();", "let _ = pages.history.len();")],
    "dn_service/hands_out_from_one": [("callers.remove(0);", "let _ = callers.len();")],
    "dn_service/invented_reply": [("number == 0", "number >= 16")],
    "dn_service/memory_after_change": [("pages.history.reserve(1)?;", "let _ = pages.history.len();")],
    "dn_service/close_always_refuses": [("callers.len() == self.count", "self.count == 0")],
    "dn_service/close_leaves_nothing": [("book.take(&mut away);", "let _away: Vec<Entry> = away;")],
    "dn_service/records_twice": [("let _ = self.try_once(&call);", "let _ = self.number();")],
    "dn_service/taker_calls_twice": [("let _ = self.caller.call(rt, Call::Show);", "let _ = self.caller.number();")],
    "dn_service/taker_drops_a_segment": [("let _ = self.caller.take(rt, &mut self.lasting);", "let _ = self.caller.number();")],
    "dn_service/taker_is_its_own_hindrance": [("self.caller.number() == 0", "self.caller.number() != self.caller.number()")],
    "dn_service/taker_takes_at_its_end": [("caller.try_take(&mut lasting)", "caller.number()")],
    "dn_service/taker_takes_at_its_start": [("caller.try_take(&mut lasting)", "caller.number()")],
    "dn_service/without_the_state_of_the_shaper": [("× ⊤)", "× StandsAfter rule self.new (call.now ∷ calls))")],
    "dn_shaper/collects_again": [("list.extend_from_slice(given)", "list.len()")],
    "dn_shaper/memory_after_change_the_flow": [("find_or_make(*key)", "len()")],
    "dn_shaper/collects_by_submission": [
        ("given.sort_unstable_by_key(|delivery| delivery.packet);", "given.reverse(); given.reverse();")
    ],
    "dn_shaper/no_flow_for_a_lost_packet": [("< drops.loss.get()", "< 0")],
    "dn_shaper/opening_reply": [("Reply::NoTarget { at }", "reply"), ("at: moment.get()", "at: at")],
    "dn_shaper/without_what_is_due": [
        ("Line.{after_due}", "Line.{after_due, due_first}"),
        ("ensures pending {", "ensures value { result ≡ due_first at self.old.pending } ensures pending {"),
    ],
    "dn_shaper/without_which_is_picked": [
        ("Wf2q.{raised};", "Wf2q.{pick, raised};"),
        (
            "ensures picks { ⊤ }",
            "ensures picks { result ≡ option_map (λ h. h.flow) (pick self.old.virtual_time (heads_of self.old.flows)) }",
        ),
    ],
    "dn_shaper/without_the_packet_pushed": [
        (
            "fn push_reserved(",
            "ghost use Rattle.std.specs.Prelude.{slice_set}; ghost use Rattle.dn_flows.specs.Table.{pushed}; fn push_reserved(",
        ),
        (
            "ensures keys {",
            "ensures flows { flows.new.flows ≡ slice_set flows.old.flows flow (pushed waiting (flow_at flows.old.flows flow)) } ensures keys {",
        ),
    ],
    "hingetulip_c/an_entry_is_longer_than_its_text": [("u64::from(line.len() == text.len())", "0")],
    "hingetulip_c/clears_the_next_place": [("list[given.len()].reserved = 0;", "let _ = given.len();")],
    "hingetulip_c/tells_a_packet_that_has_no_place": [("u64::from(front.rows.len() == packets.len())", "0")],
    "dn_files/without_the_fault_of_a_line": [("IfOk result (λ command. Ok command ≡ answer line.now)", "result ≡ answer line.now")],
    "dn_files/short_read_ends_the_feed": [("count < PART", "count == 0")],
    "dn_replay/a_part_too_long_spoils": [
        ("drop(mem::replace(&mut self.stage, Stage::Refused(ReplayFault::OutOfMemory)));", "let _ = self.length;")
    ],
    "dn_replay/faults_end_as_out_of_memory": [("Err(ReplayFault::OutOfMemory)", "Err(fault)")],
    "dn_replay/refused_memory_is_forgotten": [("Stage::Packets", "Stage::Refused(fault)")],
    "dn_replay/fault_before_a_failed_read": [("return Err(fault);", "let _ = fault;")],
    "dn_replay/without_the_answers_of_a_caller": [
        ("Prelude.{⊤, OnErr};", "Prelude.{OnErr}; ghost use Rattle.dn_service.specs.Callers.{Answered};"),
        ("(λ reply. ⊤)", "(λ reply. Answered self.old call reply self.new)"),
    ],
    "dn_history/without_the_replies_of_the_shaper": [
        (
            "ghost use Rattle.dn_types.specs.Clock",
            "ghost use Rattle.dn_types.specs.Replies.{reply}; ghost use Rattle.dn_types.specs.Clock",
        ),
        ("⊤ × StandsAfter", "(r ≡ reply rule calls call.now) × StandsAfter"),
    ],
}


def pairs_of(name: str) -> list[Pair]:
    """An edit's pairs, in order."""
    crate, edit = name.split("/")
    found = [path for folder in BOTH if (path := TOP / "crates" / crate / folder / f"{edit}.edit").exists()]
    return list(pairs_of_text(found[0].read_text()))


def adds_code(pairs: list[Pair]) -> bool:
    more = sum(len(new) - len(old) for _, old, new in pairs)
    words = sum(len(NEW_CODE.findall(new)) - len(NEW_CODE.findall(old)) for _, old, new in pairs)
    return more > MOST_ADDED or words > 0


class Misfit(Exception):
    """Why a control doesn't fit its edit, or an edit the sources."""


def controlled(name: str) -> list[Pair]:
    """Returns an edit's pairs with its mistake undone."""
    pairs = pairs_of(name)
    for wrong, right in CONTROLS[name]:
        if not any(wrong in new for _, _, new in pairs):
            raise Misfit(f"nothing to undo in {wrong!r}")
        pairs = [Pair(file, old, new.replace(wrong, right)) for file, old, new in pairs]
    return pairs


def applied(crate: Path, pairs: list[Pair], texts: dict[Path, str]) -> dict[Path, str]:
    """Returns the texts of a crate's files after an edit; `texts` contains earlier changes."""
    texts = dict(texts)
    for file, old, new in pairs:
        place = crate / file
        text = texts.get(place) or place.read_text()
        if text.count(old) != 1:
            raise Misfit(f"{file} has {old!r} {text.count(old)} times")
        texts[place] = text.replace(old, new, 1)
    return texts


def edits() -> list[str]:
    return sorted(f"{path.parent.parent.name}/{path.stem}" for folder in BOTH for path in TOP.glob(f"crates/*/{folder}/*.edit"))


def misfit(name: str) -> str:
    """Returns the error of an edit or its control that needs no prover, or an empty text."""
    try:
        pairs = controlled(name) if name in CONTROLS else pairs_of(name)
        applied(TOP / "crates" / name.split("/")[0], pairs, {})
    except Misfit as fault:
        return str(fault)
    return "it adds code and has no control" if name not in CONTROLS and adds_code(pairs) else ""


def missing() -> int:
    """Names the edits that lack a control, and what doesn't fit."""
    known = edits()
    faults = {name: misfit(name) for name in known} | {name: "there is no such edit" for name in CONTROLS if name not in known}
    for name, fault in faults.items():
        if fault:
            print(f"{name}: {fault}")
    failed = sum(1 for fault in faults.values() if fault)
    print(f"{len(faults) - failed} passed, {failed} failed")
    return 1 if failed else 0


def below(crate: str) -> list[str]:
    """Returns the repository's crates below a crate, lowest first, and the crate itself."""
    done = subprocess.run(
        [TOP / "tools" / "release" / "program_sources", "--crates", crate], stdout=subprocess.PIPE, text=True, check=True
    )
    return done.stdout.split()


def copy_of(names: set[str], folder: Path) -> None:
    """The crates with what a check kept in out/, so that the crates below prove no more than they have to."""
    for name in names:
        for part in ("src", "specs", "proofs", "out"):
            copied(TOP / "crates" / name / part, folder / "crates" / name / part)
    lines = [line for line in (TOP / "crates.txt").read_text().splitlines() if crate_of(line) in names]
    (folder / "crates.txt").write_text("".join(f"{line}\n" for line in lines))
    shutil.copyfile(TOP / "HANDLES", folder / "HANDLES")


def faults_of(crate: Path, names: list[str]) -> list[str]:
    """Applies the controls in the copy, checks the crate, and puts the sources back."""
    after: dict[Path, str] = {}
    for name in names:
        after = applied(crate, controlled(name), after)
    before = {place: place.read_text() for place in after}
    for place, text in after.items():
        place.write_text(text)
    words = [*shlex.split(os.environ.get("RT", "rt")), "check"]
    told = subprocess.run(words, cwd=crate, stdout=subprocess.PIPE, stderr=subprocess.STDOUT, text=True, errors="replace")
    for place, text in before.items():
        place.write_text(text)
    found = [line for line in told.stdout.splitlines() if re.search(r"error|it is not proved|gave up|: not proved", line)]
    return [] if told.returncode == 0 else found[:6] or ["the check ended without a word"]


def refused(crate: Path, names: list[str]) -> Iterator[tuple[str, list[str]]]:
    """Yields each refused control with the reason. If a list is refused, its halves are tried."""
    try:
        faults = faults_of(crate, names)
    except Misfit as fault:
        faults = [str(fault)]
    if faults and len(names) > 1:
        half = len(names) // 2
        yield from refused(crate, names[:half])
        yield from refused(crate, names[half:])
    else:
        yield from ((name, faults) for name in names)


def main(asked: list[str]) -> int:
    if asked == ["--missing"]:
        return missing()
    names = [name for name in CONTROLS if not asked or name in asked or name.split("/")[0] in asked]
    crates = list(dict.fromkeys(name.split("/")[0] for name in names))
    failed = 0
    with tempfile.TemporaryDirectory() as work:
        copy_of({name for crate in crates for name in below(crate)}, Path(work))
        for crate in crates:
            for name, faults in refused(Path(work) / "crates" / crate, [name for name in names if name.split("/")[0] == crate]):
                failed += bool(faults)
                print("REFUSED" if faults else "proves", name, *faults, sep="\n    " if faults else " ", flush=True)
    print(f"{len(names) - failed} controls prove, {failed} do not")
    return 1 if failed else 0


if __name__ == "__main__":
    sys.exit(main(sys.argv[1:]))
