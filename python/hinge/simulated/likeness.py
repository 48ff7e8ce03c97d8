"""Compares the input of a run with an earlier run's, by both summaries."""

from __future__ import annotations

from typing import Any, Iterator

from hinge.border.files import read_object
from hinge.command import Fault
from hinge.run.words import Wrong
from hinge.simulated.failures import WORDS_KEY

GIVEN = ("kernel", "cpu", "processor", "at")  # a summary's entries about inputs, apart from `given`
TIMES = ("simulated", "spun")  # a summary's entries that equal runs have in common


def earlier(path: str) -> "dict[str, Any]":
    """Returns the summary of an earlier run in simulated time. Wrong: the file can't be read, or isn't such a summary."""
    strange = "no summary of a run in simulated time, as --json writes it"
    try:
        record = read_object(path, strange)
    except OSError as error:
        raise Wrong(f"--like: {path}: {error.strerror}") from None
    except Fault as fault:
        raise Wrong(f"--like: {fault}") from None
    if not isinstance(record.get("given"), dict):
        raise Wrong(f"--like: {path}: {strange}")
    return record


def what_differs(before: "dict[str, Any]", present: "dict[str, Any]") -> "list[str]":
    """Returns the names of the inputs in which two summaries differ."""
    entries = [name for name in GIVEN if before.get(name) != present.get(name)]
    checksums = [name for name, checksum in before["given"].items() if checksum != present["given"].get(name)]
    return entries + checksums


def why_different(path: str, before: "dict[str, Any]", present: "dict[str, Any]") -> str:
    """Returns a word on the way in which a file differs between two summaries."""
    if path in before["files"] and path in present["files"]:
        return "other"
    if path in before.get("absent", ()):
        return "new:"
    return "gone:" if path in present["absent"] else "not read by both:"


def files_text(before: "dict[str, Any]", present: "dict[str, Any]") -> str:
    """Returns a text about the first file in which two summaries differ, in the order in which the earlier run opened the files,
    and then the present run. A file that a run changed counts last, since its earlier checksum is unknown."""
    earlier_files = before.get("files")
    files = present["files"]
    if not isinstance(earlier_files, dict):
        return ""
    paths = {**earlier_files, **files}
    changed_paths = [path for path in paths if [] in (earlier_files.get(path), files.get(path))]
    different = [path for path in paths if earlier_files.get(path) != files.get(path) and path not in changed_paths]
    first, *more = [*different, *changed_paths] or [""]
    others = f" and {len(more)} more files" if more else ""
    if different:
        return f"; {why_different(first, before, present)} {first}{others}"
    same = f"; the same {len(earlier_files) - len(changed_paths)} files"
    return f"{same}, beside {first}{others} that a run changed" if changed_paths else same


def remarks(path: str, before: "dict[str, Any]", present: "dict[str, Any]") -> Iterator[str]:
    """Yields remarks that compare the present summary with the earlier one, which is the file at `path`."""
    differing = what_differs(before, present)
    text = f"other {', '.join(differing)}" if differing else "the same words, environment, folder, input and kernel"
    if WORDS_KEY in before and isinstance(before.get("ended"), dict):
        end = present.get("ended", {}).get("name", "no end of its own")
        earlier_end = before["ended"]["name"]
        comparison = "as then" if end == earlier_end else f"and then by {earlier_end}"
        yield f"--like {path}: it ends by {end}, {comparison}"
    time = "the same" if all(before.get(name) == present[name] for name in TIMES) else "not the same"
    yield f"--like {path}: {text}{files_text(before, present)}; the simulated time is {time}"
