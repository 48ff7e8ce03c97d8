"""The functions of a source file in the layout of rt fmt."""

from __future__ import annotations

import re
from dataclasses import dataclass
from functools import lru_cache
from pathlib import Path
from typing import Optional

FN = re.compile(r'( *)(?:pub(?:\([a-z]+\))? )?(?:const )?(?:unsafe )?(?:extern "C" )?fn (\w+)')
CLOSURE = re.compile(r"\+fn-(\w+)-.*")  # the folder that has the proofs of a closure in a function
IMPL = re.compile(r"impl(?:<.*?>)? (?:(?:\w+::)*(\w+)(?:<.*>)? for )?&?(?:'\w+ )?(?:mut )?(?:\w+::)*(\w+)")


@dataclass(frozen=True)
class Function:
    """A function: its file, its path as the prover prints it without a method's module, and its lines: its first attribute, its
    signature, and its end."""

    file: str
    path: tuple[str, ...]
    head: int
    first: int
    last: int

    def __str__(self) -> str:
        return "::".join(self.path)

    def owns(self, name: str) -> bool:
        """Returns whether a name of the prover, without the crate, denotes the function or a closure in it."""
        parts = tuple(CLOSURE.sub(r"\1", part) for part in name.split("::") if part != "fn")
        places = range(len(parts) - len(self.path) + 1) if self.path[0][:1].isupper() else range(1)
        return any(parts[place : place + len(self.path)] == self.path for place in places)


def module_of(file: str) -> tuple[str, ...]:
    parts = Path(file).with_suffix("").parts[1:]
    return parts[:-1] if parts[-1] in ("lib", "main", "mod") else parts


def end_of(lines: list[str], first: int, indent: str) -> int:
    """Returns the last line of the item that begins here: the first later line that closes at the same depth."""
    closed = (place for place in range(first, len(lines)) if lines[place].rstrip() in (f"{indent}}}", f"{indent};"))
    alone = lines[first].rstrip().endswith(("}", ";"))
    return first if alone else next(closed, len(lines) - 1)


def impl_name(line: str) -> Optional[str]:
    """Returns the prover's name for an impl: the type, followed by the trait."""
    found = IMPL.match(line)
    return f"{found[2]}{found[1] or ''}" if found else None


@lru_cache(maxsize=None)
def functions(folder: Path, file: str) -> list[Function]:
    """Returns the functions with a body, in order. Nested functions belong to the outer one."""
    lines = (folder / file).read_text().split("\n")
    found: list[Function] = []
    holder: Optional[str] = None
    for place, line in enumerate(lines):
        if line.startswith("impl"):
            holder = impl_name(line)
        begun = FN.match(line)
        if not begun or found and place <= found[-1].last - 1:
            continue
        path = (holder, begun[2]) if begun[1] and holder else (*module_of(file), begun[2])
        head = place
        while lines[head - 1].strip().startswith(("#[", "///")):
            head -= 1
        found.append(Function(file, path, head + 1, place + 1, end_of(lines, place, begun[1]) + 1))
    return found


def function_at(folder: Path, file: str, line: int) -> Optional[Function]:
    """The function that has this line, the first being 1."""
    return next((one for one in functions(folder, file) if one.head <= line <= one.last), None)
