"""The docstrings of the kit and the modules: they name the exceptions that a function raises, and say what it returns.

    python3 tools/gate/docstrings.py

In what users import, a function that raises has a docstring.
"""

import ast
import re
from pathlib import Path
from typing import Iterator

from tally import Tally, judge

TOP = Path(__file__).resolve().parents[2] / "python"
IMPORTED = ("hingetulip/", "hinge/testing/", "hinge/net/running.py", "hinge/net/described.py")
Function = (ast.FunctionDef, ast.AsyncFunctionDef)
DOES = re.compile(
    r"(?:Runs|Writes|Has|Waits|Starts|Moves|Takes|Ends|Makes|Reads|Builds|Does|Begins|Sends|Adds|Refuses|Tries|Obeys|Lets) "
)
SAYS = re.compile(r"[:;]|\b(?:[Rr]eturns?|gives?|whether|answers?)\b")
NO_VALUE = re.compile(r"None|NoReturn|Iterator\[None\]|(?:typing\.)?Self")


def own(node: ast.AST) -> Iterator[ast.AST]:
    """Yields a function's own nodes, without those of nested definitions."""
    for child in ast.iter_child_nodes(node):
        if not isinstance(child, (*Function, ast.ClassDef, ast.Lambda)):
            yield child
            yield from own(child)


def raised(function: ast.FunctionDef | ast.AsyncFunctionDef) -> set[str]:
    """The classes that a function raises by name and doesn't catch."""
    nodes = list(own(function))
    causes = [
        node.exc.func if isinstance(node.exc, ast.Call) else node.exc for node in nodes if isinstance(node, ast.Raise) and node.exc
    ]
    names = {ast.unparse(cause).rpartition(".")[2] for cause in causes}
    caught = " ".join(ast.unparse(node.type) for node in nodes if isinstance(node, ast.ExceptHandler) and node.type)
    return {name for name in names if name[0].isupper() and name != "NotImplementedError" and not re.search(rf"\b{name}\b", caught)}


def faults(path: Path) -> Iterator[str]:
    name = str(path.relative_to(TOP))
    for holder in ast.walk(ast.parse(path.read_text(encoding="utf-8"))):
        for node in ast.iter_child_nodes(holder) if not isinstance(holder, Function) else ():
            if not isinstance(node, Function) or node.name.startswith("_"):
                continue
            text = ast.get_docstring(node) or ""
            place = f"{name}:{node.lineno}: {node.name}"
            unnamed = [it for it in sorted(raised(node)) if not re.search(rf"\b{it}\b", text)]
            if unnamed and (text or name.startswith(IMPORTED)):
                yield f"{place} doesn't name {', '.join(unnamed)}"
            if (
                DOES.match(text)
                and not SAYS.search(text)
                and node.returns
                and not NO_VALUE.fullmatch(ast.unparse(node.returns).strip("'"))
            ):
                yield f"{place} doesn't say what it returns"


def main(tally: Tally) -> None:
    for path in sorted(path for folder in ("hinge", "hingetulip") for path in (TOP / folder).rglob("*.py")):
        tally.note(str(path.relative_to(TOP)), *faults(path))


if __name__ == "__main__":
    judge(main)
