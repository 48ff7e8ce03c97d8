"""Statements that a reader has to take apart, since they say several things at once.

    python3 tools/gate/dense.py [FILE ..]

These are assignments of unrelated values to several names, texts and lists that a condition multiplies, and conditional expressions
within each other. `growth.py` compares their number with an earlier commit's. Prints each place in the files, by default in all of Python.
"""

import ast
import subprocess
import sys
from collections.abc import Iterator
from pathlib import Path

from tally import TOP

WIDE = 96  # columns of an assignment to several names
LITERALS = (ast.Constant, ast.JoinedStr, ast.List, ast.Tuple)
PARTS = (ast.IfExp, ast.BoolOp, ast.Lambda, ast.NamedExpr, ast.ListComp, ast.SetComp, ast.DictComp, ast.GeneratorExp)
TESTS = ("bool", "any", "all", "isinstance")


def has_unrelated_values(node: ast.AST) -> bool:
    """Returns whether a statement assigns several values at once, and is wide or contains conditions, lambdas or comprehensions."""
    if not isinstance(node, ast.Assign) or not isinstance(node.targets[0], ast.Tuple) or not isinstance(node.value, ast.Tuple):
        return False
    is_wide = node.lineno != node.end_lineno or (node.end_col_offset or 0) - node.col_offset >= WIDE
    return is_wide or any(isinstance(part, PARTS) for value in node.value.elts for part in ast.walk(value))


def is_condition(node: ast.AST) -> bool:
    is_test = isinstance(node, ast.Call) and isinstance(node.func, ast.Name) and node.func.id in TESTS
    return is_test or isinstance(node, ast.Compare) or isinstance(node, ast.UnaryOp) and isinstance(node.op, ast.Not)


def is_multiplied_by_a_condition(node: ast.AST) -> bool:
    if not isinstance(node, ast.BinOp) or not isinstance(node.op, ast.Mult):
        return False
    sides = (node.left, node.right)
    return any(isinstance(side, LITERALS) for side in sides) and any(map(is_condition, sides))


def is_chain(node: ast.AST) -> bool:
    return isinstance(node, ast.IfExp) and any(isinstance(part, ast.IfExp) for part in (node.test, node.body, node.orelse))


def dense_lines(text: str) -> Iterator[int]:
    """Yields the line of each such statement or expression in a Python program."""
    for node in ast.walk(ast.parse(text)):
        if has_unrelated_values(node) or is_multiplied_by_a_condition(node) or is_chain(node):
            yield getattr(node, "lineno")


def main() -> None:
    listed = subprocess.run(["git", "ls-files", "*.py"], cwd=TOP, stdout=subprocess.PIPE, text=True, check=True).stdout.split()
    for name in sys.argv[1:] or [str(TOP / name) for name in listed]:
        text = Path(name).read_text(encoding="utf-8")
        for line in sorted(dense_lines(text)):
            print(f"{name}:{line}: {text.splitlines()[line - 1].strip()}")


if __name__ == "__main__":
    main()
