"""The reader of a crate's specs, and of the types in its sources."""

import re
from dataclasses import dataclass, field
from pathlib import Path

from parser import Parser
from syntax import Equation
from tokens import NotUnderstood

VARIANTS = re.compile(r"use Rattle\.\w+\.specs\.declared\.[\w.]+?\.(\w+)\.TheVariants(?:\.\{(.*)\}| as (\w+))$")
IMPORT = re.compile(r"use Rattle\.(\w+)\.specs\.([\w.]+)\.\{(.*)\}$")
TYPE = re.compile(r"pub data (\w+)")
BIND = re.compile(r"(?m)^(?:infixl .*|abbrev pub ◌>>=◌ .*|\((?:Ok|Err) \w+\) >>= .*)\n")  # its meaning is the evaluator's
SIGNATURE = re.compile(r"(?:abbrev |unfoldable )(?:pub )?(\w+) :|pub (?:record|mod) ")
ENUM = re.compile(r"^pub enum (\w+) \{\n(.*?)^\}", re.M | re.S)
VARIANT = re.compile(r"^    (\w+)(?:\((.*?)\)| \{(.*?)\})?,$", re.M | re.S)


@dataclass
class Constructor:
    """A constructor's name, prefixed with its type's, and its number of parts."""

    name: str
    arity: int


@dataclass
class Spec:
    """A specs file: its names' meanings, and its equations by name, as text."""

    constructors: dict[str, Constructor] = field(default_factory=dict)
    imports: dict[str, str] = field(default_factory=dict)  # a name, and the file that it is from
    words: set[str] = field(default_factory=set)  # those of the standard library
    texts: dict[str, list[str]] = field(default_factory=dict)

    def equations(self, name: str) -> list[Equation]:
        return [Parser(text).equation() for text in self.texts[name]]


def declared(sources: Path) -> dict[str, dict[str, int]]:
    """Returns the variants of each `enum` in a crate's sources, with their numbers of parts."""
    found = {}
    for path in sorted(sources.rglob("*.rt")):
        text = re.sub(r"^ *//.*\n", "", path.read_text(), flags=re.M)
        for name, body in ENUM.findall(text):
            found[name] = {
                variant: len([part for part in (parts or fields).split(",") if part.strip()])
                for variant, parts, fields in VARIANT.findall(body)
            }
    return found


def blocks(text: str) -> list[list[str]]:
    """The lines of each declaration or equation, without comments. A line that begins with a letter begins one."""
    found: list[list[str]] = []
    for line in text.splitlines():
        line = re.sub(r"(^| )--( .*)?$", "", line).rstrip()
        if line[:1].isalpha():
            found.append([line])
        elif line and found:
            found[-1].append(line)
    return found


def names(text: str) -> list[tuple[str, str]]:
    """Returns the names in an import list, each with its local name."""
    pairs = [item.strip().partition(" as ") for item in text.split(",") if item.strip()]
    return [(name, here or name) for name, _, here in pairs]


def read(text: str, types: dict[str, dict[str, int]], crate: str = "dn_types") -> Spec:
    """Reads a file's text. Types of functions are skipped, since the prover has checked them."""
    spec = Spec()
    for block in blocks(BIND.sub("", text)):
        line = " ".join(part.strip() for part in block)
        if found := VARIANTS.match(line):
            alls = [(name, f"{found[3]}.{name}") for name in types[found[1]]] if found[3] else names(found[2])
            for name, here in alls:
                spec.constructors[here] = Constructor(f"{found[1]}.{name}", types[found[1]][name])
        elif found := IMPORT.match(line):
            read_import(spec, found, crate)
        elif found := TYPE.match(line):
            for part in block[1:]:
                name, _, type_of = part.strip().partition(" : ")
                spec.constructors[name] = Constructor(f"{found[1]}.{name}", type_of.count("→"))
        elif not SIGNATURE.match(line):
            add_equation(spec, line)
    return spec


def read_import(spec: Spec, found: re.Match[str], crate: str) -> None:
    """Adds the names of an import. Declared types matter only in signatures, and are skipped."""
    if found[1] == "std":
        spec.words |= {name for name, _ in names(found[3])}
    elif found[1] == crate and "declared" not in found[2]:
        spec.imports.update({here: found[2] for _, here in names(found[3])})


def add_equation(spec: Spec, line: str) -> None:
    name = re.match(r"\w+", line)
    if name is None or " = " not in line:
        raise NotUnderstood(f"neither a declaration nor an equation: {line[:60]}")
    spec.texts.setdefault(name.group(), []).append(line)
