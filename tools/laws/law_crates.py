"""A crate of the specs that refutations are about, with no proof: each file of the specs that one names, and the types that these declare.

The files of a crate, its joined crates and dn_laws become a single crate, so that a wrong definition meets the law there. Of their
sources it has the types alone, or all where types are seen through models.
"""

import re
import sys
from dataclasses import dataclass, field
from pathlib import Path

TOP = Path(__file__).resolve().parents[2]
sys.path.insert(0, str(TOP / "tools"))

from edits import prover  # noqa: E402

NAMED = re.compile(r"\bRattle\.(\w+)\.specs\.([\w.]+)")
PARTS = {"specs": (".antt", "Lib", "pub mod %s\n"), "src": (".rt", "lib", "pub mod %s;\n")}
DERIVED = ("", "#[derive(Clone, Copy)]\n")
NOTES = re.compile(r"(?m)^\s*(?:///.*|#\[.*\])\n")
TYPE = re.compile(r"(?ms)^(#\[derive\([^)]*\)\]\n)?(pub(?:\(crate\))? (?:enum|struct) \w+ \{.*?^\}\n)")


@dataclass(frozen=True)
class Base:
    """A crate with the crates joined with it, and the module of dn_laws with its laws."""

    crate: str
    laws: str
    joined: tuple[str, ...] = ()
    is_whole: bool = False  # its types are seen through models, which need all sources

    @property
    def own(self) -> tuple[str, ...]:
        return (self.crate, *self.joined, "dn_laws")


def in_one_crate(text: str, base: Base) -> str:
    """Returns a text with the names of the crates that are joined in place of the crate's."""
    for name in base.own:
        text = re.sub(rf"\bRattle\.{name}\.", f"Rattle.{base.crate}.", text)
        text = re.sub(rf"\buse {name}::", "use crate::", text)
    return text


def types_of(text: str) -> str:
    """Returns the types of a source, and what they use."""
    types = "\n".join(DERIVED[" Copy" in derived] + NOTES.sub("", one) for derived, one in TYPE.findall(text))
    words = set(re.findall(r"\w+", types))
    uses = [line for line in re.findall(r"(?m)^use .*;$", text) if words & set(re.findall(r"\w+", line.rpartition("::")[2]))]
    return "\n".join([*uses, "", types])


def file_of(crate: str, module: str) -> str:
    """Returns the path of the specs or of the source that declare a module, or nothing."""
    parts, folder = module.rstrip(".").split("."), "specs"
    if parts[0] == "declared":
        parts, folder = parts[1:], "src"
    paths = [f"{folder}/{'/'.join(parts[:count])}{PARTS[folder][0]}" for count in range(len(parts), 0, -1)]
    return next((path for path in paths if (prover.CRATES / crate / path).is_file()), "")


@dataclass
class Copy:
    """A folder with the crate, and its other crates."""

    base: Base
    folder: Path
    files: dict[str, str] = field(default_factory=dict)

    def add(self, crate: str, path: str) -> None:
        """Adds a file, and those that it names."""
        if path and path not in self.files:
            text = (prover.CRATES / crate / path).read_text()
            self.files[path] = in_one_crate(types_of(text) if path.endswith(".rt") and not self.base.is_whole else text, self.base)
            self.add_named(text)

    def add_named(self, text: str) -> None:
        for crate, module in NAMED.findall(text):
            if crate in self.base.own:
                self.add(crate, file_of(crate, module))

    def add_all(self) -> None:
        """Adds all specs and sources of the crate."""
        top = prover.CRATES / self.base.crate
        for folder, (ending, library, _) in PARTS.items():
            for path in sorted((top / folder).rglob(f"*{ending}")):
                if path.stem != library:
                    self.add(self.base.crate, str(path.relative_to(top)))

    def write(self, path: str, text: str) -> None:
        whole = self.folder / path
        whole.parent.mkdir(parents=True, exist_ok=True)
        whole.write_text(text)

    def write_all(self, modules: tuple[str, ...]) -> None:
        """Writes the files with a list of the modules in each folder, to which sources add these."""
        for path, text in self.files.items():
            self.write(path, text)
        below: dict[str, set[str]] = {"specs": set(), "src": set(modules)}
        for path in self.files:
            parts = path.partition(".")[0].split("/")
            for count in range(1, len(parts)):
                below.setdefault("/".join(parts[:count]), set()).add(parts[count])
        for folder, names in below.items():
            ending, library, form = PARTS[folder.partition("/")[0]]
            path = f"{folder}/{library}{ending}" if folder in PARTS else folder + ending
            text = re.sub(r"(?m)^(?:pub(?:\(crate\))? )?mod \w+;?\n", "", self.files.get(path, ""))
            listed = "".join(form % name for name in sorted(names))
            self.write(path, listed + text if folder.startswith("specs") else self.root(path) + text + listed)

    def root(self, path: str) -> str:
        """Returns the content of the sources' root beside the modules, or an empty text for other sources."""
        if path != "src/lib.rt":
            return ""
        root = (prover.CRATES / self.base.crate / path).read_text() if self.base.is_whole else ""
        return "#![tactic(auto)]\n" + "".join(re.findall(r"(?ms)^pub use .*?;\n", root))

    def others(self) -> list[str]:
        """Returns the crates that the files name beside their own."""
        named = {name for text in self.files.values() for name in re.findall(r"\bdn_\w+", text)}
        return [name for name in prover.listed() if name in named and name not in self.base.own]

    def command(self) -> list[str]:
        """Returns the prover's command."""
        needs = dict.fromkeys(name for crate in self.base.own for name in prover.listed()[crate][1] if name not in prover.listed())
        return prover.command(self.base.crate, ["std", *needs], self.others())
