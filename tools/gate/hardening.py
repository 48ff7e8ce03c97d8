"""The check that released C programs stop when their memory is damaged: readelf's output on the hosts as built from these sources.

    python3 tools/gate/hardening.py

The library and the program are Rattle's: no copy or index of theirs goes out of its range, by proof, so they have no guards of the
stack. Their tables of functions are read-only, by the linker. The library has no data of a thread, so a handle may pass to another one.
"""

import re
import subprocess
from pathlib import Path

from tally import TOP, Tally, judge, said

GUARD = "__stack_chk_fail"
CHECKED = re.compile(r"__\w+_chk\b")


def lacking(file: Path, guarded: bool) -> list[str]:
    """Returns the words of tools/release/hardened that a file lacks."""
    dynamic = said("readelf", "-dW", file)
    headers = said("readelf", "-lW", file)
    names = said("readelf", "--dyn-syms", "-W", file)
    found = {
        "bound before main": "NOW" in dynamic or "BIND_NOW" in dynamic,
        "read-only tables": "GNU_RELRO" in headers,
        "a stack without code": re.search(r"GNU_STACK.* RW ", headers) is not None,
        "its place drawn": re.search(r"\bDYN\b", said("readelf", "-hW", file)) is not None,
    }
    if guarded:
        found.update(
            {"guards of the stack": GUARD in names, "checked copies": CHECKED.search(names.replace(GUARD, "")) is not None}
        )
    return [name for name, is_there in found.items() if not is_there]


def main(tally: Tally) -> None:
    folder = tally.place
    subprocess.run([TOP / "tools" / "release" / "hosts", folder], stdout=subprocess.DEVNULL, check=True)
    for file, guarded in (
        (folder / "hinge-link", True),
        (folder / "hinge-packets", True),
        (folder / "hinge-clock.so", False),
        (TOP / "release" / "dummynet", False),
        (TOP / "release" / "libhingetulip.so.1", False),
    ):
        tally.equal(f"{file.name} lacks", [], lacking(file, guarded))
    library = said("readelf", "-lW", TOP / "release" / "libhingetulip.so.1")
    tally.note("data of a thread", "the library has some" if re.search(r"^ +TLS ", library, re.M) else "")


if __name__ == "__main__":
    judge(main)
