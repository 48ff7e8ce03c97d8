"""Each store to the lock word and to a bell is a fence, in the released machine code and in a built program.

    python3 tools/gate/fences.py

On x86-64 such a store is an `xchg`. A function that takes the word by `lock cmpxchg` has as many of them as STORES says: `dn_service` gives
the word back at each, or raises or takes a bell, so one `mov` in the place of an `xchg` is one too few. The library has no bell; `dummynet`
has, where callers replay. The numbers are the compiler's: they change with it, and then the code has to be read again.

The check itself is tested: with a `mov` for any of these instructions in a copy of the file, it must report one store too few.
"""

import platform
import re
import subprocess
from pathlib import Path
from tempfile import TemporaryDirectory
from typing import NamedTuple

from tally import TOP, Tally, judge

LINE = re.compile(r"^ *[0-9a-f]+:\t(?P<bytes>(?:[0-9a-f]{2} )+) *\t?(?P<code>.*)$")
TAKES, GIVES = re.compile(r"lock cmpxchg %r\w+,\S*\(%r"), re.compile(r"xchg +%r\w+,\S*\(%r")
RETURN = re.compile(r"ret|int3|ud2|nopw|xchg +%ax,%ax")
NAME = re.compile(r"^[0-9a-f]+ <(.*)>:$")
MOV, XCHG = 0x89, 0x87
AROUND = 12  # instructions beside one, by whose bytes it is found in the file
# The stores of each function that takes the word and gives it back, in the order of the file: of `Caller::call` in the program two that give the
# word back, and two each that raise a bell and take it. A name is known in the library alone.
STORES = {
    "release/libhingetulip.a": {"hingetulip_c::client::Client::apply": 2, "dn_caller_wake": 1, "dn_service_take": 1},
    "release/dummynet": {"1": 6},
}
# Built by `rt ci`, and looked at where it is there: as many stores as the program that is released.
BUILT = {"crates/dummynet/out/dummynet": "release/dummynet"}


class Store(NamedTuple):
    """The function of a store, the bytes around it, and its place in them."""

    function: str
    around: bytes
    place: int


class Code(NamedTuple):
    """An instruction."""

    bytes: bytes
    text: str


def functions(path: Path) -> list[tuple[str, list[Code]]]:
    """Returns the code of a file by function; without symbols, functions are split at their ends."""
    words = ["objdump", "-d", "-w", str(path)]
    text = subprocess.run(words, stdout=subprocess.PIPE, text=True, check=True).stdout
    found: list[tuple[str, list[Code]]] = [("", [])]
    for line in text.splitlines():
        if name := NAME.match(line):
            found.append((name[1], []))
        elif code := LINE.match(line):
            found[-1][1].append(Code(bytes.fromhex(code["bytes"]), code["code"]))
            if found[-1][0].startswith(".") and RETURN.match(code["code"]):
                found.append((found[-1][0], []))
    return found


def stores(path: Path) -> list[Store]:
    """Returns the fences in functions that take the word. There must be at least one."""
    found: list[Store] = []
    count = 0
    for name, code in functions(path):
        places = [place for place, one in enumerate(code) if GIVES.match(one.text)]
        if not places or not any(TAKES.match(one.text) for one in code):
            continue
        count += 1
        for place in places:
            first, last = max(0, place - AROUND), place + AROUND
            before = b"".join(one.bytes for one in code[first:place])
            whole = b"".join(one.bytes for one in code[first:last])
            found.append(Store(str(count) if name.startswith(".") else name, whole, len(before)))
    return found


def counted(found: list[Store], is_stripped: bool = False) -> dict[str, int]:
    """Returns the number of fences in each function. In a stripped program functions are numbered."""
    names = [store.function for store in found]
    of_names = {name: names.count(name) for name in dict.fromkeys(names)}
    return {str(place): count for place, count in enumerate(of_names.values(), 1)} if is_stripped else of_names


def without(file: bytes, store: Store) -> bytes:
    """The file with a plain store in the place of a fence, or nothing where the code isn't there once."""
    if file.count(store.around) != 1:
        return b""
    place = file.index(store.around) + store.place
    place += 1 if file[place] & 0xF0 == 0x40 else 0  # behind the prefix of a 64-bit instruction
    return file[:place] + bytes([MOV]) + file[place + 1 :] if file[place] == XCHG else b""


def look(tally: Tally, path: Path, wanted: dict[str, int], as_stripped: bool = False) -> None:
    name, found = str(path.relative_to(TOP)), stores(path)
    tally.equal(f"{name}: stores that are fences", wanted, counted(found, as_stripped))
    file = path.read_bytes()
    for number, store in enumerate(found):
        with TemporaryDirectory() as folder:
            patched = Path(folder) / path.name
            other = without(file, store)
            patched.write_bytes(other or file)
            is_seen = bool(other) and counted(stores(patched), as_stripped) != wanted
        tally.note(
            f"{name}: store {number + 1} of {store.function} made a mov",
            "" if is_seen else "isn't seen" if other else "can't be made",
        )


def main(tally: Tally) -> None:
    if platform.machine() != "x86_64":
        tally.note("the machine code", f"is left out on {platform.machine()}")
        return
    for name, wanted in STORES.items():
        look(tally, TOP / name, wanted)
    for name, same in BUILT.items():
        if (TOP / name).exists():
            look(tally, TOP / name, STORES[same], as_stripped=True)


if __name__ == "__main__":
    judge(main)
