"""The module and the crate for cargo against hingetulip.h: structs, numbers and functions are those of the header."""

import ctypes
import re
import unittest
from pathlib import Path

import hingetulip
from hingetulip import audits, errors, layout, library
from reference import NAME_OF
from simulated_hosts import TOP

INCLUDE = TOP / "crates" / "hingetulip_c" / "include"
HEADER, SERVICE_HEADER = ((INCLUDE / f"{name}.h").read_text() for name in ("hingetulip", "hingetulip_service"))
RUST, RUST_SERVICE, RUST_ERRORS = (
    (TOP / "rust" / "hingetulip" / "src" / f"{name}.rs").read_text() for name in ("raw", "raw_service", "error")
)
LEFT_OUT = {"dn_open", "dn_audit_open"}
DECLARED = (
    (RUST, HEADER, "dn_status", LEFT_OUT),
    (RUST_SERVICE, SERVICE_HEADER, "dn_service_status", {"dn_service_open", "dn_service_text"}),
)
WIDTHS = {"void *": 8, "bool": 1, "struct dn_packet": 32, "struct dn_fate": 32}
WIDTHS |= {f"uint{8 * size}_t": size for size in (1, 2, 4, 8)}
KINDS = {"usize": "size_t", "c_void": "void", "bool": "bool", **{f"u{bits}": f"uint{bits}_t" for bits in (8, 16, 32, 64)}}
RAISED = {
    errors.ExhaustedError: "EXHAUSTED",
    errors.RefusedError: "NO_SUCH_PIPE PIPE_HAS_QUEUES NO_SUCH_QUEUE",
    errors.ClosedError: "CLOSED",
    errors.OutOfMemoryError: "MEMORY",
    errors.RangeError: "BAD_MOMENT BAD_RULE BAD_KIND BAD_NUMBER BAD_LENGTH BAD_CALLER BAD_OUTCOME BAD_ROW",
    errors.HistoryError: "TOO_LONG BAD_RECORD",
}
EXCEPTIONS = {f"DN_{name}": kind for kind, names in RAISED.items() for name in names.split()}


def numbers(name: str, header: str = HEADER) -> dict[str, int]:
    """The names of an enum with their numbers."""
    body = re.search(rf"enum {name} \{{(.*?)\}};", header, re.S)
    return {name: int(value) for name, value in re.findall(r"(DN_\w+) = (\d+)", body[1] if body else "")}


def fields(name: str, header: str = HEADER) -> list[tuple[str, str]]:
    """The type and the name of each field of a struct."""
    body = re.search(rf"struct {name} \{{(.*?)\n\}};", header, re.S)
    return [(kind.strip(), field) for kind, field in re.findall(r"^ +((?:struct )?\w+ \*?)(\w+);", body[1] if body else "", re.M)]


def places(name: str) -> tuple[dict[str, tuple[int, int]], int]:
    """Returns each field's offset and length in a struct, as C lays them out, and the struct's length.

    Its reserved fields, which stand side by side, are one.
    """
    found: dict[str, tuple[int, int]] = {}
    end = 0
    for kind, field in fields(name):
        begin = -(-end // min(WIDTHS[kind], 8)) * min(WIDTHS[kind], 8)
        end = begin + WIDTHS[kind]
        first = found["reserved"][0] if field.startswith("reserved") and "reserved" in found else begin
        found["reserved" if field.startswith("reserved") else field] = first, end - first
    return found, -(-end // 8) * 8


def arguments(declared: str) -> list[tuple[str, str]]:
    """The type and the name of each argument of a function of the header."""
    found = re.findall(r"((?:const )?(?:struct )?\w+ \*?)(\w+)(?:, |$)", " ".join(declared.split()))
    return [(kind.strip(), name) for kind, name in found]


def as_in_c(kind: str) -> str:
    """A type of Rust as the header writes it."""
    *pointer, named = kind.split()
    of = KINDS.get(named, f"struct dn_{named.lower()}")
    return {"": of, "*mut": f"{of} *", "*const": f"const {of} *"}["".join(pointer)]


def rust_fields(name: str, source: str) -> list[tuple[str, str]]:
    body = re.search(rf"#\[repr\(C\)\]\n(?:#\[derive\(.*\)\]\n)?pub struct {name} \{{(.*?)\n\}}", source, re.S)
    return [(as_in_c(kind), field) for field, kind in re.findall(r"^ +pub (\w+): (.+),$", body[1] if body else "", re.M)]


class Header(unittest.TestCase):
    def test_structs(self) -> None:
        names = "packet fate delivery flow fault entry history verdict".split()
        layouts = {f"dn_{name}": getattr(layout, name.upper()) for name in names}
        self.assertEqual({*re.findall(r"^struct (\w+) \{", HEADER, re.M)}, {*layouts, "dn_handle", "dn_audit"})
        for name, of_module in layouts.items():
            begin, found = 0, {}
            for field in of_module.codes:
                found[field] = begin, of_module.width(field)
                begin += of_module.width(field)
            self.assertEqual(places(name), (found, of_module.size), name)

    def test_handles(self) -> None:
        self.assertEqual(fields("dn_handle"), [("void *", "at"), ("bool", "open")])
        self.assertEqual(library.Handle._fields_, [("at", ctypes.c_void_p), ("open", ctypes.c_bool)])
        for name in ("dn_audit", "dn_service", "dn_caller"):
            self.assertEqual(fields(name, HEADER + SERVICE_HEADER), fields("dn_handle"), name)

    def test_statuses(self) -> None:
        statuses = numbers("dn_status")
        own = {"DN_OK": 0, "DN_ROOM": library.ROOM, "DN_LINE": library.LINE, "DN_NEW_FLOW": library.NEW_FLOW}
        told = {"DN_CLOSED": audits.CLOSED, "DN_BAD_RECORD": library.BAD_RECORD}
        self.assertEqual(told, {name: statuses[name] for name in told})
        self.assertEqual(own, {name: statuses[name] for name in own})
        for name, kind in EXCEPTIONS.items():
            self.assertIs(kind, type(library.failure(statuses[name])), name)
        self.assertEqual({*statuses} - {*EXCEPTIONS}, {*own, "DN_BAD_RESERVED"})
        for name in ("DN_NO_SUCH_PIPE", "DN_PIPE_HAS_QUEUES", "DN_NO_SUCH_QUEUE"):
            self.assertEqual(name, "DN_" + str(library.failure(statuses[name])).upper().replace(" ", "_"))

    def test_other_numbers(self) -> None:
        enums = {"dn_outcome": hingetulip.Outcome, "dn_rule": hingetulip.Rule}
        enums |= {"dn_call": hingetulip.EntryCall, "dn_reply": hingetulip.EntryReply}
        for enum, kind in enums.items():
            self.assertEqual(numbers(enum), {f"DN_{one.name}": one.value for one in kind})
        self.assertEqual({"DN_PIPE": 0, "DN_QUEUE": 1}, numbers("dn_kind"))
        self.assertEqual({"DN_LAWFUL": 0, "DN_DIFFERS": 1}, numbers("dn_finding"))
        self.assertIn(f"#define DN_HISTORY_LIMIT ((size_t){library.HISTORY_LIMIT})\n", HEADER)
        faults = {name: library.reason(library.LINE, kind) for name, kind in numbers("dn_fault_kind").items()}
        in_c = {text: re.sub("(?<=[a-z])(?=[A-Z])", "_", name).upper() for text, name in NAME_OF.items()}
        wanted = {f"DN_{name}": text for text, name in {**in_c, "not UTF-8": "NOT_UTF8", "bad number": "NOT_A_NUMBER"}.items()}
        self.assertEqual(faults, wanted)
        self.assertIn(f"#define DN_REASON_ROOM ((size_t){library.REASON_ROOM})\n", HEADER)
        self.assertIn(f"pub const REASON_ROOM: usize = {library.REASON_ROOM};\n", RUST)
        self.assertIn(f"#define DN_VERSION {library.MAJOR}0", HEADER)

    def test_functions(self) -> None:
        sources = " ".join(path.read_text() for path in Path(hingetulip.__file__).parent.rglob("*.py"))
        for _, header, _, left_out in DECLARED:
            declared = {*re.findall(r"^uint32_t (\w+)\(", header, re.M)}
            self.assertEqual(declared - left_out, declared & {*re.findall(r"\bdn_\w+", sources)})


class Crate(unittest.TestCase):
    """The declarations of the crate for cargo, which are written by hand."""

    def test_structs(self) -> None:
        for source, header, _, _ in DECLARED:
            names = re.findall(r"^pub struct (\w+) \{", source, re.M)
            self.assertEqual({f"dn_{name.lower()}" for name in names}, {*re.findall(r"^struct (\w+) \{", header, re.M)})
            for name in names:
                self.assertEqual(rust_fields(name, source), fields(f"dn_{name.lower()}", header), name)

    def test_functions(self) -> None:
        for source, header, _, left_out in DECLARED:
            found = re.findall(r"^uint32_t (\w+)\((.*?)\);", header, re.M | re.S)
            declared = {name: arguments("" if given == "void" else given) for name, given in found}
            found = re.findall(r"^    pub fn (\w+)\((.*)\) -> u32;$", source, re.M)
            self.assertEqual({*declared} - {name for name, _ in found}, left_out)
            for name, given in found:
                self.assertEqual([(as_in_c(kind), one) for one, kind in re.findall(r"(\w+): ([^,]+)", given)], declared[name], name)

    def test_numbers(self) -> None:
        statuses: dict[str, int] = {}
        for source, header, enum, _ in DECLARED:
            statuses.update(numbers(enum, header))
            for name, value in re.findall(r"^pub const (\w+): u32 = (\d+);", source, re.M):
                self.assertEqual(int(value), numbers(enum, header)[f"DN_{name}"], name)
        for value, name in re.findall(r"^ +\((\d+), Error::(\w+)\),$", RUST_ERRORS, re.M):
            words = re.sub(r"(?<=[a-z])(?=[A-Z])", "_", name).upper()
            self.assertEqual(int(value), statuses.get(f"DN_{words}", statuses.get(f"DN_BAD_{words}")), name)
