"""Packet files and configuration lines mean the same to Python, to the crate for cargo and to the program.

    python3 tools/fuzz/readers.py PROGRAM [--seed N] COUNT

COUNT packet files and COUNT lines are drawn. Each reader's answer is the rows, or the first bad row and field; and of a line that it is taken, refused,
or wrong at a word. The seed follows from the sources of the readers, or is N, or a new one by `--seed fresh`. It needs cargo.
"""

import argparse
import random
import re
import struct
import subprocess
import sys
from pathlib import Path
from tempfile import TemporaryDirectory
from typing import Iterator

HERE = Path(__file__).resolve().parent
sys.path[:0] = [str(HERE.parent / "gate"), str(HERE.parents[1] / "python" / "tests" / "kit_tests")]

import seeds  # noqa: E402
from crate import MANIFEST, Cargo, copied  # noqa: E402
from tally import TOP, Tally, judge, ran  # noqa: E402

from fuzz_check import random_line  # noqa: E402
from hingetulip import HingetulipError, LineError, RowError, Shaper, read_packets  # noqa: E402
from hingetulip.packet_file import HEADER, MARK  # noqa: E402

READERS = ("python/hingetulip/*.py", "rust/hingetulip/src/*.rs", "tools/fuzz/readers.py")
ROW = "5,pipe,1,10.0.0.1,10.0.0.2,17,3,4,1000,9"
COLUMNS = ("moment", "kind", "number", "src", "dst", "proto", "sport", "dport", "length", "word")
ODD = ["", *"x -1 0 00 1.0 256 65536 4294967296 4611686018427387905 queue 10.0.0.256 é".split(), "9" * 30]
IN_RUST = """\
use hingetulip::{Error, Packet, Shaper, Target};
use std::io::{Read, Write};

fn rows(text: &[u8]) -> String {
    match Packet::read(text) {
        Err(Error::Row(row, field)) => format!("bad {row} {field}"),
        Err(error) => format!("{error:?}"),
        Ok(packets) => packets.iter().map(|one| {
            let (kind, number) = match one.target { Target::Pipe(number) => (0, number), Target::Queue(number) => (1, number) };
            let ends = format!("{},{},{},{},{}", u32::from(one.src), u32::from(one.dst), one.proto, one.sport, one.dport);
            format!("{},{kind},{number},{ends},{},{}", one.moment, one.length, one.word)
        }).collect::<Vec<_>>().join(";"),
    }
}

fn main() {
    let (mut all, mut shaper, out) = (Vec::new(), Shaper::new().unwrap(), std::io::stdout());
    std::io::stdin().read_to_end(&mut all).unwrap();
    let (mut rest, mut out) = (&all[..], out.lock());
    while !rest.is_empty() {
        let (size, kind) = (u32::from_le_bytes(rest[1..5].try_into().unwrap()) as usize, rest[0]);
        let text = &rest[5..5 + size];
        let answer = if kind == 0 { rows(text) } else {
            match shaper.configure(std::str::from_utf8(text).unwrap()) {
                Ok(()) => "taken".to_string(),
                Err(Error::Line(_, word)) => format!("bad {word}"),
                Err(error) => format!("{error:?}").to_lowercase(),
            }
        };
        writeln!(out, "{answer}").unwrap();
        rest = &rest[5 + size..];
    }
}
"""


def random_file(rng: random.Random) -> bytes:
    """Returns a packet file, plain or with odd fields, quotes, ends of lines and headers."""
    lines = [rng.choice((HEADER.decode(), HEADER.decode(), ROW))] + [ROW] * rng.randrange(5)
    for at, line in enumerate(lines):
        fields = line.split(",")
        place = rng.randrange(len(fields))
        if rng.random() < 0.1:
            fields[place] = rng.choice(ODD)
        if rng.random() < 0.1:
            fields[place] = rng.choice(('"{}"', '"{}', '{}"', '"{}"x', '"{}""', '"{},"')).format(fields[place])
        if rng.random() < 0.05:
            fields += rng.choice(([], ["1"], [""]))
        lines[at] = ",".join(fields) + rng.choice(("\n", "\n", "\n", "\r\n", "\r", "\n\n", "\r\r\n"))
    text = "".join(lines).encode()
    return MARK * (rng.random() < 0.1) + (text[:-1] if rng.random() < 0.1 else text)


def of_file_in_python(data: bytes) -> str:
    try:
        packets = read_packets(data)
    except RowError as error:
        return f"bad {error.row} {error.field}"
    return ";".join(",".join(map(str, row)) for row in zip(*(getattr(packets, name).tolist() for name in COLUMNS)))


def number_of(field: str) -> str:
    """Returns a field of a call as Python and Rust have it: a kind of target or an address as a number."""
    of_kind = {"pipe": "0", "queue": "1"}
    return str(int.from_bytes(bytes(map(int, field.split("."))), "big")) if "." in field else of_kind.get(field, field)


def of_file_in_program(program: str, data: bytes, folder: Path) -> str:
    (folder / "packets").write_bytes(data)
    done = ran(program, "replay", "config", "packets", "--history", "history", cwd=folder)
    if bad := re.match(r"packet row (\d+), field (\d+): bad\n\Z", done.stdout):
        return f"bad {bad[1]} {bad[2]}"
    calls = [line.split(",") for line in (folder / "history").read_text().splitlines() if line.startswith("c,0,submit,")]
    return ";".join(",".join(map(number_of, [call[-1], *call[3:-1]])) for call in calls) if done.returncode == 0 else done.stdout


def of_lines_in_python(lines: list[str]) -> Iterator[str]:
    with Shaper() as shaper:
        for line in lines:
            try:
                shaper.configure(line)
                yield "taken"
            except LineError as error:
                yield f"bad {error.word}"
            except HingetulipError as error:
                yield str(error).replace(" ", "")


def of_lines_in_program(program: str, lines: list[str]) -> Iterator[str]:
    """Reads lines with a blank before each, so that none is a call; a line without a command has no answer there."""
    told = subprocess.run([program, "live"], input="".join(f" {line}\n" for line in lines), capture_output=True, text=True).stdout
    bad = {int(number): re.match(r"word (\d+)", why) for number, why in re.findall(r"^#,bad,(\d+),\d+,(.*)$", told, re.M)}
    replies = iter(re.findall(r"^r,([\w-]+)", told, re.M))
    for number, line in enumerate(lines, 1):
        if number in bad:
            yield f"bad {word[1] if (word := bad[number]) else 0}"
        else:
            reply = next(replies, "none").replace("-", "") if line.partition("#")[0].strip() else "configured"
            yield "taken" if reply in ("configured", "deleted") else reply


def built(place: Path) -> list[str]:
    """Returns the command of the reader in Rust."""
    user = place / "user"
    (user / "src").mkdir(parents=True)
    (user / "Cargo.toml").write_text(MANIFEST.format(copied(place) / "hingetulip"))
    (user / "src" / "main.rs").write_text(IN_RUST)
    library = ran(TOP / "tools" / "release" / "library", is_apart=True, check=True).stdout.strip()
    done = Cargo(place).run(user, "build", "--quiet", HINGETULIP_LIB=library)
    assert done.returncode == 0, done.stdout
    return [str(place / "target" / "debug" / "user")]


def main(tally: Tally, program: str, *words: str) -> None:
    parser = argparse.ArgumentParser(description=__doc__, formatter_class=argparse.RawDescriptionHelpFormatter)
    parser.add_argument("--seed")
    parser.add_argument("count", type=int)
    asked = parser.parse_args(words)
    seed = seeds.chosen(asked.seed, *READERS)
    program = str(Path(program).resolve())
    rng = random.Random(seed)
    files = [random_file(rng) for _ in range(asked.count)]
    lines = [random_line(rng).replace("\n", " ") for _ in range(asked.count)]
    with TemporaryDirectory() as folder:
        place = Path(folder)
        (place / "config").write_text("pipe 1 config\n")
        records = [(0, data) for data in files] + [(1, line.encode()) for line in lines]
        asking = b"".join(struct.pack("<BI", kind, len(data)) + data for kind, data in records)
        told = subprocess.run(built(place), input=asking, stdout=subprocess.PIPE, check=True).stdout.decode().splitlines()
        ours = [*map(of_file_in_python, files), *of_lines_in_python(lines)]
        theirs = [*(of_file_in_program(program, data, place) for data in files), *of_lines_in_program(program, lines)]
    for (_, data), *answers in zip(records, ours, told, theirs):
        tally.note(f"{data!r}, seed {seed}", "" if len(set(answers)) == 1 else f"Python, Rust and the program: {answers}")
    print(
        f"{len(files)} packet files, of which {sum('bad' not in one for one in ours[: len(files)])} have no fault, and {len(lines)} lines"
    )


if __name__ == "__main__":
    judge(main)
