"""The crates for cargo: their tests, their documentation and clippy without a warning, and a program in simulated time over the crate as it
is packed, whose history and report are those of the same program in Python.

    python3 tools/gate/crate.py

All is done offline, with the C library of the present sources, as tools/release/library finds it. The crate over tokio and quinn is tried with
Debian's crates, where they are installed.
"""

import os
import re
import shutil
import sys
import tarfile
from pathlib import Path

from tally import TOP, Ran, Tally, judge, lacks, ran

from hingetulip_words.link import Place, WordError, read_words

RUST = TOP / "rust"
DEBIAN = Path("/usr/share/cargo/registry")
SOURCE = f'[source.crates-io]\nreplace-with = "debian"\n[source.debian]\ndirectory = "{DEBIAN}"\n'
VERSION = (TOP / "VERSION").read_text().strip()
MANIFEST = '[package]\nname = "user"\nversion = "0.1.0"\nedition = "2021"\n\n[dependencies]\nhingetulip = {{ path = "{}" }}\n'
LINK = "800Kbit/s 20ms queue 2 loss 20% jitter 9ms duplicate 5%"
MAIN = f"""\
use hingetulip::simulated::{{sleep, Net}};
use std::time::Duration;

fn main() -> Result<(), Box<dyn std::error::Error>> {{
    let net = Net::new(7)?;
    let (near, far) = (net.host("10.0.0.1"), net.host("10.0.0.2"));
    net.path(&near, &far, "{LINK}")?;
    let (socket, there) = (near.bind(0)?, far.bind(7)?);
    net.run(async {{
        net.cut("10.0.0.1 > 10.0.0.2", Duration::from_millis(50)).unwrap();
        far.spawn(async move {{
            let mut data = [0; 1500];
            loop {{
                let (count, source) = there.recv_from(&mut data).await.unwrap();
                there.send_to(&data[..count], source).await.unwrap();
            }}
        }});
        for number in 0..200 {{
            socket.send_to(&vec![0; 7 * number], "10.0.0.2:7").await.unwrap();
            sleep(Duration::from_micros(7123)).await;
        }}
    }});
    std::fs::write("rust.history", net.history())?;
    println!("{{}}", net.report());
    Ok(())
}}
"""
IN_PYTHON = f"""\
import asyncio
import socket
from hingetulip import aio

async def echo():
    loop, there = asyncio.get_running_loop(), socket.socket(socket.AF_INET, socket.SOCK_DGRAM)
    there.bind(("10.0.0.2", 7))
    while True:
        data, source = await loop.sock_recvfrom(there, 1500)
        there.sendto(data, source)

async def main():
    net = aio.network()
    near, far = net.host("10.0.0.1"), net.host("10.0.0.2")
    net.path(near, far, "{LINK}")
    net.cut("10.0.0.1 > 10.0.0.2", 0.05)
    far.create_task(echo())
    transport, _ = await near.endpoint(asyncio.DatagramProtocol, remote=("10.0.0.2", 7))
    for number in range(200):
        transport.sendto(bytes(7 * number))
        await asyncio.sleep(0.007123)
    print(net.report())

aio.run(main(), seed=7, history="python.history")
"""


class Cargo:
    """Cargo with its own folder for builds."""

    def __init__(self, place: Path) -> None:
        self.env = {
            **os.environ,
            "CARGO_TARGET_DIR": str(place / "target"),
            "RUSTFLAGS": "-D warnings",
            "RUSTDOCFLAGS": "-D warnings",
        }

    def run(self, folder: Path, *words: str, **more: str) -> Ran:
        return ran("cargo", *words, "--offline", cwd=folder, env={**self.env, **more})


def copied(place: Path) -> Path:
    """Returns a copy of the crates, so that cargo writes nothing into the clone."""
    return Path(shutil.copytree(RUST, place / "rust", ignore=shutil.ignore_patterns("target", "Cargo.lock")))


def of_the_sources(tally: Tally, cargo: Cargo, crate: Path, library: str, *options: str) -> None:
    done = cargo.run(crate, "test", *options, HINGETULIP_LIB=library)
    counts = re.findall(r"^test result: ok\. (\d+) passed; 0 failed", done.stdout, re.M)
    binaries = 2 + len(list((crate / "tests").glob("*.rs")))  # beside these the library's own tests and its samples
    tally.note(f"cargo test of {crate.name}", "" if done.returncode == 0 and len(counts) == binaries else done.stdout)
    tally.passed += sum(map(int, counts))
    for name, *words in (("cargo doc", "doc", "--no-deps"), ("cargo clippy", "clippy", "--all-targets")):
        if words[0] == "clippy" and lacks("clippy", "cargo-clippy"):
            continue
        done = cargo.run(crate, *words, *options, HINGETULIP_LIB=library)
        tally.note(f"{name} of {crate.name}", "" if done.returncode == 0 else done.stdout)


def over_debians(tally: Tally, cargo: Cargo, rust: Path, library: str) -> None:
    """The crate over tokio and quinn, with Debian's crates."""
    if not (any(DEBIAN.glob("quinn-0.9.*")) and any(DEBIAN.glob("tokio-1.*"))):
        print("hingetulip-tokio: skipped, since librust-tokio-dev and librust-quinn-dev aren't there")
        return
    (rust / ".cargo").mkdir()
    (rust / ".cargo" / "config.toml").write_text(SOURCE)
    of_the_sources(tally, cargo, rust / "hingetulip-tokio", library, "--all-features")


def lines(text: str) -> str:
    """Returns a text without indentation."""
    return re.sub(r"^ +", "", text, flags=re.M)


def shown(tally: Tally) -> None:
    """Checks that the sample of docs/TESTING.md is one of the tests."""
    tests = lines((RUST / "hingetulip" / "tests" / "simulated.rs").read_text())
    samples = re.findall(r"^```rust\n(.*?)^```$", (TOP / "docs" / "TESTING.md").read_text(), re.M | re.S)
    for sample in samples or [""]:
        tally.note("docs/TESTING.md", "" if sample and lines(sample) in tests else "has no sample that tests/simulated.rs has")


def answer(words: str) -> str:
    """Python's answer to the words of a link: a line with jitter and duplicates, or the word that it refuses."""
    try:
        link = read_words(words, Place.RUN)
    except WordError as wrong:
        return f"'{wrong.word}'"
    return f"{link.line(1)}; {link.extra.jitter} {link.extra.duplicate}"


def words_of_python(tally: Tally) -> None:
    """The table by which the crate's reader of words is tested has Python's answers."""
    for row in (RUST / "hingetulip" / "tests" / "words.txt").read_text().splitlines():
        words, _, known = row.partition(" => ")
        tally.equal(f"the words {words!r}", answer(words), known)


def as_in_python(tally: Tally, user: Path, done: Ran) -> None:
    told = ran(sys.executable, "-c", IN_PYTHON, cwd=user, env={**os.environ, "PYTHONPATH": str(TOP / "python")}, stderr=None)
    tally.ends("the report of a program over the packed crate", done, 0, told.stdout)
    if done.returncode == 0 and told.returncode == 0:
        same = (user / "rust.history").read_bytes() == (user / "python.history").read_bytes()
        tally.note("its history", "" if same else "isn't Python's")
        audit = ran(TOP / "dummynet", "audit", user / "rust.history")
        tally.note("its audit", "" if audit.returncode == 0 and audit.stdout.startswith("lawful ") else audit.stdout)


def as_packed(tally: Tally, cargo: Cargo, place: Path) -> None:
    done = ran(TOP / "tools" / "release" / "crate", place)
    packed = place / f"hingetulip-{VERSION}.crate"
    tally.note("tools/release/crate", "" if done.returncode == 0 and packed.is_file() else done.stdout)
    if not packed.is_file():
        return
    with tarfile.open(packed) as archive:
        archive.extractall(place)
    user = place / "user"
    (user / "src").mkdir(parents=True)
    (user / "Cargo.toml").write_text(MANIFEST.format(place / f"hingetulip-{VERSION}"))
    (user / "src" / "main.rs").write_text(MAIN)
    as_in_python(tally, user, cargo.run(user, "run", "--quiet"))


def main(tally: Tally) -> None:
    shown(tally)
    words_of_python(tally)
    library = ran(TOP / "tools" / "release" / "library", is_apart=True, check=True).stdout.strip()
    cargo, rust = Cargo(tally.place), copied(tally.place)
    crate = rust / "hingetulip"
    of_the_sources(tally, cargo, crate, library)
    done = cargo.run(crate, "build", HINGETULIP_LIB=str(crate / "src"))
    is_named = "libhingetulip.a isn't there: HINGETULIP_LIB names" in done.stdout
    tally.note("no library", "" if done.returncode and is_named else done.stdout)
    over_debians(tally, cargo, rust, library)
    as_packed(tally, cargo, tally.place)


if __name__ == "__main__":
    os.environ.pop("HINGETULIP_LIB", None)
    judge(main)
