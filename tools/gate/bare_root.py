"""A first ping in simulated time, and `./check --quick`, as a newcomer has them: in a fresh Debian root with git, python3 and ping
alone, by a user without rights.

    python3 tools/gate/bare_root.py PROGRAM

The root is made by debootstrap from Debian's archive, as root, in 400 MB. An archive of it is kept for the next time, beside
what `rt ci` keeps. The repository is a copy whose release/ has this program and the C library of the present sources. What
`./check --quick` leaves out there is printed, and it may take four minutes of a processor.
"""

import os
import re
import resource
import shutil
import subprocess
from pathlib import Path

from installs import copied
from tally import Tally, judge, ran

from edits.kept import folder

SUITE, PACKAGES = "bookworm", "git,python3,iputils-ping"
INSIDE = (
    'mount --make-rprivate / && mount -t proc proc "$0/proc" && mount -t sysfs sys "$0/sys" && mount --rbind /dev "$0/dev" && '
    'exec chroot "$0" sh -c "$1"'
)
HOSTS = "127.0.0.1 localhost\n"  # as each installer and each container has it, and a root that was only unpacked hasn't
MOST, LONGEST = 240, 1500  # s of a processor, of which it needs 84 alone, and by a clock
NOBODY = "/usr/bin/setpriv --reuid=65534 --regid=65534 --clear-groups"
BY_NOBODY = f"cd /srv && HOME=/srv/home PATH=/usr/bin:/bin exec {NOBODY} sh -c '{{}}'"
COMMIT = 'git init -q && git add -A && git -c user.name=a -c user.email=a@example.com commit -q -m "A clone"'


def processor_seconds() -> float:
    used = resource.getrusage(resource.RUSAGE_CHILDREN)
    return used.ru_utime + used.ru_stime


def run(root: Path, script: str) -> str:
    words = ["unshare", "-m", "sh", "-c", INSIDE, str(root), script]
    env = {"PATH": "/usr/sbin:/usr/bin:/sbin:/bin", "HOME": "/root", "LC_ALL": "C.UTF-8"}
    return ran(*words, env=env, timeout=LONGEST).stdout


def made(root: Path) -> str:
    """Makes the root, from a kept archive or anew; returns the reason if that fails."""
    kept = (folder() if shutil.which("rt") else Path.home() / ".cache" / "hingetulip") / f"{SUITE}-{PACKAGES}.tar"
    if not kept.is_file():
        words = ["debootstrap", "--variant=minbase", f"--include={PACKAGES}", SUITE, root]
        done = subprocess.run(words, stdout=subprocess.PIPE, stderr=subprocess.STDOUT, text=True)
        if done.returncode:
            return done.stdout.strip().splitlines()[-1]
        kept.parent.mkdir(parents=True, exist_ok=True)
        subprocess.run(["tar", "-cf", f"{kept}.new", "-C", root, "."], check=True)
        Path(f"{kept}.new").replace(kept)
        return ""
    root.mkdir()
    subprocess.run(["tar", "-xpf", kept, "-C", root], check=True)
    return ""


def made_ready(root: Path, program: str) -> None:
    """Puts a clone of the present files into the root, which belongs to a user without rights."""
    (root / "etc" / "hosts").write_text(HOSTS)
    work = root / "srv"
    copied(work, program).rename(work / "clone")
    (work / "home").mkdir()
    subprocess.run(["chown", "-R", "65534:65534", work], check=True)


def ping(tally: Tally, root: Path) -> None:
    """A first run in simulated time, with the released kernel."""
    words = "./hinge run --simulated --link '10Mbit/s 20ms' -- ping -c 3 server"
    text = run(root, BY_NOBODY.replace("'{}'", '"{}"').format(f"cd clone && {words}"))
    tally.note("a ping in simulated time", "" if text.count("time=40.1 ms") == 3 else text)


def quick(tally: Tally, root: Path) -> None:
    """The gate's quick answer."""
    tally.equal("git commit", "", run(root, BY_NOBODY.format(f"cd clone && {COMMIT}")))
    begun = processor_seconds()
    text = run(root, BY_NOBODY.format("cd clone && ./check --quick"))
    seconds = processor_seconds() - begun
    last = (text.strip().splitlines() or ["no line"])[-1]
    tally.note("./check --quick", "" if re.match(r"[1-9]\d* passed, 0 failed", last) else text)
    tally.note("processor time", "" if seconds <= MOST else f"{seconds:.0f} s, more than {MOST}")
    tally.equal("git status", "", run(root, BY_NOBODY.format("cd clone && git status --porcelain")))
    print(*sorted({line for line in text.splitlines() if re.search(r"\bskipped\b", line)}), sep="\n")
    print(f"./check --quick in a bare root: {seconds:.0f} s of a processor; {last}")


def main(tally: Tally, program: str) -> None:
    if os.geteuid() != 0 or shutil.which("debootstrap") is None:
        print("a bare root: skipped, since debootstrap isn't there, or this user isn't root")
        return
    tally.place.chmod(0o755)
    root = tally.place / "root"
    if why := made(root):
        print(f"a bare root: skipped, since debootstrap can't make it: {why}")
        return
    made_ready(root, str(Path(program).resolve()))
    ping(tally, root)
    quick(tally, root)


if __name__ == "__main__":
    judge(main)
