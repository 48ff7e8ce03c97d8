"""A host's crash in simulated time: the disk contains exactly the synced data."""

import shutil
import subprocess
import sys
import unittest

from hinge.net.disks import MAKER, MAKERS
from machines import LIMIT, Simulated

NET = f"""
host files {sys.executable} files.py
host wal {sys.executable} rows.py wal full
host quick {sys.executable} rows.py wal off
host rollback {sys.executable} rows.py delete full
host extra {sys.executable} rows.py delete extra
main c sleep 6
switch s files wal quick rollback extra c 1ms
disk files disk 16M
disk wal disk
disk quick disk
disk rollback disk
disk extra disk
at 2s crash files
at 2s crash wal 1s
at 2s crash quick
at 2s crash rollback 500ms
at 2s crash extra
"""
FILES = """
import os, time

def write(name, text, mode, syncs):
    with open(name, mode) as file:
        file.write(text)
        file.flush()
        if syncs:
            os.fsync(file.fileno())

os.chdir("disk")
if len(os.listdir()) == 1:
    write("old", "old", "w", True)
    write("records", "1", "w", True)
    write("new", "new", "w", True)
    write("records", "2", "a", False)
    os.rename("new", "old")
    write("late", "late", "w", False)
    time.sleep(100)
print("files", *(f"{name}:{open(name).read()}" for name in sorted(os.listdir()) if name != "lost+found"))
"""
ROWS = """
import os, sqlite3, sys, time

is_first = len(os.listdir("disk")) == 1
base = sqlite3.connect("disk/base", isolation_level=None)
base.execute(f"pragma journal_mode={sys.argv[1]}")
base.execute("pragma synchronous=full")
base.execute("create table if not exists rows (number)")
if is_first:
    base.execute("insert into rows values (1)")
    base.execute(f"pragma synchronous={sys.argv[2]}")
    base.execute("insert into rows values (2)")
    time.sleep(100)
print(*sys.argv[1:], *(number for number, in base.execute("select number from rows")))
"""
LEFT = ["delete extra 1 2", "delete full 1", "files new:new old:old records:1", "wal full 1 2", "wal off 1"]


@unittest.skipIf(shutil.which(MAKER, path=MAKERS) is None, f"there is no {MAKER}")
class OfCrashes(Simulated):
    def crashed(self, text: str, *words: str) -> "subprocess.CompletedProcess[str]":
        for name, part in (("crash.net", text), ("files.py", FILES), ("rows.py", ROWS)):
            (self.folder / name).write_text(part)
        return self.hinge("net", "crash.net", *words)

    def test_what_was_synced_is_there(self) -> None:
        """The disk loses a rename without a sync of the folder, and an SQLite commit whose journal was removed without that sync,
        which SQLite requests only with `extra`."""
        done = self.crashed(NET, "--simulated", "--twice", "--seed", "1", "--real-limit", LIMIT)
        self.assertEqual((done.returncode, sorted(done.stdout.splitlines())), (0, LEFT), done.stderr)
        self.assertIn("hinge net: two runs by seed 1 are the same: ", done.stderr)

    def test_a_kill_loses_nothing(self) -> None:
        done = self.crashed(NET.replace("crash files", "kill files 1s"), "--simulated", "--seed", "1", "--real-limit", LIMIT)
        self.assertIn("files late:late old:new records:12", done.stdout.splitlines(), done.stderr)

    def test_a_nemesis_crashes_hosts_with_disks(self) -> None:
        net = NET.replace("disk quick disk\n", "").replace("at 2s crash quick\n", "nemesis crash-one every 1s for 1s until 50s\n")
        done = self.crashed(net, "--dry-run", "--seed", "1")
        hosts = {line.split()[3] for line in done.stdout.splitlines() if line.startswith("at ")}
        self.assertEqual(hosts, {"files", "wal", "rollback", "extra"}, done.stderr)

    def test_what_is_refused(self) -> None:
        for old, new, fault in (
            ("", "", "crash.net: disk: hosts have disks that a crash can empty in simulated time alone; add --simulated\n"),
            ("disk quick disk\n", "", "crash.net line 15: 'quick': it has no disk: disk HOST PATH [SIZE]\n"),
            ("disk 16M", "disk 8M", "crash.net line 9: '8M': no size from 16M to 64G: disk HOST PATH [SIZE]\n"),
            ("crash wal", "crash c", "crash.net line 15: 'c': it has the main command, whose end is the end\n"),
        ):
            done = self.crashed(NET.replace(old, new, 1))
            self.assertEqual((done.returncode, done.stderr), (2, f"hinge net: {fault}"))
