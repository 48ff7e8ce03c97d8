"""A client of a store and its replica: it says when a value is where, before, during and after the link between the two is cut.

Its last line is `consistent` where the replica has all in the end, by one whole copy alone."""

import socket
import sys
import time

PATIENCE = 60  # s for which anything is waited for
BEGUN = time.monotonic()


def exchange(line, *words):
    """A command and its answer, by redis' protocol."""
    line.write(b"*%d\r\n" % len(words) + b"".join(b"$%d\r\n%s\r\n" % (len(word), word) for word in map(str.encode, words)))
    line.flush()
    head = line.readline().decode().strip()
    return line.read(int(head[1:]) + 2).decode()[:-2] if head.startswith("$") and head != "$-1" else head


def asked(host, *commands):
    """The last answer to commands on one connection; None where there is none within two seconds."""
    try:
        with socket.create_connection((host, 6379), timeout=2) as connection, connection.makefile("rwb") as line:
            return [exchange(line, *command.split()) for command in commands][-1]
    except OSError:
        return None


def until(what, holds):
    end = time.monotonic() + PATIENCE
    while not holds():
        if time.monotonic() > end:
            sys.exit(f"not within {PATIENCE} s: {what}")
        time.sleep(0.05)
    print(f"{time.monotonic() - BEGUN:5.1f} s  {what}", flush=True)


def told(host, word):
    """A word of a node's information."""
    lines = (asked(host, "info") or "").splitlines()
    return next((line.partition(":")[2] for line in lines if line.startswith(f"{word}:")), None)


def is_confirmed():
    """Whether the replica has a new write within a second."""
    return asked("store", "incr counter", "wait 1 1000") == ":1"


until("the replica follows the store", lambda: told("replica", "master_link_status") == "up")
until("the store has a value of a megabyte", lambda: asked("store", f"set value {'x' * 1_000_000}") == "+OK")
until("the replica has it too", lambda: asked("replica", "strlen value") == ":1000000")
until("the replica confirms writes", is_confirmed)
until("it doesn't any more: it is cut from the store", lambda: not is_confirmed())
asked("store", "set value new")
until("the replica serves the old value", lambda: asked("replica", "strlen value") == ":1000000")
until("the replica has the new one", lambda: asked("replica", "strlen value") == ":3")
until("both count the same", lambda: asked("replica", "get counter") == asked("store", "get counter"))
print(f"whole copies: {told('store', 'sync_full')}")
print("consistent" if told("store", "sync_full") == "1" else "it was copied anew")
