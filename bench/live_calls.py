#!/usr/bin/env python3
"""Calls through a session of `dummynet live`: a Submit and a Collect of each packet, 100,000 ns between two.

usage: bench/live_calls.py one PACKETS          one call in flight: each is answered before the next is written
       bench/live_calls.py pipelined PACKETS    all lines are written while another thread reads the answers

DUMMYNET names the program.
"""
import os
import subprocess
import sys
import threading
import time

sys.path.insert(0, os.path.join(os.path.dirname(os.path.abspath(__file__)), "..", "examples", "live"))
from session import program  # noqa: E402

LINK = b"pipe 1 config bw 100Mbit/s delay 5\n"
ROUND = b"c,0,submit,pipe,1,10.0.0.%d,10.0.0.2,17,1000,2000,1000,0,%d\n", b"c,0,collect,%d\n"


def lines(packets):
    yield LINK
    for i in range(packets):
        yield ROUND[0] % (i % 7, i * 100000)
        yield ROUND[1] % (i * 100000)


def session(bufsize=-1):
    return subprocess.Popen([program(), "live"], bufsize, stdin=subprocess.PIPE, stdout=subprocess.PIPE)


def one(packets):
    live = session(bufsize=0)
    answers = open(live.stdout.fileno(), "rb", closefd=False)
    read, write = answers.readline, live.stdin.write
    read()
    write(LINK), read(), read()
    begun = time.perf_counter()
    for i in range(packets):
        write(ROUND[0] % (i % 7, i * 100000)), read(), read()
        write(ROUND[1] % (i * 100000)), read()
        for _ in range(int(read().rpartition(b",")[2])):
            read()
    spent = time.perf_counter() - begun
    live.stdin.close()
    live.wait()
    print(f"Python, one call in flight: {packets / spent:.0f} packets/s, {spent / packets * 1e6:.1f} us a packet")


def pipelined(packets):
    asked, live = b"".join(lines(packets)), session()
    begun = time.perf_counter()
    threading.Thread(target=lambda: (live.stdin.write(asked), live.stdin.close())).start()
    size = 0
    while piece := live.stdout.read1(1 << 20):
        size, last = size + len(piece), piece
    spent = time.perf_counter() - begun
    calls = int(last.splitlines()[-1].split(b",")[1])
    print(f"pipelined: {calls} calls, {calls / spent:.0f} calls/s, {size / packets:.0f} bytes of transcript a packet")


{"one": one, "pipelined": pipelined}[sys.argv[1]](int(sys.argv[2]))
