#!/usr/bin/env python3
"""live_report.py < TRANSCRIPT > REPORT: the report of a replay from a live session of one caller, as it goes on.

Memory goes with the packets under way; the rows that don't leave are kept in a file until the end.
"""

import sys
from tempfile import TemporaryFile

EVENTS = {"lost": "lost,{row},{flow},,{at},,\n", "full": "full,{row},{flow},,{at},,\n", "no-target": "none,{row},,,{at},,\n"}
under_way: dict[str, tuple[int, str]] = {}  # by packet: its row and moment
row = 0
with TemporaryFile("w+") as others:
    print("event,row,flow,packet,at,start,due")
    for line in sys.stdin:
        mark, *fields = line.rstrip("\n").split(",")
        if mark == "c":
            row += fields[1] == "submit"
        elif mark == "r" and fields[0] == "queued":
            under_way[fields[3]] = row, fields[1]
        elif mark == "r" and fields[0] in EVENTS:
            others.write(EVENTS[fields[0]].format(row=row, at=fields[1], flow=fields[2] if len(fields) > 2 else ""))
        elif mark == "d":
            packet, flow, start, due = fields
            print("out", *(under_way[packet][0], flow, packet, under_way[packet][1], start, due), sep=",")
            del under_way[packet]
    others.seek(0)
    sys.stdout.writelines(others)
