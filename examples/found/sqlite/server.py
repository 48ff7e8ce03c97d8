"""Inserts a number into a table of SQLite for each connection that sends one, and answers once the commit is done; for an empty line it
lists the table."""

from __future__ import annotations

import json
import socketserver
import sqlite3
import sys


class Request(socketserver.StreamRequestHandler):
    def handle(self) -> None:
        line = self.rfile.readline()
        if line.strip():
            BASE.execute("INSERT INTO s VALUES (?)", (int(line),))
        answer = [] if line.strip() else sorted(row[0] for row in BASE.execute("SELECT v FROM s"))
        self.wfile.write(json.dumps(answer).encode() + b"\n")


class Server(socketserver.TCPServer):
    allow_reuse_address = True


BASE = sqlite3.connect("base", isolation_level=None)
BASE.execute(f"PRAGMA synchronous={sys.argv[1]}")
BASE.execute("CREATE TABLE IF NOT EXISTS s (v)")
Server(("", 2000), Request).serve_forever()
