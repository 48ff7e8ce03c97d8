#!/bin/sh
# A server of a table in SQLite, with its file on the host's disk. SYNCHRONOUS is a word of PRAGMA synchronous.
unset CDPATH POSIXLY_CORRECT; export LC_ALL=C
cd "$HINGE_NET/$HINGE_HOST" && exec python3 "$HINGE_NET/server.py" "${SYNCHRONOUS:-extra}"
