#!/bin/sh
# One call in flight through a session of `dummynet live`, from C and from Python: with the host and the session on one processor,
# and where the system puts them; then all calls pipelined. Each three times. The argument is the count of packets.
# DUMMYNET names the program. On a machine that does other work: chrt -f 10 bench/live.sh
unset CDPATH POSIXLY_CORRECT; export LC_ALL=C
set -e
cd "$(dirname "$0")/.."
export DUMMYNET="${DUMMYNET:-$PWD/dummynet}"
packets=${1:-200000}
work=$(mktemp -d)
trap 'rm -rf "$work"' EXIT
cc -O2 -o "$work/live" bench/live.c
for round in 1 2 3; do
    for where in "taskset -c 0" env; do
        echo "== $where"
        $where "$work/live" "$packets"
        $where python3 bench/live_calls.py one "$packets"
    done
    python3 bench/live_calls.py pipelined "$packets"
done
