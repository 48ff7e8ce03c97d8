#!/bin/sh
# The program beside plain Rust and the limit on seven loads of 1,000,000 rows, as one table of times and, where there is valgrind, of counts, below
# what the machine is and how busy: bench/replay.sh [ROUNDS [ROWS [LOAD ..]]]. It takes about seven minutes, and the counts an hour.
unset CDPATH POSIXLY_CORRECT; export LC_ALL=C
set -e
cd "$(dirname "$0")/.."
work=$(mktemp -d)
trap 'rm -rf "$work"' EXIT
CARGO_TARGET_DIR="$work" cargo build --quiet --release --offline --manifest-path bench/twin/Cargo.toml
cc -O3 -march=x86-64-v3 -w bench/limit.c -o "$work/limit"
./dummynet --version >&2
program=built/$(tools/release/program_sources)/dummynet
[ -x "$program" ] || program=release/dummynet
date -u +%F && sed -n "s/^model name.*: //p" /proc/cpuinfo | uniq -c && cat /proc/loadavg
python3 bench/replay.py "$program" "$work/release/twin" "$work/limit" "$@"
