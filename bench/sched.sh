#!/bin/sh
# Times the scheduler beside its twin. The argument is the count of rounds, of which the least counts.
unset CDPATH POSIXLY_CORRECT; export LC_ALL=C
set -e
cd "$(dirname "$0")/.."
kit=$(dirname "$(rt doc | tail -1)")
(cd crates/bench_sched && rt lib)
work=$(mktemp -d)
trap 'rm -rf "$work"' EXIT
rustc --edition 2021 -O -o "$work/sched" bench/sched.rs -L native=crates/bench_sched/out -l static=bench_sched \
    -L native="$kit/c" -l static=libc_c
"$work/sched" "${1:-10}"
