#!/bin/sh
# How many growths of memory 100 further rounds of the shaper's benchmark take, after as many rounds as the argument says.
# It takes the program that bench/shaper.sh has built.
unset CDPATH POSIXLY_CORRECT; export LC_ALL=C
set -e
cd "$(dirname "$0")/.."
kit=$(dirname "$(rt doc | tail -1)")
work=$(mktemp -d)
trap 'rm -rf "$work"' EXIT
cc -O2 -no-pie -o "$work/bench" tools/gate/refused_growths.c crates/bench_calls/out/bench_calls.o \
    "$kit/c/libos_c.a" "$kit/c/liblibc_c.a" -Wl,--wrap=rattle_alloc,--wrap=rattle_realloc
growths() { REFUSE=0 "$work/bench" shaper "$1" 2>&1 | sed -n 's/^growths //p'; }
rounds=${1:-1000}
echo "$(($(growths $((rounds + 100))) - $(growths "$rounds")))"
