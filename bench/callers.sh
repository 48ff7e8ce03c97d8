#!/bin/sh
# Calls through a service with 1 to 16 callers, by one that takes the entries out, and on a shaper alone. The figures go to
# standard error.
unset CDPATH POSIXLY_CORRECT; export LC_ALL=C
cd "$(dirname "$0")/../crates/bench_calls" && exec rt run -- callers "${1:-1600000}"
