#!/bin/sh
# The times of parse_line, on standard error. The argument is the count of lines of ten words.
unset CDPATH POSIXLY_CORRECT; export LC_ALL=C
cd "$(dirname "$0")/../crates/bench_calls" && exec rt run -- lines "${1:-5000000}"
