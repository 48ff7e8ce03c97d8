#!/bin/sh
# The times of the heap of links, of the delay line and of a flow's look-up, on standard error. The argument is the count of
# rounds of 1,000 times each.
unset CDPATH POSIXLY_CORRECT; export LC_ALL=C
cd "$(dirname "$0")/../crates/bench_calls" && rt run -- shaper "${1:-1000}" 5 && exec rt run -- shaper "${1:-1000}" 6
