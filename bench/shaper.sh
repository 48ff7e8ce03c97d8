#!/bin/sh
# The times of calls of sequential dummynet, on standard error. The argument is the count of rounds of 1,000 packets.
unset CDPATH POSIXLY_CORRECT; export LC_ALL=C
cd "$(dirname "$0")/../crates/bench_calls" && exec rt run -- shaper "${1:-1000}"
