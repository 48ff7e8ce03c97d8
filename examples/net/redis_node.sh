#!/bin/sh
# A node of redis; its data goes when it ends.
data=$(mktemp -d)
trap 'rm -rf "$data"' EXIT
trap 'exit 143' TERM
redis-server --bind 0.0.0.0 --protected-mode no --save '' --dir "$data" --repl-diskless-sync-delay 0 "$@" >"$data/log" &
wait
