#!/bin/sh
# bench/embedding.sh PREFIX [ROUNDS]: times of calls from C and from Python, of the library that ./install --lib has put below PREFIX, and
# of plain Rust behind the same header (bench/twin, built by cargo). The rows from C are five that alternate.
unset CDPATH POSIXLY_CORRECT; export LC_ALL=C
set -e
prefix=$(cd "$1" && pwd)
cd "$(dirname "$0")"
place=$(mktemp -d)
trap 'rm -r "$place"' EXIT
export PKG_CONFIG_PATH="$prefix/lib/pkgconfig" LD_LIBRARY_PATH="$prefix/lib:$place" HINGETULIP_LIBRARY="$prefix/lib/libhingetulip.so"
cc -O2 -Wall -Wextra c_calls.c $(pkg-config --cflags --libs hingetulip) -o "$place/c_calls"
(cd twin && cargo build --quiet --release --offline --target-dir "$place/target")
cp "$place/target/release/libtwin.so" "$place"
cc -O2 -Wall -Wextra c_calls.c $(pkg-config --cflags hingetulip) -L"$place" -ltwin -o "$place/c_twin"
for _ in 1 2 3 4 5; do
    "$place/c_calls" "${2:-60}"
    "$place/c_twin" "${2:-60}" | sed 's/^C,/plain Rust,/'
done
python3 python_calls.py "${2:-60}"
