#!/bin/sh
# Runs each test of a crate with each of its growths of memory refused in turn, a process each. The arguments are the
# crate and then, if wanted, the tests that stand in for all: whole names, or `heap::` for those of a module. A test
# passes if it tries a refused call again.
# A Vec that is refused room for more asks again for just enough, which hides a refusal: REFUSE_IN_A_ROW=2 refuses both.
# So a growth that is refused is asked for once more in its place at most. A run that asks for more growths than that was told of want of
# memory, and made a call again. With two in a row one that asks for as many was told too, since the second try is refused with the first.
# In the end each growth is refused: a test that passes then never sees want of memory. It takes what `rt test` or `rt ci` has built.
unset CDPATH POSIXLY_CORRECT; export LC_ALL=C
set -e
here=$(cd "$(dirname "$0")" && pwd)
crate=$1
shift
row=${REFUSE_IN_A_ROW:-1}
hidden=$([ "$row" -gt 1 ] && echo 0 || echo 1)
work=$(mktemp -d)
trap 'rm -rf "$work"' EXIT
cp "$here/../../crates/$crate/out/${crate}_tests" "$work/tests"
cc -O2 -shared -fPIC -DPRELOADED -o "$work/refusing.so" "$here/refused_growths.c"
cd "$work"
ulimit -c 0
failed=0
./tests --list | sed -n 's/: test$//p' >all
[ $# -gt 0 ] || cp all chosen
for wanted; do
    case $wanted in
    *::) grep "^$wanted" all ;;
    *) grep -x "$wanted" all ;;
    esac >>chosen || {
        echo "$crate has no test $wanted" >&2
        exit 1
    }
done
asked_for() { od -An -td8 counted | tr -d ' '; }
while read -r name; do
    # A program with threads ends without telling how many growths there were, so they are refused until none is left.
    growth=1
    again=0
    COUNTED=counted LD_PRELOAD=./refusing.so ./tests "$name" >told 2>&1 || true
    ample=$(asked_for)
    while true; do
        if ! COUNTED=counted REFUSE=$growth LD_PRELOAD=./refusing.so ./tests "$name" >told 2>&1; then
            echo "$name fails where growth $growth is refused: $(tail -1 told)"
            failed=$((failed + 1))
        elif [ "$(asked_for)" -ge $((ample + row + hidden)) ]; then
            again=$((again + 1))
        fi
        grep -q '^refused$' told || break
        growth=$((growth + 1))
    done
    without=passes
    REFUSE=1 REFUSE_IN_A_ROW=1000000000 LD_PRELOAD=./refusing.so ./tests "$name" >told 2>&1 || without=fails
    echo "$name: each of $((growth - 1)) growths refused in turn, $row in a row; a call was made again in $again runs; $without without memory"
done <chosen
[ "$failed" = 0 ]
