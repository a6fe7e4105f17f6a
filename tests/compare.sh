#!/bin/sh
# Compares the proved library and the line program with the second program: sh tests/compare.sh [SEED [COUNT]], with COUNT inputs of each
# family, 200,000 where none is said, and half as many with extensions.
# A differing answer is printed with its input and both answers, of an account with the octets that differ, and fails.
cd "$(dirname "$0")/.." || exit 2
seed=${1:-1} whole=${2:-200000}
work=$(mktemp -d) || exit 2
trap 'rm -rf "$work"' EXIT

sh tools/archive && sh tools/cc "$work/driver" tests/driver.c || exit 1
# differences NAME INPUTS SECOND OURS [DRIVER]: prints the first of them
differences() {
    cmp -s "$3" "$4" && return 0
    python3 tests/differences.py "$@"
    return 1
}
# library COUNT NAME [FAMILY]: so many answers of the library are the second program's
library() {
    count=$1
    shift
    # shellcheck disable=SC2086
    python3 second/inputs.py "$seed" "$count" $2 | tee "$work/$1" | python3 second/answer.py >"$work/$1.second"
    [ "$(wc -l <"$work/$1.second")" -eq "$count" ] || { echo "compare: the second program did not answer"; exit 1; }
    sh tools/exec "$work/driver" <"$work/$1" >"$work/$1.library" || exit 1
    differences "the library" "$work/$1" "$work/$1.second" "$work/$1.library" "$work/driver" || exit 1
}
# side by side, so that no processor waits for the second program
library "$whole" inputs & lines=$!
library "$whole" trunks trunks & trunks=$!
library $((whole / 2)) extensions extensions & extensions=$!
status=0
for family in $lines $trunks $extensions; do wait "$family" || status=1; done
[ "$status" -eq 0 ] || exit 1

sh tools/prove lines || exit 1
python3 tests/line_inputs.py "$seed" "$work/inputs" "$work/text" "$work/second" || exit 1
sh tools/exec target/bin/lines <"$work/text" >"$work/ours" || exit 1
differences "the line program" "$work/text" "$work/second" "$work/ours" || exit 1

sh tools/cc "$work/lines" examples/trunks.c || exit 1
python3 tests/line_inputs.py "$seed" "$work/trunks" "$work/text" "$work/second" trunks || exit 1
sh tools/exec "$work/lines" <"$work/text" >"$work/both" || exit 1
differences "the line program of both families" "$work/text" "$work/second" "$work/both" || exit 1
echo "compare: seed $seed: $whole answers of the library, as many on trunks, half as many on extensions, and $(wc -l <"$work/ours") lines of the line program and $(wc -l <"$work/both") of that for both families are those of the second program"
