#!/bin/sh
# sh bench/board.sh [ARCHIVE]: instructions (callgrind's) of an event of one account and of the same on a full switchboard.
# With another archive of the library, those of one account by that one too.
cd "$(dirname "$0")/.." || exit 2
command -v valgrind >/dev/null || { echo "bench: valgrind is not installed"; exit 1; }
sh tools/archive || exit 1
work=$(mktemp -d) || exit 2
trap 'rm -rf "$work"' EXIT
${CC:-cc} -std=c11 -O2 -Iinclude -o "$work/board" bench/board.c target/staticlib/libaoc.a || exit 1
[ -z "$1" ] || ${CC:-cc} -std=c11 -O2 -DAOC_ONE_ACCOUNT -Iinclude -o "$work/before" bench/board.c "$1" || exit 1

# instructions PROGRAM MODE: for each event
instructions() {
    for n in 2000 4000; do
        valgrind --tool=callgrind --callgrind-out-file=/dev/null "$1" "$2" $n 2>&1 >/dev/null | sed -n 's/.*Collected : *//p'
    done | tr '\n' ' ' | awk '{ printf "%.0f\n", ($2 - $1) / 2000 }'
}
for mode in component plain plain-step; do
    [ -z "$1" ] || echo "$mode, by $1: $(instructions "$work/before" "$mode")"
    echo "$mode: $(instructions "$work/board" "$mode")"
done
for mode in board-component board-component-first board-plain board-not-held board-full board-call board-view; do
    echo "$mode: $(instructions "$work/board" "$mode")"
done
