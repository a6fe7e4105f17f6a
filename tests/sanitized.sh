#!/bin/sh
# The programs in C, compiled with the address and the undefined-behaviour sanitizer where the compiler has them, print of every input what they
# print without, and find nothing wrong in it, nor in the inputs damaged: lines left out, doubled and cut, characters changed.
cd "$(dirname "$0")/.." || exit 2
work=$(mktemp -d) || exit 2
trap 'rm -rf "$work"' EXIT
sh tools/archive || exit 1
flags='-O1 -fsanitize=address,undefined -fno-sanitize-recover=all'
export ASAN_OPTIONS=exitcode=99:detect_leaks=0 UBSAN_OPTIONS=exitcode=99
echo 'int main(void) { return 0; }' >"$work/none.c"
# shellcheck disable=SC2086
if [ "$(uname -m)" != x86_64 ] || [ -n "$CROSS" ] || ! "${CC:-cc}" $flags "$work/none.c" -o "$work/none" 2>"$work/err" || ! "$work/none" 2>"$work/err"; then
    echo "sanitized: no sanitizers here"
    exit 0
fi
for program in night replay explain trunks request; do
    # shellcheck disable=SC2086
    sh tools/cc "$work/$program" "examples/$program.c" $flags || exit 1
done
runs=0
# run PROGRAM ARGUMENT..: its status is 0 or 1
run() {
    program=$1
    shift
    "$work/$program" "$@" >"$work/out" 2>"$work/err"
    status=$?
    [ $status -le 1 ] || { tail -n 20 "$work/err"; echo "sanitized: status $status of $program $*"; exit 1; }
    runs=$((runs + 1))
}
# all FILE: every program and option over a file
all() {
    for options in '' --csv --month '--month --csv'; do
        # shellcheck disable=SC2086
        run night $options "$1"
    done
    run replay "$1"
    run replay --night "--rooms=$1" "$1"
    run explain "$1"
    run explain --one-line "$1"
    run trunks "$1"
}
for file in examples/*.txt examples/capture/events.txt tests/programs/*.txt tests/programs/*.log; do
    all "$file"
done
"$work/night" examples/night.txt | cmp - examples/night.out || exit 1
"$work/replay" examples/replay.txt | cmp - examples/replay.out || exit 1
"$work/explain" examples/explain.txt | cmp - examples/explain.out || exit 1
"$work/trunks" examples/trunks.txt | cmp - examples/trunks.out || exit 1
"$work/request" | cmp - examples/request.out || exit 1
seed=1
for file in examples/night.txt examples/replay.txt examples/explain.txt examples/capture/rooms.txt tests/programs/night_desk.txt tests/programs/lines.log tests/programs/parked.log; do
    for damage in 1 2 3 4; do
        awk -v seed=$seed 'BEGIN { srand(seed); some = "0123456789ABCDEFaun :-#=?\t\200SDE" }
            {
                r = rand()
                if (r < .1) next
                if (r < .2) print
                if (r < .5) { i = int(rand() * length($0)) + 1; $0 = substr($0, 1, i - 1) substr(some, int(rand() * length(some)) + 1, 1) substr($0, i + 1) }
                if (r > .9) $0 = substr($0, 1, int(rand() * length($0)))
                print
            }' "$file" >"$work/damaged"
        all "$work/damaged"
        seed=$((seed + 1))
    done
done
run explain "$work/night" tests/capture.sh examples/capture/evening.pcap
run replay "$work/night" tests/capture.sh examples/capture/evening.pcap
run night "$work/night" tests/capture.sh examples/capture/evening.pcap
echo "sanitized: $runs runs, nothing wrong"
