#!/bin/sh
# sh bench/trunks.sh: what reading and writing a trunk's components costs, beside libpri's own functions for QSIG where it is installed:
# instructions (callgrind's) and nanoseconds for each component, the row first and then each of the eight (bench/side.h).
# TURNS, ROUNDS, ITEMS: as in bench/run.sh.
cd "$(dirname "$0")/.." || exit 2
count=${COUNT:-1440} turns=${TURNS:-20} rounds=${ROUNDS:-60} items=${ITEMS:-4000} cc=${CC:-cc}
work=$(mktemp -d) || exit 2
trap 'rm -rf "$work"' EXIT
command -v valgrind >/dev/null || { echo "bench: valgrind is not installed"; exit 1; }
sh tools/archive && sh tools/cc "$work/ours" bench/bench.c -DTRUNKS bench/trunks.c || exit 1
sides=ours
if "$cc" -O2 -DTRUNKS bench/bench.c bench/libpri.c -o "$work/libpri" -lpri 2>"$work/log"; then
    sides="ours libpri"
else
    echo "bench: libpri is not installed (Debian: apt-get install libpri-dev), so its side is left out" >&2
fi
for side in $sides; do
    said=$("$work/$side" check) || { echo "bench: $side: only $said are read and written again as they were"; exit 1; }
    valgrind --tool=callgrind "--callgrind-out-file=$work/out" --dump-before=mark "$work/$side" count "$count" >"$work/jobs" 2>"$work/log" ||
        { cat "$work/log"; exit 1; }
    part=0
    while read -r job choice n; do
        part=$((part + 2)) # the parts between, and the first, are what goes before a job
        sed -n "s/^totals: //p" "$work/out.$part" | awk -v key="$job $choice" -v n="$n" '{ printf "%s %.1f\n", key, $1 / n }'
    done <"$work/jobs" >"$work/$side.instructions"
    rm -f "$work"/out*
done
turn=0
while [ $turn -lt "$turns" ]; do
    turn=$((turn + 1))
    for side in $sides; do "$work/$side" times "$rounds" "$items" >>"$work/$side.times" || exit 1; done
done
for side in $sides; do
    awk '{ k = $1 " " $2 } !(k in best) || $3 < best[k] { best[k] = $3 } END { for (k in best) print k, best[k] }' "$work/$side.times" 2>/dev/null >"$work/$side.ns"
done
for what in instructions ns; do
    for job in read rewrite; do
        for side in $sides; do
            printf '%-13s %-8s %-7s' "$what" "$job" "$side"
            for choice in 0 1 2 3 4 5 6 7 8; do printf ' %7s' "$(awk -v key="$job $choice" '$1 " " $2 == key { print $3 }' "$work/$side.$what")"; done
            echo
        done
    done
done
