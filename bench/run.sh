#!/bin/sh
# sh bench/run.sh          what the library and the line program cost, beside libpri and a bare hex echo, as the tables of docs/SPEED.md
# sh bench/run.sh write    the same, and puts the tables into docs/SPEED.md, between their marks
# Instructions are callgrind's; starting up does not count. Times are the best of many short rounds, both sides by turns in one run,
# so that other work on the machine falls between them.
# The archive is that of the machine's own processor. On another than x86-64 the line program's module is compiled for it too
# (tools/native), so that both sides run as they are and not under an emulator.
# COUNT: items counted (default 1440; a multiple of 72). TURNS, ROUNDS, ITEMS: so many turns (40) of so many rounds (60) of so many
# items (4000) are timed; TURNS=0: no times.
cd "$(dirname "$0")/.." || exit 2
count=${COUNT:-1440} turns=${TURNS:-40} rounds=${ROUNDS:-60} items=${ITEMS:-4000} page=docs/SPEED.md cc=${CC:-cc}
work=$(mktemp -d) || exit 2
trap 'rm -rf "$work"' EXIT
command -v valgrind >/dev/null || { echo "bench: valgrind is not installed"; exit 1; }

# ---- the programs

sh tools/archive && sh tools/prove lines && "$cc" -O2 bench/echo.c -o "$work/echo" && "$cc" -O2 bench/spent.c -o "$work/spent" || exit 1
sh tools/cc "$work/ours" bench/bench.c bench/ours.c || exit 1
built="the archive itself" lines=target/bin/lines
if [ "$(uname -m)" != x86_64 ]; then
    built="the archive's own module compiled for this processor" lines=$work/lines
    sh tools/native "$(uname -m)" lines "$work/lines.o" && "$cc" "$work/lines.o" -o "$lines" || exit 1
fi
sides=ours
if "$cc" -O2 bench/bench.c bench/libpri.c -o "$work/libpri" -lpri 2>"$work/log"; then
    sides="ours libpri"
else
    echo "bench: libpri is not installed (Debian: apt-get install libpri-dev), so its side is left out" >&2
fi
for side in $sides; do
    said=$("$work/$side" check) || { echo "bench: $side: only $said are read and written again as they were"; exit 1; }
done
for n in 1 2; do "$work/ours" lines $((n * count / 8)) >"$work/count$n" && "$work/ours" lines $((n * items)) >"$work/time$n" || exit 1; done
{ "$lines" <"$work/count1" >"$work/echoed" && cmp -s "$work/echoed" "$work/count1"; } || { echo "bench: the line program does not echo the row"; exit 1; }

# ---- instructions: $work/SIDE.instructions has lines JOB CHOICE NUMBER

callgrind() { valgrind --tool=callgrind "--callgrind-out-file=$work/out" "$@"; }
for side in $sides; do
    callgrind --dump-before=mark "$work/$side" count "$count" >"$work/jobs" 2>"$work/log" || { cat "$work/log"; exit 1; }
    part=0
    while read -r job choice n; do
        part=$((part + 2)) # the parts between, and the first, are what goes before a job
        sed -n "s/^totals: //p" "$work/out.$part" | awk -v job="$job" -v choice="$choice" -v n="$n" '{ printf "%s %s %.1f\n", job, choice, $1 / n }'
    done <"$work/jobs" >"$work/$side.instructions"
    rm -f "$work"/out*
done
for side in ours echo; do
    program=$lines
    [ $side = ours ] || program=$work/echo
    for n in 1 2; do callgrind "$program" <"$work/count$n" 2>&1 >/dev/null | sed -n 's/.*Collected : *//p'; done | tr '\n' ' ' |
        awk -v n="$(wc -c <"$work/count1")" '{ printf "lines 0 %.1f\n", ($2 - $1) / n }' >>"$work/$side.instructions"
done

# ---- times, by turns: $work/SIDE.ns likewise

turn=0
while [ $turn -lt "$turns" ]; do
    turn=$((turn + 1))
    for side in $sides; do "$work/$side" times "$rounds" "$items" >>"$work/$side.times" || exit 1; done
    for n in 1 2; do
        echo "$n $("$work/spent" "$lines" "$work/time$n") $("$work/spent" "$work/echo" "$work/time$n")" >>"$work/lines.times"
    done
done
if [ "$turns" -gt 0 ]; then
    for side in $sides; do
        awk '{ k = $1 " " $2 } !(k in best) || $3 < best[k] { best[k] = $3 } END { for (k in best) print k, best[k] }' "$work/$side.times" >"$work/$side.ns"
    done
    for side in ours echo; do
        awk -v side=$side -v n="$(wc -c <"$work/time1")" '{ x = side == "ours" ? $2 : $3 } !($1 in best) || x < best[$1] { best[$1] = x }
            END { printf "lines 0 %.2f\n", (best[2] - best[1]) / n }' "$work/lines.times" >>"$work/$side.ns"
    done
fi

# ---- the tables

of() { awk -v job="$3" -v choice="$4" '$1 == job && $2 == choice { print $3 }' "$work/$1.$2" 2>/dev/null; } # SIDE WHAT JOB CHOICE
part() { echo "$1 $2" | awk 'NF == 2 && $2 > 0 { printf "%.2f", $1 / $2 }'; }
round() { echo "$1" | awk 'NF { s = sprintf($1 < 10 ? "%.1f" : "%.0f", $1); if (length(s) > 3 && s !~ /\./) s = substr(s, 1, length(s) - 3) "," substr(s, length(s) - 2); print s }'; }
line() { # NAME JOB PEER [CHOICE]
    row="| $1 |"
    for what in instructions ns; do
        a=$(of ours $what "$2" "${4:-0}") b=$(of "$3" $what "$2" "${4:-0}")
        if [ $what = ns ] || [ "$2" = lines ]; then row="$row $a | $b | $(part "$a" "$b") |"; else row="$row $(round "$a") | $(round "$b") | $(part "$a" "$b") |"; fi
    done
    echo "$row"
}
each() { # NAME JOB WHAT
    ours="| $1: ours |" theirs="| $1: libpri |" parts="| $1: part |"
    for choice in 1 2 3 4 5 6 7 8; do
        a=$(of ours "$3" "$2" $choice) b=$(of libpri "$3" "$2" $choice)
        ours="$ours $(round "$a") |" theirs="$theirs $(round "$b") |" parts="$parts $(part "$a" "$b") |"
    done
    printf '%s\n%s\n%s\n' "$ours" "$theirs" "$parts"
}
tables() {
    echo "$(uname -m), $(sed -n 's/^model name[^:]*: //p' /proc/cpuinfo | head -n 1), $(nproc) processors, load $(cut -d' ' -f1 /proc/loadavg); $built; $("$cc" --version | head -n 1). Times: best of $turns turns of $rounds rounds of $items items."
    echo
    echo '| for each | instructions | libpri | part | ns | libpri | part |'
    echo '|---|---|---|---|---|---|---|'
    line 'component read' read libpri
    line 'component with an amount (C1) read' read libpri 1
    line 'component read and written' rewrite libpri
    line 'component written alone' write libpri
    line 'element of eight components, gone through up to its length' element libpri
    line 'element of one component (C1), likewise' single libpri
    line 'event of an account' step libpri
    line 'character of the line program (beside a bare hex echo)' lines echo
    echo
    echo '| component | C1 | C2 | C3 | C4 | C5 | C6 | C7 | C8 |'
    echo '|---|---|---|---|---|---|---|---|---|'
    each 'read, ns' read ns
    each 'read and written, ns' rewrite ns
    each 'read, instructions' read instructions
    each 'read and written, instructions' rewrite instructions
}
tables >"$work/tables" && cat "$work/tables"
[ "$1" = write ] || exit 0
[ "$(grep -c '^<!-- \(measured\|end of what is measured\) -->$' "$page")" = 2 ] || { echo "bench: $page has not its two marks"; exit 1; }
awk -v file="$work/tables" '/^<!-- end of what is measured -->$/ { skip = 0 } !skip
    /^<!-- measured -->$/ { print ""; while ((getline l < file) > 0) print l; print ""; skip = 1 }' "$page" >"$work/page" && cat "$work/page" >"$page"
