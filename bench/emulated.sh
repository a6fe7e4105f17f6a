#!/bin/sh
# sh bench/emulated.sh: the instructions of the archive itself, for x86-64, on a machine that is not: the toolchain's emulator runs one
# instruction at a time and logs each. Twice as many items take as many more as the items cost, so starting up falls out. No times.
cd "$(dirname "$0")/.." || exit 2
kit=$(dirname "$(rt doc)")/toolchain
[ -x "$kit/bin/qemu-x86_64" ] || { echo "bench: no emulator here: bench/run.sh counts the archive itself"; exit 1; }
work=$(mktemp -d) || exit 2
trap 'rm -rf "$work"' EXIT
export AOC_FOR=x86_64
{ sh tools/archive && sh tools/cc "$work/count" bench/emulated.c -Ibench >"$work/log" 2>&1; } || { cat "$work/log"; exit 1; }
job=0
for name in 'component read' 'component read and written' 'element of eight components, gone through' 'event of an account'; do
    for items in 72 144; do
        "$kit/bin/qemu-x86_64" -one-insn-per-tb -d exec,nochain -D "$work/log" "$kit/lib/ld-linux-x86-64.so.2" --library-path "$kit/lib" "$work/count" $job $items
        wc -l <"$work/log"
    done | tr '\n' ' ' | awk -v name="$name" '{ printf "%-45s %7.1f\n", name, ($2 - $1) / 72 }'
    job=$((job + 1))
done
