#!/bin/sh
# ./run trunks prints what examples/trunks.out has; every fault of style is a bad line, and a line of any length is taken.
cd "$(dirname "$0")/.." || exit 2
work=$(mktemp -d) || exit 2
trap 'rm -rf "$work"' EXIT
trunks() { sh tools/exec target/examples/trunks "$@"; }
wrong() { echo "trunks: $*"; exit 1; }

./run trunks <examples/trunks.txt | cmp - examples/trunks.out || exit 1

# says ANSWER LINE: the line, and the line behind it, get these answers
says() {
    printf '%b\n9E' "$2" | trunks >"$work/out" || wrong "a status for $2"
    [ "$(cat "$work/out")" = "$1
refused 17" ] || wrong "$2: $(cat "$work/out")"
}
says 'bad line' ''
says 'bad line' ' '
says 'bad line' '9'
says 'bad line' '9F '
says 'bad line' ' 9F'
says 'bad line' '9F  AA'
says 'bad line' '9FAA'
says 'bad line' '9F\tAA'
says 'bad line' '9F\r'
says 'bad line' '9F A'
says 'bad line' '9G'
says 'bad line' '9F \0000'
says 'bad line' '\0357\0273\027791'
says 'refused 1' '9f'
says 'refused 1' '91'
says 'refused 17' '00'
says 'refused 17' '90 A1'
many() { awk -v n="$1" 'BEGIN { for (i = 0; i < n; i++) printf " AA" }'; }
says 'refused 5' "9F AA 06 80 01 00 82 01 00$(many 246)"
says 'refused 3' "9F AA 06 80 01 00 82 01 00$(many 247)"
says 'refused 3' "9F$(many 100000)"
says 'bad line' "9F$(many 100000) A"
says 'refused 17' "90$(many 100000)"
printf '' | trunks >"$work/out" || wrong 'a status for no input'
[ ! -s "$work/out" ] || wrong 'no input'

trunks </ >"$work/out" 2>"$work/err"
[ $? = 1 ] || wrong 'a folder as input'
grep -q 'cannot be read' "$work/err" || wrong 'a folder as input'
if [ -w /dev/full ]; then
    trunks <examples/trunks.txt >/dev/full 2>"$work/err"
    [ $? = 1 ] || wrong 'a full disk'
    grep -q 'cannot be written' "$work/err" || wrong 'a full disk'
fi
trunks examples/trunks.txt | cmp - examples/trunks.out || wrong 'a file'
trunks --help | grep -q '^usage: trunks ' || wrong '--help'
trunks --version | grep -q '^trunks [0-9.]*$' || wrong '--version'
trunks --all >"$work/out" 2>"$work/err"
[ $? = 2 ] || wrong 'an unknown option'
echo "trunks: every line has its answer"
