#!/bin/sh
# ./run explain prints what examples/explain.out has; it takes one component in every spelling and behind every log's head alike, and nothing
# that is not there; what it refuses it tells with its line, octets and operation.
cd "$(dirname "$0")/.." || exit 2
work=$(mktemp -d) || exit 2
trap 'rm -rf "$work"' EXIT
explain() { sh tools/exec target/examples/explain "$@"; }
wrong() { echo "explain: $*"; exit 1; }
# has FILE PATTERN OF: a line of the file is as the pattern says
has() { grep -q "$2" "$work/$1" || wrong "$3: $(cat "$work/$1")"; }

./run explain <examples/explain.txt | cmp - examples/explain.out || exit 1

octets='A1 1A 02 01 0B 02 01 23 30 12 30 10 A1 0E 81 03 45 55 52 A2 07 81 02 00 96 82 01 01'
answer='invoke 11 aOCECurrency EUR 1.500'
# alike LINE ANSWER FILE: the file is explained by one line, as of its line; the status is 1 where the answer is a refusal
alike() {
    explain --one-line <"$3" >"$work/out"
    status=$?
    case $2 in *refused*) want=1 ;; *) want=0 ;; esac
    [ $status = $want ] || wrong "status $status: $(cat "$3" "$work/out")"
    [ "$(cat "$work/out")" = "$1: $2" ] || wrong "$(cat "$3" "$work/out")"
}
# means OCTETS ANSWER: so is a line of octets
means() {
    echo "$1" >"$work/in"
    alike 1 "$2" "$work/in"
}
for edit in 's/x/x/' 's/ //g' 's/.*/\L&/' 's/ / 0x/g; s/^/0x/' 's/ /, 0x/g; s/^/{0x/; s/$/};/' 's/ /:/g' 's/ /-/g' 's/ /\t/g' 's/ /  /g' \
    's/^/  /; s/$/  /' 's/$/\r/' 's/$/ # the last charge/' 's/ /\\x/g; s/^/"\\x/; s/$/"/' 's/^/22:03 /' 's/^/2026-11-16 22:03:11.482 room 214: /' \
    's/^/\xEF\xBB\xBF/' 's/\(....................\) /\1, /'; do
    echo "$octets" | sed "$edit" >"$work/in"
    alike 1 "$answer" "$work/in"
done
printf '%s' "$octets" >"$work/in"
alike 1 "$answer" "$work/in"
printf '# a comment\n\n  # another\n%s\n\n' "$octets" >"$work/in"
alike 4 "$answer" "$work/in"
means "1C 1D 91 $octets" "$answer"
means "08 01 81 45 08 02 80 90 1C 1D 91 $octets" "DISCONNECT: $answer"
means "08 00 62 A0 1C 1D 91 $octets 28 01 41" "FACILITY: $answer"
means "02 01 6A 02 08 01 81 45 08 02 80 90 1C 1D 91 $octets" "DISCONNECT: $answer"
means "00 FF 03 08 01 01 4D 1C 1D 91 $octets" "RELEASE: $answer"
# behind the heads of logs: syslog's, a call's number, a day that is also an octet
element="1C 1D 91 $octets"
for head in 'Nov 16 22:03:11 pbx01' 'Nov  6 22:03:11 pbx01 isdn[312]:' 'Nov 08 22:03:11 pbx01 kernel:' 'Dec 02 22:03:11 gw' '<134>Nov 16 22:03:11 10.0.0.7' \
    '2026-11-16T22:03:11+01:00 pbx01 q931[44]' '16.11.2026 22:03:11,482 RX' 'call 12' 'call 08' 'call 91' 'line 2 call 12' 'room 214 of 300:' 'pid 1234:' \
    '[2026-11-16 22:03:11] VERBOSE[1234]:' 'TX -->' '[12345.678901] isdn:' '22:03 call 12'; do
    means "$head $element" "$answer"
    means "$head $octets" "$answer"
done
# a Facility element under a shift is another codeset's; one behind a shift for one element is not
means "08 01 81 45 96 1C 1D 91 $octets" 'DISCONNECT: no Facility element in the message'
means "08 01 81 45 9E 1C 01 00 1C 1D 91 $octets" "DISCONNECT: $answer"
means "08 01 81 45 1C 1E 91 $octets" 'refused: not a message to its exact end'
means "$octets $octets" 'refused 5: octets after the component'
means '1C 01 91' 'refused 15: a malformed Facility element'

# of a trunk: by the profile octet ahead of a component, or by the element's own
trunk='A1 17 02 01 01 02 01 3D 30 0F 30 0D A1 0B 81 01 45 A2 06 81 01 0F 82 01 02'
means "9F $trunk" 'invoke 1 aocFinal E 1.500'
means "9f${trunk##A1}" 'refused 4: the first octet is not A1 to A4, nor AA of a trunk'
means "91 $trunk" 'refused 7: an unknown operation'
means "$trunk" 'refused 7: an unknown operation'
means "91 $octets" "$answer"
means "9F $octets" 'refused 7: an unknown operation'
means "1C 1A 9F $trunk" 'invoke 1 aocFinal E 1.500'
means "08 01 81 62 1C 1A 9F $trunk" 'FACILITY: invoke 1 aocFinal E 1.500'
means "1C 1A 91 $trunk" 'refused 7: an unknown operation'
means "1C 1A 9E $trunk" 'refused 15: a malformed Facility element'
means '9F AA 06 80 01 01 82 01 00' 'networkFacilityExtension anyTypeOfPINX to endPINX'
means '9F AA 00' 'refused 6: a failure outside the argument or result'
means '9F 92 01 05' 'networkProtocolProfile, for the exchange alone: 92 01 05'
means '91 8B 01 00' 'refused 4: the first octet is not A1 to A4, nor AA of a trunk'
means '9F' 'refused 1: the octets end too early'

# dumps, as printed by tshark -x, hexdump -C, xxd, od -Ax -tx1
cat >"$work/tshark" <<'END'
0000  a1 1a 02 01 0b 02 01 23 30 12 30 10 a1 0e 81 03   .......#0.0.....
0010  45 55 52 a2 07 81 02 00 96 82 01 01               EUR.........
END
cat >"$work/hexdump" <<'END'
00000000  a1 1a 02 01 0b 02 01 23  30 12 30 10 a1 0e 81 03  |.......#0.0.....|
00000010  45 55 52 a2 07 81 02 00  96 82 01 01              |EUR.........|
0000001c
END
cat >"$work/xxd" <<'END'
00000000: a11a 0201 0b02 0123 3012 3010 a10e 8103  .......#0.0.....
00000010: 4555 52a2 0781 0200 9682 0101            EUR.........
END
cat >"$work/od" <<'END'
000000 a1 1a 02 01 0b 02 01 23 30 12 30 10 a1 0e 81 03
000010 45 55 52 a2 07 81 02 00 96 82 01 01
00001c
END
for dump in tshark hexdump xxd od; do
    alike 1 "$answer" "$work/$dump"
    sed 's/$/\r/; s/^/  /' "$work/$dump" >"$work/in"
    alike 1 "$answer" "$work/in"
    { cat "$work/$dump" && echo && cat "$work/$dump"; } | explain --one-line >"$work/out"
    [ "$(grep -c "$answer" "$work/out")" = 2 ] || wrong "two dumps of $dump"
    for edit in '2s/a2/a/' '2s/a2/z2/' 2d 1d; do
        sed "$edit" "$work/$dump" | explain --one-line >"$work/out"
        ! grep -q "$answer" "$work/out" || wrong "a damaged dump of $dump: $edit"
    done
done
sed '2s/45 55/45  55/' "$work/tshark" | explain --one-line >"$work/out"
has out '^2: not taken: not two hex digits' 'a gap in a dump'
sed '2s/^/*\n/' "$work/hexdump" | explain --one-line >"$work/out"
has out '^2: not taken: the dump leaves octets out' 'a dump that leaves octets out'

# left LINE INPUT: nothing is explained, and the line is named
left() {
    printf '%b' "$2" | explain >"$work/out" && wrong "status 0 for $2"
    [ "$(wc -l <"$work/out")" -eq 1 ] || wrong "taken: $2"
    has out "^line $1 is not taken: " "$2"
}
left 1 "$octets\\0000garbage\n"
left 1 "$octets 0\n"
left 1 "$octets zz\n"
left 1 "A1 1A 02 O1 0B\n"
left 1 "22:03 call 12 A1 1A 02 O1 0B\n"
left 1 "A1 O9 02 01 05 02 01 1E 0A 01 01\n"
left 1 "1C O9 91 A3 06 02 01 05 02 01 1A\n"
left 1 "08 01 81 45 1C 1D 91 oops $octets\n"
left 1 'A11A0\n'
left 2 '\nno octets here\n'
left 1 '30 12 30 10\n'
left 1 "$(awk 'BEGIN { for (i = 0; i < 70000; i++) printf "A1 " }')$octets\n"
has out 'over 4096 octets' 'a long line'
explain </dev/null 2>"$work/err" && wrong 'status 0 for an empty input'
has err 'no octets came' 'an empty input'

# every line of an answer but its parts names the input's line, in two files too
explain examples/explain.txt >"$work/out"
! grep -vE '^(line [0-9]+(: .| is not taken: )|  )' "$work/out" || wrong 'an answer without its line'
echo "$octets" >"$work/a"
printf '\n9F\n' >"$work/b"
explain "$work/a" "$work/b" >"$work/out" && wrong 'status 0 for a refusal'
[ "$(head -n 1 "$work/out")" = "$work/a line 1: invoke" ] || wrong 'the first of two files'
[ "$(tail -n 2 "$work/out" | tr '\n' '|')" = "$work/b line 2: refused 1: the octets end too early|  no octets|" ] || wrong 'the second of two files'
explain --one-line "$work/a" "$work/b" >"$work/out"
[ "$(tr '\n' '|' <"$work/out")" = "$work/a:1: $answer|$work/b:2: refused 1: the octets end too early|" ] || wrong 'two files in lines'
cp "$work/tshark" "$work/b"
explain --one-line "$work/b" "$work/b" >"$work/out" || wrong 'a dump at the end of a file'
[ "$(grep -c "^$work/b:1: $answer$" "$work/out")" = 2 ] || wrong 'a dump at the end of a file'

# told TEXT OCTETS: the refusal has the operation and the octets
told() {
    echo "$2" | explain >"$work/out" && wrong "status 0 for $2"
    [ "$(tr '\n' '|' <"$work/out")" = "line 1: $1|  ${2#9[1F] }|" ] || wrong "$2: $(cat "$work/out")"
}
told 'refused 7: an unknown operation, operation 37' 'A1 08 02 01 07 02 01 25 05 00'
told 'refused 7: an unknown operation, operation -2' 'A1 08 02 01 07 02 01 FE 05 00'
told 'refused 7: an unknown operation, operation 1000000' 'A1 0A 02 01 07 02 03 0F 42 40 05 00'
told 'refused 7: an unknown operation, operation an object identifier' 'A1 06 02 01 07 06 01 2A'
told 'refused 7: an unknown operation, operation 61 (aocFinal)' '91 A1 0A 02 01 01 02 01 3D 30 02 81 00'
told 'refused 7: an unknown operation, operation 33 (aOCDCurrency)' 'A2 0A 02 01 07 30 05 02 01 21 05 00'
told 'refused 8: an unknown error, error 99' 'A3 06 02 01 05 02 01 63'
told 'refused 6: a failure outside the argument or result, error 26 (noChargingInfoAvailable)' 'A3 08 02 01 05 02 01 1A 05 00'
told 'refused 1: the octets end too early, operation 35 (aOCECurrency)' 'A1 1A 02 01 0B 02 01 23'
told 'refused 2: a length octet of 83 to FF, or of 80 on a primitive element' 'A1 83 02 01 0B'
told 'refused: not a message to its exact end' '08 01 81 45 1C 1E 91'
told 'refused 15: a malformed Facility element' '1C 05 91'

explain </ >"$work/out" 2>"$work/err"
[ $? = 1 ] || wrong 'a folder as input'
has err 'cannot be read' 'a folder as input'
explain "$work/none" >"$work/out" 2>"$work/err"
[ $? = 1 ] || wrong 'a file that is not there'
has err "^explain: $work/none: cannot be read: " 'a file that is not there'
explain --two-lines 2>"$work/err"
[ $? = 2 ] || wrong 'an unknown option'
has err '^explain: usage: explain ' 'an unknown option'
explain --help >"$work/out" || wrong 'a status for --help'
has out '^usage: explain ' '--help'
explain --version >"$work/out" || wrong 'a status for --version'
has out '^explain [0-9.]*$' '--version'
if [ -w /dev/full ]; then
    echo "$octets" | explain >/dev/full 2>"$work/err"
    [ $? = 1 ] || wrong 'a full disk'
    has err 'cannot be written' 'a full disk'
fi
# the steps for a line are no more in 100,000 lines than in 10,000
for lines in 10000 100000; do
    awk -v n=$lines -v line="Nov 16 22:03:11 pbx01 $element" 'BEGIN { while (i++ < n) print line }' | AOC_WORK=1 explain 2>"$work/$lines" >"$work/out"
done
few=$(sed -n 's/^work //p' "$work/10000") much=$(sed -n 's/^work //p' "$work/100000")
[ "$few" -gt 10000 ] && [ "$much" -lt $((11 * few)) ] || wrong "$few steps for 10,000 lines, $much for 100,000"
echo "explain: every spelling is taken alike, and what is not taken is named"
