#!/bin/sh
# The example host prints what examples/night.out and night.csv have, of a month what month.out and month.csv have; calls that lost an event
# are in the clerk's list (tests/programs); it names every line that it does not take, tells failed input and output with a status, and
# holds a night of any length, with no more work for a line than in a short one.
cd "$(dirname "$0")/.." || exit 2
work=$(mktemp -d) || exit 2
trap 'rm -rf "$work"' EXIT
night() { sh tools/exec target/examples/night "$@"; }
wrong() { echo "example: $*"; exit 1; }
# has FILE PATTERN OF: a line of the file is as the pattern says
has() { grep -q "$2" "$work/$1" || wrong "$3"; }

./run night <examples/night.txt | cmp - examples/night.out || exit 1
night --csv <examples/night.txt 2>"$work/err" | cmp - examples/night.csv || exit 1
has err 'a component refused' 'a note among the values'
night --month <examples/month.txt | cmp - examples/month.out || exit 1
night --csv --month <examples/month.txt | cmp - examples/month.csv || exit 1
night --week <examples/month.txt >"$work/out" 2>"$work/err"
[ $? = 2 ] || wrong 'an unknown option'
has err '^night: usage: night ' 'an unknown option'
night --csv --csv <examples/month.txt >"$work/out" 2>"$work/err"
[ $? = 2 ] || wrong 'an option twice'
night --help >"$work/out" || wrong 'a status for --help'
has out '^usage: night ' '--help'
[ "$(night --version)" = "night $(sed -n 's/^#define AOC_VERSION_TEXT "\(.*\)"$/\1/p' include/aoc.h)" ] || wrong '--version'

# what was lost or refused, a trunk, and the clerk's list in order: as the files have it, and the status is 1 where something was lost
for name in night_lost night_desk night_trunk; do
    night "tests/programs/$name.txt" >"$work/out"
    [ $? = "$([ $name = night_trunk ] && echo 0 || echo 1)" ] || wrong "the status of $name"
    cmp "$work/out" "tests/programs/$name.out" || exit 1
    night --csv "tests/programs/$name.txt" 2>/dev/null | cmp - "tests/programs/$name.csv" || exit 1
done
# each of a clear, a release and a set-up lost alone is status 1, and so is a line of another file that is not taken
call='1 9 1 setup|1 9 1 connect|1 9 1 clear|1 9 1 released|'
echo "$call" | tr '|' '\n' | night >"$work/out" || wrong 'a status for a whole call'
for event in setup clear released; do
    echo "$call" | tr '|' '\n' | grep -v " $event" | night >"$work/out"
    [ $? = 1 ] || wrong "no status where $event is lost"
    has out '^  room 9     call 1    .*\(is lost\|no set-up of it was taken\) *ask the network for the charge, post it by hand$' "$event is lost"
done
echo '1 9 1 setup' >"$work/a"
printf '1 9 1 connect\n1 9 1 gone\n' >"$work/b"
night "$work/a" "$work/b" >"$work/out"
[ $? = 1 ] || wrong 'no status for a line that is not taken'
has out "^$work/b line 2 is not taken: no such event$" 'the line of a second file'
has out '^                       connected$' 'two files'
night "$work/a" "$work/none" >"$work/out" 2>"$work/err"
[ $? = 1 ] || wrong 'a file that is not there'
has err "^night: $work/none: cannot be read: " 'a file that is not there'

# refused LINE: the line is told with its number and not taken, and its call is in no report
refused() {
    { echo '# one line is wrong'; printf '%b\n' "$1"; } | night >"$work/out" && wrong "status 0 for: $1"
    has out '^line 2 is not taken: ' "taken: $1"
    has out '^Calls: 0$' "taken: $1"
}
refused '21:40 214 one setup'
refused '21:40 214 setup E'
refused '21:40 214 1'
refused '21:40 214 -1 setup'
refused '21:40 214 4294967297 setup'
refused '21:40 214 1 setup D=x'
refused '21:40 214 1 setup D=32768'
refused '21:40 214 1 setup D=-32769'
refused '21:40 214 1 setup to'
refused '21:40 214 1 setup to 089 D'
refused '21:40 214 1 setup e'
refused '21:40 214 1 setup X'
refused '21:40 214 1 connected'
refused '21:40 214 1 connect now'
refused '21:40 214 1 facility'
refused '21:40 214 1 facility 1C 0D 91 A1 0A 02 01 32 02 01 23 30 02 8l 00'
refused '21:40 214 1 facility 1C 0D 9'
refused '21:40 214 1 setup\0000 E'
refused "21:40 214 1 facility $(awk 'BEGIN { for (i = 0; i < 258; i++) printf "00 " }')"
refused "21:40 214 1 setup $(awk 'BEGIN { for (i = 0; i < 4000; i++) printf " " }')X"
printf '21:40 214 1 setup\r\n' | night >"$work/out"
has out '^Calls: 1$' 'a line that ends in CR LF'

# out of order, malformed: the event is told, and the report goes on
printf '%s\n' '1 9 1 connect' '2 9 1 setup D' '3 9 1 facility 1C 05 91' | night >"$work/out"
[ $? = 1 ] || wrong 'no status for a refused event'
has out '^1  room 9  call 1  connect refused: an event that is not allowed in this phase$' 'an event out of order'
has out '^3  room 9  call 1  a malformed Facility element$' 'a malformed element'

# an element of a trunk is none of the call's, and draws no reject
printf '%s\n' '1 9 1 setup D' '2 9 1 facility 1C 15 9F AA 06 80 01 00 82 01 00 A1 0A 02 01 01 02 01 3D 30 02 81 00' | night >"$work/out" || wrong 'a status for a trunk'
has out '^2  room 9  call 1  an element of a trunk, which no account takes$' 'an element of a trunk'
! grep -q 'sent back' "$work/out" || wrong 'a reject for a trunk'
printf '%s\n' '1 9 1 setup D' '2 9 1 facility 1C 0E 9F 8B 01 00 A1 08 02 01 03 02 01 7E 05 00' | night >"$work/out"
[ $? = 1 ] || wrong 'no status for a component of a trunk that is refused'
has out '^2  room 9  call 1  a component of a trunk refused: an unknown operation$' 'a component of a trunk that is refused'
has out '^                       being set up, request not answered: D, 1 component of a trunk refused$' 'a component of a trunk that is refused'

# evidence: events that were refused are not judged, and are counted in the number of the one that is told
printf '%s\n' '1 9 1 setup' '2 9 1 setup' '3 9 1 facility 1C 08 91 A1 05 02 01 01 02 00' '4 9 1 connect' \
    '5 9 1 facility 1C 1D 91 A1 1A 02 01 64 02 01 21 30 12 A1 0D 81 03 45 55 52 A2 06 81 01 0C 82 01 02 82 01 00' \
    '6 9 1 facility 1C 1D 91 A1 1A 02 01 65 02 01 21 30 12 A1 0D 81 03 45 55 52 A2 06 81 01 5A 82 01 01 82 01 00' | night >"$work/out"
[ $? = 1 ] || wrong 'a falling charge'
has out '^  room 9     call 1    event 6 at 6: an amount below the last one in the same currency$' 'a falling charge'
has out '^                       A1 1A 02 01 65 02 01 21 30 12 A1 0D 81 03 45 55 52 A2 06 81 01 5A 82 01 01 82 01 00$' 'the octets of a falling charge'

# identifiers of requests that the input names
printf '%s\n' '1 9 1 setup S=-1 D=5 to 089' '2 9 1 facility 1C 0D 91 A2 0A 02 01 05 30 05 02 01 1E 05 00' | night >"$work/out" || wrong 'an identifier'
has out '^                       being set up, request not answered: S, dialled 089$' 'an identifier'

# a call that the network began is for the clerk, and its charge is nothing that was refused
printf '%s\n' '1 9 1 incoming' '2 9 1 facility 1C 1D 91 A1 1A 02 01 0B 02 01 23 30 12 30 10 A1 0E 81 03 45 55 52 A2 07 81 02 00 96 82 01 01' | night >"$work/out" || wrong 'a call from outside'
has out '^  room 9     call 1    a call from outside told a charge           ask the network if the figure holds, post it by hand$' 'a call from outside'
has out '^                       not set up, the last figure told EUR 1.500$' 'a call from outside'

# what cannot be read or written
night </ >"$work/out" 2>"$work/err"
[ $? = 1 ] || wrong 'a folder as input'
has err 'cannot be read' 'a folder as input'
night <&- >"$work/out" 2>"$work/err"
[ $? = 1 ] || wrong 'no input'
if [ -w /dev/full ]; then
    night <examples/month.txt >/dev/full 2>"$work/err"
    [ $? = 1 ] || wrong 'a full disk'
    has err 'cannot be written' 'a full disk'
fi

# 3,000 calls, and one of 3,000 events; the final of the last has a list of 32
awk 'BEGIN {
    for (i = 1; i <= 3000; i++) {
        printf "1 %d %d setup\n2 %d %d connect\n3 %d %d clear\n", i % 100, i, i % 100, i, i % 100, i
        printf "4 %d %d facility 1C 1D 91 A1 1A 02 01 0B 02 01 23 30 12 30 10 A1 0E 81 03 45 55 52 A2 07 81 02 00 96 82 01 01\n5 %d %d released\n", i % 100, i, i % 100, i
    }
    print "1 long 1 setup\n1 long 1 connect"
    for (i = 1; i <= 3000; i++) print "2 long 1 facility 1C 1D 91 A1 1A 02 01 0A 02 01 21 30 12 A1 0D 81 03 45 55 52 A2 06 81 01 2D 82 01 01 82 01 00"
    print "3 long 1 clear\n3 long 1 released"
    printf "1 many 1 setup\n1 many 1 connect\n1 many 1 clear\n1 many 1 facility 1C B3 91 A1 81 AF"
    printf " 02 01 04 02 01 24 30 81 A6 30 81 A3 A1 81 A0"
    for (i = 0; i < 32; i++) printf " 30 03 02 01 64"
    print "\n1 many 1 released"
}' >"$work/long"
night <"$work/long" >"$work/out" || wrong 'a long night'
has out '^  EUR 4500.000 in 3000 calls$' 'the sum of a long night'
has out '^  3001 priced$' 'the calls of a long night'
has out 'only running figures' 'a long call'
has out 'event 3 at 2, last running figure EUR 0.450$' 'a long call'
has out '^  3200 units in 1 call$' 'a long list'
[ "$(grep -o '100 units' "$work/out" | wc -l)" = 32 ] || wrong 'a long list'
# the steps for a line are no more in a long night than in a short one: calls of one room and of many, each with a currency of its own, lost
# ends, one long call; 100,000 lines and over 10 MB at last
# nights LINES KIND
nights() {
    awk -v lines="$1" -v kind="$2" 'BEGIN {
        if (kind == "long") {
            print "1 9 1 setup\n1 9 1 connect"
            while (n++ < lines - 2) print "2 9 1 facility 1C 1D 91 A1 1A 02 01 0A 02 01 21 30 12 A1 0D 81 03 45 55 52 A2 06 81 01 2D 82 01 01 82 01 00"
        }
        for (; n < lines; i++) {
            room = kind == "one" ? 9 : i
            currency = sprintf("%02X %02X %02X", 65 + i % 26, 65 + int(i / 26) % 26, 65 + int(i / 676) % 26)
            facility = sprintf("%d %d facility 1C 1D 91 A1 1A 02 01 0B 02 01 23 30 12 30 10 A1 0E 81 03 %s A2 07 81 02 00 96 82 01 01", room, i, currency)
            printf "1 %d %d setup\n2 %d %d connect\n3 %d %d clear\n", room, i, room, i, room, i
            printf "4 %s\n5 %d %d %s\n", facility, room, i, kind == "lost" ? "facility 1C 05 91" : "released"
            n += 5
        }
    }'
}
for kind in one many lost long; do
    nights 10000 $kind >"$work/short"
    nights 100000 $kind >"$work/long"
    AOC_WORK=1 night "$work/short" 2>"$work/few" >"$work/out"
    AOC_WORK=1 night "$work/long" 2>"$work/much" >"$work/out"
    few=$(sed -n 's/^work //p' "$work/few") much=$(sed -n 's/^work //p' "$work/much")
    [ "$few" -gt 100000 ] && [ "$much" -lt $((13 * few)) ] || wrong "$kind: $few steps for 10,000 lines, $much for 100,000"
done
[ "$(wc -c <"$work/long")" -gt 10000000 ] || wrong 'a night of 10 MB'
# 70 calls at once: six find no place on the switchboard, which is told, and no figure is lost; then there is a place again
awk 'BEGIN {
    for (i = 1; i <= 70; i++) printf "1 %d 1 setup\n2 %d 1 connect\n", i, i
    for (i = 1; i <= 70; i++) printf "3 %d 1 clear\n3 %d 1 facility 1C 1D 91 A1 1A 02 01 0B 02 01 23 30 12 30 10 A1 0E 81 03 45 55 52 A2 07 81 02 00 96 82 01 01\n3 %d 1 released\n", i, i, i
    print "4 1 1 setup\n4 1 1 setup\n4 1 1 connect\n4 2 1 connect"
}' | night >"$work/out"
[ $? = 1 ] || wrong 'a full switchboard'
[ "$(grep -c ' 1  not on the switchboard: 64 calls are held; the call is kept beside it$' "$work/out")" = 6 ] || wrong 'a full switchboard'
has out '^1  room 65  call 1  not on the switchboard' 'the 65th call'
has out '^  EUR 105.000 in 70 calls$' 'the sum of a full switchboard'
has out '^4  room 1  call 1  setup refused: a Setup for a call reference that is held$' 'a second set-up'
has out '^4  room 2  call 1  connect refused: an event that is not allowed in this phase$' 'an event of a call that has ended'
has out '^Calls: 71$' 'a call with the number of one that has ended'
has out '^    1 still open$' 'a call with the number of one that has ended'
# what a month refuses is told, and the rest of it stands: a seventeenth currency, and the figures after 4,096
# ended CURRENCY: a call whose final is 1.300 in a currency of one letter, as its hex octet
ended='function ended(currency) {
    print "1 9 1 setup\n1 9 1 connect\n1 9 1 clear"
    print "1 9 1 facility 1C 1A 91 A1 17 02 01 66 02 01 23 30 0F 30 0D A1 0B 81 01 " currency " A2 06 81 01 0D 82 01 02\n1 9 1 released"
}'
awk "$ended"' BEGIN { for (i = 65; i < 82; i++) ended(sprintf("%02X", i)); ended("41") }' | night --month >"$work/out" && wrong 'status 0 for 17 currencies'
has out '^1  room 9  call 1  not added to the month: Q 1.300: a seventeenth currency in a month$' 'a seventeenth currency'
has out '^The month: 17 figures$' 'a month of 16 currencies'
has out '^  A 2.600 in 2 calls$' 'a month of 16 currencies'
has out '^  1 not added to the month: a seventeenth currency in a month$' 'a seventeenth currency'
awk "$ended"' BEGIN { for (i = 0; i < 4098; i++) ended("41") }' | night --month --csv >"$work/out" 2>"$work/err" && wrong 'status 0 for 4,098 figures'
[ "$(grep -c 'not added to the month: A 1.300: a month that has all its 4096 figures$' "$work/err")" = 2 ] || wrong 'a full month'
has out '^month,,,,,,,,4096$' 'a full month'
has out '^currency,A,5324.800,,,,,,4096$' 'a full month'
has out '^not added,,,,,,,a month that has all its 4096 figures,2$' 'a full month'
# calls whose ends are lost leave the switchboard where their numbers begin again
awk 'BEGIN { for (i = 1; i <= 200; i++) printf "1 9 1 setup\n2 9 1 connect\n1 8 %d setup\n1 8 %d released\n", i, i }' | night >"$work/out"
! grep -q 'not on the switchboard' "$work/out" || wrong 'a switchboard of calls that are over'
has out '^    199 its end is lost: no more comes of it$' 'lost ends'
has out '^    200 released, but its clear is lost$' 'lost clears'
# a call that is told to be lost is in the list and off the switchboard, and its parked self is taken up no more
awk 'BEGIN { for (i = 1; i <= 65; i++) printf "1 9 %d setup\n2 9 %d connect\n3 9 %d suspend\n4 9 %d lost\n", i, i, i, i; print "5 8 1 resume" }' | night >"$work/out"
! grep -q 'not on the switchboard' "$work/out" || wrong 'lost calls on the switchboard'
has out '^    65 its end is lost: no more comes of it$' 'lost calls'
has out '^5  room 8  call 1  resume refused' 'a lost call that was parked'
echo "example: the night's and the month's report and values are as they were; what is not taken is told; 3,002 calls are held"
