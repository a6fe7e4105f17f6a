#!/bin/sh
# ./run replay prints what examples/replay.out has; logs that lack messages, mix calls or have a trunk's elements are told as tests/programs has
# them; --night makes of each log the events that night takes, by the hotel's table of rooms, and night posts what replay posts; the evidence
# for the operator is found among events that were refused too; a message costs no more work in a long log than in a short one.
cd "$(dirname "$0")/.." || exit 2
work=$(mktemp -d) || exit 2
trap 'rm -rf "$work"' EXIT
replay() { sh tools/exec target/examples/replay "$@"; }
night() { sh tools/exec target/examples/night "$@"; }
wrong() { echo "replay: $*"; exit 1; }
# has FILE PATTERN OF: a line of the file is as the pattern says
has() { grep -q "$2" "$work/$1" || wrong "$3: $(cat "$work/$1")"; }
# status NUMBER OF: that of the last command
status() { [ "$1" = "$2" ] || wrong "status $1 of $3"; }

./run replay <examples/replay.txt | cmp - examples/replay.out || exit 1
./run night <examples/capture/events.txt | cmp - examples/capture/night.out || exit 1

# each log: the tale, the night's events and the night's report; 1 where something is missing or refused
for log in flags:0 qsig:0 units20:0 reuse:1 within:1 parked:1 lines:0; do
    name=${log%:*}
    replay "tests/programs/$name.log" >"$work/out"
    status $? "${log#*:}" "$name"
    cmp "$work/out" "tests/programs/$name.out" || exit 1
    replay --night --rooms=tests/programs/lines.rooms "tests/programs/$name.log" >"$work/events" 2>"$work/err"
    night "$work/events" >"$work/night"
    cat "$work/events" "$work/err" "$work/night" | cmp - "tests/programs/$name.night" || exit 1
    # what the tale says is to be posted is what the night posts
    sed -n 's/^  to post: \(.*\), by event [0-9]*$/\1/p' "$work/out" | sort >"$work/tale"
    sed -n '/^To post$/,/^For the clerk$/s/^  room .* to [^ ]*  \([^,]*\(, total\)*\).*/\1/p' "$work/night" | sort >"$work/posted"
    [ "$name" = units20 ] || cmp "$work/tale" "$work/posted" || wrong "$name: the night posts something else"
done
! grep -q '\.\.' tests/programs/units20.out || wrong 'a text that is cut'
[ "$(grep -o '16777215 units of type 16' tests/programs/units20.out | wc -l)" = 40 ] || wrong 'a long list'

# log AMOUNT: a call with a CONNECT too many, and running figures of EUR 0.500 and so many hundredths
log() {
    figure='1C 1D 91 A1 1A 02 01 01 02 01 21 30 12 A1 0D 81 03 45 55 52 A2 06 81 01'
    printf '%s\n' 'u 08 01 05 05' 'n 08 01 85 07' 'n 08 01 85 07' "n 08 01 85 62 $figure 32 82 01 01 82 01 00" "n 08 01 85 62 $figure $1 82 01 01 82 01 00"
}
log 28 | replay | grep -A 1 '^  for the operator: event 5, line 5: an amount below the last one in the same currency$' |
    grep -q '^    A1 1A .* 28 82 01 01 82 01 00$' || wrong 'no evidence of a falling charge'
log 32 | replay | grep -q '^  all rules kept, by the events that were not refused$' || wrong 'rules that were kept'

# the room by the table: the whole number, then its longest end; one that is not there; a table that is wrong; none
printf '%s\n' '# numbers' '' '214 a' '*14 b' '*4 c' >"$work/rooms"
# room NUMBER ROOM: a call of this number (in hex) has this room
room() {
    printf 'u 08 01 05 05 6C %02X 01 80 %s\n' $((2 + $(echo "$1" | wc -w))) "$1" >"$work/log"
    [ "$(replay --night "--rooms=$work/rooms" "$work/log" 2>"$work/err" | tail -n 1)" = "- $2 1 setup" ] || wrong "the room of $1: $(cat "$work/err")"
}
room '32 31 34' a
room '39 32 31 34' b
room '34' c
room '35' '?5'
has err 'line 1: the room of the call that begins here is not known: the table has no 5$' 'a number without a room'
echo 'u 08 01 05 05' | replay --night "--rooms=$work/rooms" >"$work/out" 2>"$work/err"
status $? 1 'a call without a number'
has out '^- ? 1 setup$' 'a call without a number'
echo 'u 08 01 05 05 6C 03 81 32 31' | replay --night >"$work/out" 2>"$work/err"
status $? 0 'a number as the room'
has out '^- 21 1 setup$' 'a number as the room'
# digits that are dialled one by one, a number that is no text, an identifier below 0, times of some words
printf '%s\n' 'Nov 16 20:00 pbx u 08 01 05 05 6C 03 81 32 31 70 02 81 30 1C 0C 91 A1 09 02 01 FB 02 01 1E 0A 01 00' 'u 08 01 05 7B 70 02 81 38' 'u 08 01 05 7B 70 03 81 20 39' |
    replay --night "--rooms=$work/rooms" >"$work/out" 2>"$work/err"
has out '^Nov_16_20:00_pbx ?21 1 setup S=-5 to 08?9$' 'digits one by one'
printf '%s\n' '21' '21 a b' '21 a' '21 b' >"$work/rooms"
replay --night "--rooms=$work/rooms" tests/programs/flags.log >"$work/out" 2>"$work/err"
status $? 1 'a wrong table'
has err "^replay: $work/rooms line 1 is not taken: an extension and a room are wanted$" 'a wrong table'
has err "^replay: $work/rooms line 2 is not taken: an extension and a room are wanted$" 'a wrong table'
has err "^replay: $work/rooms line 4 is not taken: the extension is there already$" 'a wrong table'
replay --night "--rooms=$work/none" tests/programs/flags.log >"$work/out" 2>"$work/err"
status $? 1 'no table'
has err "^replay: $work/none: cannot be read: " 'no table'

# manners
replay --rooms=x </dev/null >"$work/out" 2>"$work/err"
status $? 2 '--rooms alone'
replay --nights </dev/null >"$work/out" 2>"$work/err"
status $? 2 'an unknown option'
has err '^replay: usage: replay ' 'an unknown option'
replay --help >"$work/out"
status $? 0 '--help'
has out '^usage: replay ' '--help'
replay --version >"$work/out"
has out '^replay [0-9.]*$' '--version'
replay </dev/null >"$work/out" 2>"$work/err"
status $? 1 'no messages'
has err 'no messages came' 'no messages'
replay </ >"$work/out" 2>"$work/err"
status $? 1 'a folder as input'
has err 'cannot be read' 'a folder as input'
printf 'u 08 01 05 05\n\000\nn 08\n' >"$work/a"
replay tests/programs/flags.log "$work/a" "$work/none" >"$work/out" 2>"$work/err"
status $? 1 'a file that is not there'
has err "^replay: $work/none: cannot be read: " 'a file that is not there'
has out "^$work/a line 2 is no message: a NUL in it$" 'a NUL'
has out "^$work/a line 3: refused 49, a message that is not framed: n 08$" 'a second file'
if [ -w /dev/full ]; then
    replay tests/programs/flags.log >/dev/full 2>"$work/err"
    status $? 1 'a full disk'
    has err 'cannot be written' 'a full disk'
fi

# logs MESSAGES KIND: one long call, or many calls with few references or many; over 10 MB with 100,000 messages
logs() {
    awk -v lines="$1" -v kind="$2" 'BEGIN {
        figure = "1C 1E 91 A1 1B 02 01 03 02 01 21 30 13 A1 0E 81 03 45 55 52 A2 07 81 02 02 58 82 01 01 82 01 00"
        if (kind == "long") {
            print "u 08 01 01 05\nn 08 01 81 07"
            while (n++ < lines - 2) print "2026-11-16T20:40:00.000 n 08 01 81 62 " figure
        }
        for (; n < lines; n += 5) {
            i = kind == "few" ? n / 5 % 100 : n / 5 % 32768
            printf "u 08 02 %02X %02X 05\nn 08 02 %02X %02X 07\nn 08 02 %02X %02X 62 %s\n", i / 256, i % 256, 128 + i / 256, i % 256, 128 + i / 256, i % 256, figure
            printf "n 08 02 %02X %02X 45\nn 08 02 %02X %02X 5A\n", 128 + i / 256, i % 256, 128 + i / 256, i % 256
        }
    }'
}
for kind in few many long; do
    for lines in 10000 100000; do
        logs $lines $kind >"$work/log"
        AOC_WORK=1 replay "$work/log" 2>"$work/$lines" >"$work/out"
    done
    few=$(sed -n 's/^work //p' "$work/10000") much=$(sed -n 's/^work //p' "$work/100000")
    [ "$few" -gt 100000 ] && [ "$much" -lt $((12 * few)) ] || wrong "$kind: $few steps for 10,000 messages, $much for 100,000"
done
[ "$(wc -c <"$work/log")" -gt 10000000 ] || wrong 'a log of 10 MB'
has out '^  nothing to post: still open$' 'a long call'
echo "replay: calls are told apart, what is missing is told, and the night posts what the tale says"
