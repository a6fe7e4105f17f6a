#!/bin/sh
# sh docs/costs.sh          prints, for each crate, the lines of definitions, code and proof, its must-fail edits, and the seconds of its
#                           check, as the table of docs/COSTS.md. Seconds are what the table of docs/COSTS.md says now, unless target/log has
#                           others, which older kits than rattle-kit-13f wrote: today's `rt` tells none.
# sh docs/costs.sh write    puts that table into docs/COSTS.md.
# sh docs/costs.sh files    prints the lines of each file of definitions.
cd "$(dirname "$0")/.." || exit 2
page=docs/COSTS.md

# lines DIRECTORY SUFFIX: the lines of all files below it
lines() { find "$1" -type f -name "*.$2" -exec cat {} + 2>/dev/null | wc -l | tr -d ' '; }

# crates in the order of crates.txt, then those that it does not list yet
crates() {
    sed -n 's/^\([a-z_0-9]*\)\( *staticlib\)\{0,1\}:.*/\1/p' crates.txt
    for d in crates/*/; do
        name=$(basename "$d")
        grep -q "^$name\( *staticlib\)\{0,1\}:" crates.txt || echo "$name"
    done
}

# kept CRATE COLUMN: what the page says now
kept() { awk -F'|' -v c="\`$1\`" -v n="$2" '{ x = $1; gsub(/ /, "", x) } x == c { y = $n; gsub(/ /, "", y); print y; exit }' "$page" 2>/dev/null; }

seconds() {
    s=$(sed -n "s/^rt: $1 proved (\([0-9]*\) s).*/\1/p" "target/log/$1.out" 2>/dev/null | tail -n 1)
    [ -n "$s" ] || s=$(kept "$1" 6)
    echo "${s:--}"
}

table() {
    echo 'Crate | Definitions | Code | Proof | Edits | Seconds'
    echo '---|---|---|---|---|---'
    crates | while read -r name; do
        d=crates/$name
        edits=$(find "$d/must-fail" -name '*.edit' 2>/dev/null | wc -l | tr -d ' ')
        echo "\`$name\` | $(lines "$d/specs" antt) | $(lines "$d/src" rt) | $(lines "$d/proofs" antt) | $edits | $(seconds "$name")"
    done | awk -F'|' '{ print; a += $2; b += $3; c += $4; d += $5; e += $6; if ($6 !~ /[0-9]/) open = 1 }
        END { printf "all | %d | %d | %d | %d | %s\n", a, b, c, d, open ? "-" : e }'
}

case $1 in
files) find crates -path '*/specs/*.antt' ! -name Lib.antt | sort | xargs wc -l | sed 's|crates/||' ;;
write)
    new=$(mktemp) || exit 2
    table >"$new.table"
    awk -v file="$new.table" '/^Crate \|/ { while ((getline l < file) > 0) print l; skip = 1 } skip && !/\|/ { skip = 0 } !skip' "$page" >"$new" &&
        cat "$new" >"$page"
    rm -f "$new" "$new.table"
    ;;
*) table ;;
esac
