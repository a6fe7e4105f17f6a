#!/bin/sh
# sh docs/words.sh    counts the words of the pages, of each and of all: those written by hand and those printed by a script apart. The notes
#                     in docs/landings are history and counted by themselves, and so are docs/PORT.md, DESIGN-PASS.md and LOOK-BACK.md.
# It fails where the pages that are written by hand and kept up to date (README, CONTRIBUTING and docs/*.md) have more than 30,000 words: a person
# has to be able to read them. A word has a letter or a digit; the bars of a table are none. Printed are COSTS and EDITS, what is between
# two lines that mark it (docs/crates.sh, docs/contracts.sh, bench/run.sh), and the table of docs/stack.sh.
cd "$(dirname "$0")/.." || exit 2
awk -v most=30000 '
    function words(    i, n) { for (i = 1; i <= NF; i++) n += $i ~ /[[:alnum:]]/; return n }
    function closed() { if (marked) { print "words: " page " has a mark without its end"; wrong = 1 } }
    FNR == 1 { closed(); page = FILENAME; pages[++count] = page; marked = table = 0 }
    /^<!-- (printed by |measured)/ { marked = 1 }
    page == "docs/HOST.md" && /^\| Functions \| Octets \|$/ { table = 1 }
    !/^\|/ { table = 0 }
    page ~ /^docs\/(landings\/|PORT|DESIGN-PASS|LOOK-BACK)/ { history += words(); next }
    { if (marked || table || page ~ /^docs\/(COSTS|EDITS)\.md$/) printed[page] += words(); else written[page] += words() }
    /^<!-- end of what is (printed|measured) -->$/ { marked = 0 }
    END {
        closed()
        print "written  printed"
        for (i = 1; i <= count; i++) {
            page = pages[i]
            if (page ~ /^docs\/(landings\/|PORT|DESIGN-PASS|LOOK-BACK)/) continue
            printf "%7d  %7d  %s\n", written[page], printed[page], page
            all += written[page]
            other += printed[page]
        }
        printf "%7d  %7d  in all; docs/landings, docs/PORT.md, DESIGN-PASS.md and LOOK-BACK.md have %d\n", all, other, history
        if (all > most) { printf "words: %d are written by hand, %d at most\n", all, most; wrong = 1 }
        exit wrong
    }' README.md CONTRIBUTING.md docs/*.md docs/landings/*.md
