#!/bin/sh
# The headers hold to the last release's list, or the version has moved; and what is compiled with another layout is not linked.
cd "$(dirname "$0")/.." || exit 2
work=$(mktemp -d) || exit 2
trap 'rm -rf "$work"' EXIT
python3 tests/released.py || exit 1
sh tools/archive || exit 1
layout=$(sed -n 's/^uint32_t \(aoc_layout_[0-9]*\)(void);/\1/p' include/aoc_parts.h)
for use in 'aoc_read(0, 0, &answer)' 'aoc_next(0, 0, &place, &answer)' 'aoc_write(&answer.record, 0, 0).refusal' 'aoc_is_refusal(9)'; do
    cat >"$work/host.c" <<END
#include "aoc.h"
int main(void)
{
    static aoc_answer answer;
    size_t place = 0;
    (void)answer, (void)place;
    return (int)aoc_version() + (int)$use;
}
END
    sh tools/cc "$work/host" "$work/host.c" 2>"$work/err" || { cat "$work/err"; exit 1; }
    sh tools/cc "$work/host" "$work/host.c" "-D$layout=aoc_layout_0" 2>"$work/err" && { echo "released: another layout is linked: $use"; exit 1; }
    grep -q aoc_layout_0 "$work/err" || { cat "$work/err"; exit 1; }
done
echo "released: an archive with another layout is not linked"
