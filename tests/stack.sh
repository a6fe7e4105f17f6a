#!/bin/sh
# The stack of every function that takes octets (tests/stack.c): none needs more than 16 KB, whatever the octets. On x86-64, or under
# the emulator, what each call really took is compared with the table of docs/HOST.md, and the table with the machine code
# (docs/stack.sh, where an objdump reads x86-64).
cd "$(dirname "$0")/.." || exit 2
work=$(mktemp -d) || exit 2
trap 'rm -rf "$work"' EXIT
sh tools/archive || exit 1
sh tools/cc "$work/stack" tests/stack.c && sh tools/exec "$work/stack" >"$work/own" || { cat "$work/own"; exit 1; }
tail -n 1 "$work/own"
if [ "$(uname -m)" = x86_64 ] && [ -z "$AOC_FOR" ]; then
    cp "$work/own" "$work/x86"
else
    export CROSS=1
    sh tools/cc "$work/stack" tests/stack.c && sh tools/exec "$work/stack" >"$work/x86" || { cat "$work/x86"; exit 1; }
    unset CROSS
fi
sh docs/stack.sh >"$work/table" || exit 1
sed -n '/^| Functions | Octets |/,/^$/p' docs/HOST.md | sed '/^$/d' >"$work/page"
cmp -s "$work/table" "$work/page" || { diff "$work/page" "$work/table"; echo "stack: docs/HOST.md's table is not what 'sh docs/stack.sh' prints; 'sh docs/stack.sh write' puts it there"; exit 1; }
python3 - "$work/x86" "$work/table" <<'END'
import re, sys

# what the test's own frame and the C library's memcpy, memmove and memset may take beside the function
BESIDE = 1024
LIMIT = 16 * 1024
table = {}
for line in open(sys.argv[2]):
    row = re.match(r"\| (`.*`) \| ([\d,]+) \|$", line)
    if row:
        for name in re.findall(r"`(\w+)`", row[1]):
            table[name] = int(row[2].replace(",", ""))
bad = [f"{name} takes {n} octets, over 16 KB" for name, n in table.items() if n > LIMIT]
seen = 0
for line in open(sys.argv[1]):
    row = re.match(r"used (\w+) (\d+)$", line)
    if row:
        seen += 1
        if int(row[2]) > table[row[1]] + BESIDE:
            bad.append(f"{row[1]} took {row[2]} octets, and the table has {table[row[1]]}")
for b in bad:
    print(f"stack: {b}")
print(f"stack: {seen} functions compared with the table, {len(table)} in it, the most {max(table.values())} octets")
sys.exit(bool(bad) or seen < 20)
END
