#!/bin/sh
# sh docs/stack.sh          prints, for each function of the archive, the most octets of stack that a call of it takes, as the table of
#                           docs/HOST.md: its return address, its own frame and the deepest of what it calls; those of the C library apart (memcpy, memmove, memset).
# sh docs/stack.sh write    puts that table into docs/HOST.md.
# The frames are read off the machine code (objdump or llvm-objdump): pushes and what is taken off the stack pointer. After a jump or a
# return the depth counts as the function's deepest so far, so a figure may be too high and not too low. Functions that call themselves
# by the octets are counted together as often as the octets allow, another one as often as DEEP says.
cd "$(dirname "$0")/.." || exit 2
page=docs/HOST.md
sh tools/archive || exit 1
work=$(mktemp -d) || exit 2
trap 'rm -rf "$work"' EXIT
# (the kit's clang is all of LLVM's tools, by the name that it is called by)
ln -s "$(dirname "$(rt doc)")/toolchain/bin/clang" "$work/llvm-objdump"
for tool in objdump llvm-objdump "$work/llvm-objdump"; do
    command -v "$tool" >/dev/null && "$tool" -d -r target/staticlib/libaoc.a >"$work/code" 2>/dev/null && grep -q '%rsp' "$work/code" && break
done
grep -q '%rsp' "$work/code" 2>/dev/null || { echo "stack: no objdump that reads x86-64"; exit 1; }
python3 - "$work/code" >"$work/table" <<'END' || exit 1
import functools, re, sys

APART = {"memcpy", "memmove", "memset"}
# These go on past two octets or more at each call, of themselves or of one another, up to an end that the proofs bound: so all of them
# together are called so often, one more finding nothing left.
BY_OCTETS = {"read_lengths::find_end", "any_elements::forms_size", "any_elements::put_forms"}
bound = int(re.search(r"\(end ≤ (\d+)\)", open("crates/read_lengths/specs/inner/Bounds.antt", encoding="utf-8").read())[1])
CALLS = (bound + 1) // 2 + 1
DEEP = {"write_elements::put_digits": 5}
sys.setrecursionlimit(10000)
frames, calls, name, at_call = {}, {}, None, None
depth = deepest = 0
for line in open(sys.argv[1]):
    begin = re.match(r"[0-9a-f]+ <(.+)>:$", line)
    if begin:
        name, depth, deepest, at_call = begin[1], 0, 0, None
        frames[name], calls[name] = 0, []
        continue
    place = re.search(r"R_X86_64_(?:PLT32|PC32)\s+(?:\.text\.)?(\S+?)(?:[-+]0x[0-9a-f]+)?$", line)
    if place:
        if at_call is not None:
            calls[name].append((place[1], at_call))
            at_call = None
        continue
    word = re.match(r"\s*[0-9a-f]+:\s+(?:[0-9a-f]{2} )*\s*(\S+)\s*(.*)$", line)
    if not word or name is None:
        continue
    op, rest = word.groups()
    at_call = None
    number = re.match(r"\$(-?(?:0x)?[0-9a-f]+),\s*%rsp", rest)
    if op in ("push", "pushq"):
        depth += 8
    elif op in ("pop", "popq"):
        depth -= 8
    elif op in ("sub", "subq") and number:
        depth += int(number[1], 0)
    elif op in ("add", "addq") and number:
        depth -= int(number[1], 0)
    elif op in ("call", "callq"):
        at_call = depth + 8
        if f"<{name}>" in rest:  # a call of itself needs no relocation
            calls[name].append((name, at_call))
            at_call = None
    elif op in ("jmp", "jmpq"):
        at_call = depth
    elif re.search(r"%rsp$", rest) and not op.startswith(("cmp", "test", "mov")):
        sys.exit(f"stack: {name}: {op} {rest}")
    deepest = max(deepest, depth)
    frames[name] = deepest
    if op.startswith(("jmp", "ret")):
        depth = deepest


@functools.cache
def most(name, left=CALLS, above=()):
    """What a call takes where that many calls by the octets may come yet; above: the functions on the way that may not come again."""
    if name in above:
        sys.exit(f"stack: {name} is called from what it calls")
    if name in BY_OCTETS:
        if left == 0:
            return 0
        left, above, itself = left - 1, (), []
    else:
        above += (name,)
        itself = [at for callee, at in calls[name] if callee == name]
        if itself and name not in DEEP:
            sys.exit(f"stack: {name} calls itself, and neither BY_OCTETS nor DEEP says how often")
    below = [at + most(callee, left, above) for callee, at in calls[name] if callee not in APART and not (itself and callee == name)]
    return max([frames[name]] + below) + (max(itself) * (DEEP[name] - 1) if itself else 0)


taking = {}
for name in sorted(frames):
    if name.startswith("aoc_"):
        taking.setdefault(most(name) + 8, []).append(f"`{name}`")
print("| Functions | Octets |\n|---|---|")
for octets, names in sorted(taking.items(), reverse=True):
    print(f"| {', '.join(names)} | {octets:,} |")
END
case $1 in
write)
    awk -v file="$work/table" '/^\| Functions \| Octets \|/ { while ((getline l < file) > 0) print l; skip = 1 } skip && !/^\|/ { skip = 0 } !skip' "$page" >"$work/page" &&
        cat "$work/page" >"$page"
    ;;
*) cat "$work/table" ;;
esac
