#!/bin/sh
# A host in C++17 over the same headers and archive. And a whole host for one D channel, tests/desk.c, as C11, C++17 and C++20, under the
# sanitizers where they are there: it prints what tests/desk.out has.
cd "$(dirname "$0")/.." || exit 2
work=$(mktemp -d) || exit 2
trap 'rm -rf "$work"' EXIT
sh tools/archive || exit 1
for level in -O2 -O0; do
    sh tools/cc "$work/host" tests/host.cc "$level" && sh tools/exec "$work/host" || exit 1
done

sanitizers="-fsanitize=address,undefined -fno-sanitize-recover=all -g"
echo 'int main(void) { return 0; }' >"$work/none.c"
# shellcheck disable=SC2086
{ [ "${AOC_FOR:-$(uname -m)}" = "$(uname -m)" ] && [ -z "$CROSS" ] && "${CC:-cc}" $sanitizers "$work/none.c" -o "$work/none" 2>/dev/null && "$work/none" 2>/dev/null; } || sanitizers=
cp tests/desk.c "$work/desk.c"
cp tests/desk.c "$work/desk.cc"
# desk FILE FLAG..: compiles it, and compares what it prints
desk() {
    file=$1
    shift
    sh tools/cc "$work/desk" "$work/$file" "$@" && sh tools/exec "$work/desk" "$work/state" <tests/desk.txt >"$work/out" && cmp "$work/out" tests/desk.out || { echo "cxx: tests/desk.c $*"; exit 1; }
}
for standard in c11 c++17 c++20; do
    file=desk.cc
    [ "$standard" != c11 ] || file=desk.c
    desk "$file" "-std=$standard"
    # shellcheck disable=SC2086
    [ -z "$sanitizers" ] || desk "$file" "-std=$standard" $sanitizers
done
echo "a host for one D channel, as C11, C++17 and C++20${sanitizers:+, with sanitizers}: prints what it must"
