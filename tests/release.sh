#!/bin/sh
# A release as tools/release makes it, here a draft of the tree as it is. Twice it is the same octets. Unpacked anywhere, a host is built
# from it, with the archive and with the shared library, where neither the kit nor this folder is on the PATH; its programs run, and its
# package for Python is used. A commit whose gate failed is not released.
cd "$(dirname "$0")/.." || exit 2
work=$(mktemp -d) || exit 2
trap 'rm -rf "$work"' EXIT
wrong() { echo "release: $*"; exit 1; }
if [ "$(uname -m)" != x86_64 ] || [ -n "$CROSS" ]; then
    echo "release: tested on x86-64"
    exit 0
fi

# ---- what is not released: changes that are not committed, or else a gate that failed
echo '100 passed, 1 failed' >"$work/gate"
AOC_GATE=$work/gate sh tools/release "$work/none" >"$work/log" 2>&1 && { cat "$work/log"; wrong "of a gate that failed"; }
grep -q -e 'not committed' -e 'no clone' -e "last line is '100 passed, 1 failed'" "$work/log" || { cat "$work/log"; wrong "another reason"; }
! ls "$work/none" >/dev/null 2>&1 || wrong "something was made of a gate that failed"

# ---- twice, in other folders and with other masks
(umask 077 && sh tools/release --draft "$work/one") >"$work/log" 2>&1 || { cat "$work/log"; exit 1; }
(umask 022 && sh tools/release --draft "$work/two") >"$work/log" 2>&1 || { cat "$work/log"; exit 1; }
grep -v -e '\.tar\.gz$' -e '^release: [0-9]' "$work/log"
(cd "$work/one" && sha256sum --quiet -c SHA256SUMS) || wrong "the sums"
for file in "$work"/one/*; do cmp "$file" "$work/two/${file##*/}" || wrong "${file##*/} is other octets the second time"; done
[ -f "$work/two/SHA256SUMS" ] || wrong "no sums"

# ---- a machine without the kit: a PATH with the compiler's tools alone
version=$(sed -n 's/^#define AOC_VERSION_TEXT "\(.*\)"$/\1/p' include/aoc.h)
mkdir "$work/path" "$work/machine"
for tool in sh "${CC:-cc}" as ld tar gzip sed cat mv tail tr; do
    found=$(command -v "$tool") || wrong "no $tool"
    printf '#!/bin/sh\nexec "%s" "$@"\n' "$found" >"$work/path/${tool##*/}" && chmod +x "$work/path/${tool##*/}"
done
# Python itself, where python3 is a script that looks for it
python=$(python3 -c 'import sys; print(sys.executable)') || exit 1
for tool in "$(command -v pkg-config)" "$python"; do
    [ -z "$tool" ] || { printf '#!/bin/sh\nexec "%s" "$@"\n' "$tool" >"$work/path/${tool##*/}" && chmod +x "$work/path/${tool##*/}"; }
done
[ -f "$work/path/python3" ] || mv "$work/path/${python##*/}" "$work/path/python3"
awk '/^    #include/ { on = 1 } on && /^[^ ]/ { exit } on { print substr($0, 5) }' README.md >"$work/machine/host.c"
cp examples/night.txt examples/night.out examples/audit.txt examples/audit.out crates/lines/stdin crates/lines/stdout "$work/machine/"
cat >"$work/machine/take" <<'END'
set -e
! command -v rt || { echo "the kit is on the PATH"; exit 1; }
tar -xzf ../one/aoc-$1-linux-x86_64.tar.gz
mv aoc-$1-linux-x86_64 elsewhere
[ "$(sed 's/ .*//' elsewhere/RELEASE | tr '\n' ' ')" = "aoc commit: kit: gate: begin " ] || { echo "RELEASE lacks a line"; exit 1; }
aoc=$PWD/elsewhere
if command -v pkg-config >/dev/null; then
    export PKG_CONFIG_PATH=$aoc/lib/pkgconfig
    $2 -std=c11 host.c $(pkg-config --cflags --libs aoc-static) -o host
    $2 -std=c11 host.c $(pkg-config --cflags --libs aoc) -o shared
fi
$2 -std=c11 -I$aoc/include host.c $aoc/lib/libaoc.a -o plain
$2 -std=c11 -I$aoc/include $aoc/share/doc/aoc/examples/night.c $aoc/lib/libaoc.a -o night
for name in plain host shared; do
    [ ! -f $name ] || [ "$(LD_LIBRARY_PATH=$aoc/lib ./$name | tail -n 1)" = "to post: EUR 1.500" ] || { echo "$name prints something else"; exit 1; }
done
[ "$(./night <night.txt)" = "$(cat night.out)" ] || { echo "night prints something else"; exit 1; }
[ "$($aoc/bin/aoc-night <night.txt)" = "$(cat night.out)" ] || { echo "aoc-night prints something else"; exit 1; }
[ "$($aoc/bin/aoc-lines <stdin)" = "$(cat stdout)" ] || { echo "aoc-lines prints something else"; exit 1; }
export AOC_LIBRARY=$aoc/lib/libaoc.so PYTHONPATH=$aoc/share/aoc/python PYTHONDONTWRITEBYTECODE=1
[ "$(python3 $aoc/share/aoc/python/examples/audit.py <audit.txt)" = "$(cat audit.out)" ] || { echo "the audit in Python prints something else"; exit 1; }
END
# shellcheck disable=SC2016
(cd "$work/machine" && env -i PATH="$work/path" HOME="$work" sh take "$version" "$(basename "${CC:-cc}")") || wrong "on a machine without the kit"
echo "release: the same octets twice, and hosts are built from it without the kit"
