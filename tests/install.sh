#!/bin/sh
# The library as tools/install leaves it: the example host, the programs of the installed HOST.md and that of the README are compiled
# against the installed copy alone, by the flags of its pkg-config files, and print what they must, with the archive and with the shared
# library; cmake takes both where it is there. A crash inside the library shows the host's function. Its pages lead to no page that is
# not there, and HOST.md's table names what is installed; its programs run, and have man pages; the library's man page has every function.
# An earlier installation is taken away, and in the end this one, with nothing left and nothing else touched.
cd "$(dirname "$0")/.." || exit 2
work=$(mktemp -d) || exit 2
trap 'rm -rf "$work"' EXIT
wrong() { echo "install: $*"; exit 1; }

# what is asked for before anything is proved
mkdir "$work/tools"
printf '#!/bin/sh\necho the kit is damaged >&2\nexit 1\n' >"$work/tools/rt"
chmod +x "$work/tools/rt"
CC=no-such-compiler sh tools/install "$work/aoc" 2>"$work/err" && wrong "no compiler"
grep -q 'no-such-compiler is not on the PATH' "$work/err" || { cat "$work/err"; wrong "a missing compiler is not told"; }
CC=no-such-compiler ./run night 2>"$work/err" </dev/null && wrong "no compiler for a program"
grep -q 'no compiler no-such-compiler' "$work/err" || { cat "$work/err"; wrong "a missing compiler is not told by run"; }
AOC_FOR=x86_64 PATH=$work/tools:$PATH sh tools/archive 2>"$work/err" && wrong "an rt that fails"
{ grep -q "'rt version' fails" "$work/err" && grep -q 'the kit is damaged' "$work/err"; } || { cat "$work/err"; wrong "an rt that fails is not told"; }
! sh tools/install "$work/a b" 2>"$work/err" || wrong "a blank in PREFIX"
! sh tools/install --uninstall "$work/none" 2>"$work/err" || wrong "uninstalled from where nothing is"

# an earlier installation, and a file of someone else
mkdir -p "$work/aoc/share/aoc" "$work/aoc/lib/old"
echo lib/old/stale >"$work/aoc/share/aoc/installed"
touch "$work/aoc/lib/old/stale" "$work/aoc/lib/other"
ln -s other "$work/aoc/lib/libaoc.so"
sh tools/install "$work/aoc" || exit 1
{ [ ! -e "$work/aoc/lib/old" ] && [ -f "$work/aoc/lib/other" ] && [ ! -s "$work/aoc/lib/other" ]; } || wrong "an earlier installation, or a file of someone else"

# field NAME FILE: a field of a pkg-config file, its variables put in, where the machine has no pkg-config
pc=$work/aoc/lib/pkgconfig
variable() { sed -n "s/^$1=//p" "$pc/$2.pc"; }
field() {
    sed -n "s/^$1: *//p" "$pc/$2.pc" | sed -e "s|\${includedir}|$(variable includedir "$2")|; s|\${libdir}|$(variable libdir "$2")|" -e "s|\${prefix}|$(variable prefix "$2")|"
}
for name in aoc aoc-static; do
    flags="$(field Cflags $name) $(field Libs $name)"
    if command -v pkg-config >/dev/null; then
        asked=$(PKG_CONFIG_PATH=$pc pkg-config --cflags --libs $name) || exit 1
        # shellcheck disable=SC2086,SC2116
        [ "$(echo $asked)" = "$(echo $flags)" ] || wrong "pkg-config says $asked, the file $flags"
    fi
    [ "$(field Version $name)" = "$(sed -n 's/^#define AOC_VERSION_TEXT "\(.*\)"$/\1/p' include/aoc.h)" ] || wrong "another version"
done

# ---- pages and programs
doc=$work/aoc/share/doc/aoc man=$work/aoc/share/man
for page in "$doc"/*.md; do
    grep -o '\](\([^)#:]*\))' "$page" | sed 's/^](//; s/)$//' | sort -u | while read -r link; do
        [ -e "$doc/$link" ] || wrong "no $link, to which ${page##*/} leads"
    done || exit 1
done
awk -F '|' '/^## / { on = $0 == "## The files" } on && /^\| `/ { gsub(/[` ]/, "", $2); gsub(/,/, "\n", $2); print $2 }' "$doc/HOST.md" >"$work/named"
[ "$(wc -l <"$work/named")" -gt 10 ] || wrong "HOST.md's table of files is not found"
[ "$(uname -m)" = x86_64 ] || sed -i '/aoc-lines$/d' "$work/named"
while read -r file; do [ -e "$work/aoc/$file" ] || wrong "no $file, which HOST.md names"; done <"$work/named" || exit 1
(cd "$work/aoc" && find bin include lib share/man ! -type d ! -name 'libaoc.so.*' ! -name other) | while read -r file; do
    grep -qx -e "$file" -e "${file%/*}" "$work/named" || wrong "$file is not in HOST.md's table"
done || exit 1
sed -n 's/^.*extern "C" fn \(aoc_[a-z0-9_]*\)(.*/\1/p' crates/aoc/src/lib.rt | while read -r name; do
    grep -q "\b$name(" "$man/man3/aoc.3" include/aoc_parts.h || wrong "$name is not in the man page"
done || exit 1
for program in "$work"/aoc/bin/*; do
    [ -x "$program" ] || wrong "${program##*/} is no program"
    [ -f "$man/man1/${program##*/}.1" ] || wrong "${program##*/} has no man page"
done
# an option that a program tells of in its help is in its page
for program in explain night replay trace trunks; do
    "$work/aoc/bin/aoc-$program" --help </dev/null 2>/dev/null | grep -o -e '--[a-z][a-z-]*' | sort -u | while read -r option; do
        sed 's/\\-/-/g' "$man/man1/aoc-$program.1" | grep -q -e "$option" || wrong "$option is not in the man page of aoc-$program"
    done || exit 1
done
if command -v groff >/dev/null; then
    for page in "$man"/man*/*; do
        [ -z "$(groff -man -ww -Tutf8 "$page" 2>&1 >/dev/null)" ] || wrong "${page##*/} is not clean"
    done
fi
if [ "$(uname -m)" = x86_64 ]; then
    "$work/aoc/bin/aoc-lines" <crates/lines/stdin | cmp - crates/lines/stdout || exit 1
    for program in explain night replay trunks; do
        "$work/aoc/bin/aoc-$program" <examples/$program.txt | cmp - examples/$program.out || exit 1
    done
fi

# ---- hosts
# host NAME FOLDER FLAG..: compiles NAME.c of the folder with the archive, and on x86-64 with the shared library too
host() {
    name=$1 source=$2/$1.c
    shift 2
    if [ -z "$CROSS" ] && [ "$(uname -m)" = x86_64 ]; then
        for library in aoc aoc-static; do
            # shellcheck disable=SC2046
            (cd "$work" && "${CC:-cc}" -std=c11 -O2 -Wall -Wextra -Werror "$@" "$source" $(field Cflags $library) $(field Libs $library) -o "$name-$library") || exit 1
        done
    else
        AOC_PREFIX=$work/aoc sh tools/cc "$work/$name-aoc-static" "$source" "$@"
    fi
}
# prints NAME WANTED [INPUT]: what the host prints, each way that it was linked
prints() {
    sh tools/exec "$work/$1-aoc-static" <"${3:-/dev/null}" | cmp - "$2" || wrong "$1 prints something else"
    [ -f "$work/$1-aoc" ] || return 0
    LD_LIBRARY_PATH=$work/aoc/lib "$work/$1-aoc" <"${3:-/dev/null}" | cmp - "$2" || wrong "$1 with the shared library prints something else"
}
# block LANGUAGE N: the page's Nth block of it
block() { awk -v start="\`\`\`$1" -v n="$2" '$0 == start { on = ++seen == n; next } on && /^```$/ { exit } on' "$doc/HOST.md"; }

host night "$doc/examples" || exit 1
prints night examples/night.out examples/night.txt
pages=$(grep -c '^```c$' "$doc/HOST.md")
[ "$pages" -ge 1 ] || wrong "HOST.md has no program"
for n in $(seq "$pages"); do
    block c "$n" >"$work/page$n.c"
    block text "$n" >"$work/page.out"
    host "page$n" "$work" || exit 1
    prints "page$n" "$work/page.out"
done
awk '/^    #include/ { on = 1 } on && /^[^ ]/ { exit } on { print substr($0, 5) }' README.md >"$work/readme.c"
host readme "$work" || exit 1
sh tools/exec "$work/readme-aoc-static" >"$work/readme.out"
[ "$(tail -n 2 "$work/readme.out" | tr '\n' '|')" = "released: done|to post: EUR 1.500|" ] || wrong "the README's host prints something else"
if command -v cmake >/dev/null && command -v pkg-config >/dev/null && [ -z "$CROSS" ]; then
    mkdir "$work/cmake"
    cp "$work/readme.c" "$work/cmake/"
    cat >"$work/cmake/CMakeLists.txt" <<'END'
cmake_minimum_required(VERSION 3.13)
project(host C)
find_package(PkgConfig REQUIRED)
foreach(library aoc aoc-static)
    pkg_check_modules(${library} REQUIRED IMPORTED_TARGET ${library})
    add_executable(host-${library} readme.c)
    target_link_libraries(host-${library} PkgConfig::${library})
endforeach()
END
    { PKG_CONFIG_PATH=$pc cmake -S "$work/cmake" -B "$work/cmake/out" && cmake --build "$work/cmake/out"; } >"$work/log" 2>&1 || { cat "$work/log"; wrong "cmake builds no host"; }
    for library in aoc aoc-static; do "$work/cmake/out/host-$library" | cmp - "$work/readme.out" || wrong "a host by cmake prints something else"; done
    echo "install: cmake builds a host with the shared library and one with the archive"
else
    echo "install: no cmake with pkg-config here"
fi

# ---- what is linked, and what a crash shows
if [ -z "$CROSS" ] && [ "$(uname -m)" = x86_64 ]; then
    { readelf -dW "$work/aoc/lib/libaoc.so" | grep -q 'FLAGS.*NOW' && readelf -lW "$work/aoc/lib/libaoc.so" | grep -q GNU_RELRO; } || wrong "libaoc.so has no full RELRO"
    # of a host that only reads, without and with --gc-sections: the octets that the library adds
    cat >"$work/reader.c" <<'END'
#include "aoc.h"
int main(int count, char **words)
{
    static aoc_answer answer;
    return (int)aoc_read((const uint8_t *)words[0], (size_t)count, &answer);
}
END
    echo 'int main(void) { return 0; }' >"$work/empty.c"
    octets() { size "$work/$1-aoc-static" | awk 'NR == 2 { print $4 }'; }
    host empty "$work" && empty=$(octets empty)
    host reader "$work" && whole=$(($(octets reader) - empty))
    host reader "$work" -Wl,--gc-sections && part=$(($(octets reader) - empty))
    echo "install: a reader has $whole octets of the library, and $part with --gc-sections"
    # HOST.md's figures, in thousands, are not further off than an eighth
    awk -F '|' -v whole="$whole" -v part="$part" 'function off(said, true) { return 8 * (1000 * said - true) > true || 8 * (true - 1000 * said) > true }
        /^\| reads components / { found = 1; if (off($3, whole) || off($4, part)) exit 1 } END { if (!found) exit 1 }' "$doc/HOST.md" || wrong "HOST.md has other sizes"
    cat >"$work/crash.c" <<'END'
#include "aoc.h"
#include <execinfo.h>
#include <signal.h>
#include <unistd.h>

static void crashed(int number)
{
    void *callers[32];
    (void)number;
    backtrace_symbols_fd(callers, backtrace(callers, 32), 1);
    _exit(0);
}

int the_host_that_called(aoc_account *account)
{
    return aoc_component(account, (const uint8_t *)"\xA1\x06\x02\x01\x05\x02\x01\x63", 8).number + 1;
}

int main(void)
{
    void *first[1];
    backtrace(first, 1);
    signal(SIGSEGV, crashed);
    return the_host_that_called(0);
}
END
    host crash "$work" -rdynamic -fno-inline -D_GNU_SOURCE || exit 1
    for library in aoc aoc-static; do
        LD_LIBRARY_PATH=$work/aoc/lib "$work/crash-$library" >"$work/trace"
        { grep -q 'the_host_that_called' "$work/trace" && grep -q 'main' "$work/trace"; } || { cat "$work/trace"; wrong "a crash shows no caller ($library)"; }
    done
fi

sh tools/install --uninstall "$work/aoc" || exit 1
[ "$(cd "$work/aoc" && find . ! -type d)" = ./lib/other ] || { find "$work/aoc"; wrong "something is left, or too much is taken away"; }
[ "$(cd "$work/aoc" && find . -type d | sort | tr '\n' ' ')" = ". ./lib " ] || { find "$work/aoc"; wrong "a folder is left"; }
echo "install: hosts are compiled against the installed copy, and print what they must; it is taken away whole"
