#!/bin/sh
# The packages for Python and Rust over the library as tools/install leaves it. What they declare is what the headers declare, and each
# struct is laid out as the C compiler lays it out; the audit prints what examples/audit.out has, and the README's host in each language
# what it prints in C. Python's is installed by pip without a network, Rust's is compiled as edition 2021 and 2024, and by cargo.
# What is not there (pip, rustc, cargo) is told. And every inline function of the headers is in both libraries under its own name.
cd "$(dirname "$0")/.." || exit 2
work=$(mktemp -d) || exit 2
trap 'rm -rf "$work"' EXIT
export PYTHONDONTWRITEBYTECODE=1
sh tools/install "$work/aoc" >"$work/log" 2>&1 || { cat "$work/log"; exit 1; }
wrong() { echo "languages: $*"; exit 1; }

sed -n 's/^AOC_INLINE .*\(aoc_[a-z_]*\)(.*/\1/p' include/aoc.h include/aoc_text.h | sort -u >"$work/inline"
[ "$(wc -l <"$work/inline")" -gt 25 ] || wrong "the inline functions are not found"
for library in "-D $work/aoc/lib/libaoc.so" "$work/aoc/lib/libaoc.a"; do
    # shellcheck disable=SC2086
    nm --defined-only $library | sed -n 's/.* T //p' | sort -u >"$work/names"
    [ -z "$(comm -23 "$work/inline" "$work/names")" ] || { comm -23 "$work/inline" "$work/names"; wrong "not in $library: the names above"; }
    ! grep -v '^aoc_' "$work/names" || wrong "another name in $library"
done

# ---- what is declared, and how it is laid out
python3 bindings/declare.py || exit 1
python3 bindings/declare.py layout "$work" || exit 1
sh tools/cc "$work/layout" "$work/layout.c" && sh tools/exec "$work/layout" >"$work/c.layout" || exit 1
[ "$(wc -l <"$work/c.layout")" -gt 150 ] || wrong "the layout is not found"
diff "$work/c.layout" "$work/python.layout" || wrong "Python lays out a struct in another way"

# ---- the README's host in C, and the hosts in other languages
awk '/^    #include/ { on = 1 } on && /^[^ ]/ { exit } on { print substr($0, 5) }' README.md >"$work/readme.c"
AOC_PREFIX=$work/aoc sh tools/cc "$work/readme" "$work/readme.c" && sh tools/exec "$work/readme" >"$work/readme.out" || exit 1
# hosts LANGUAGE COMMAND..: COMMAND audit and COMMAND host print what they must
hosts() {
    language=$1
    shift
    "$@" audit <examples/audit.txt 2>"$work/err" | cmp - examples/audit.out || { cat "$work/err"; wrong "the audit in $language prints something else"; }
    "$@" host 2>"$work/err" | cmp - "$work/readme.out" || { cat "$work/err"; wrong "the README's host in $language prints something else"; }
    echo "languages: the hosts in $language print what they must"
}
python() { AOC_LIBRARY=$work/aoc/lib/libaoc.so PYTHONPATH=bindings/python python3 "$work/aoc/share/aoc/python/examples/$1.py"; }
hosts Python python
AOC_LIBRARY=$work/aoc/lib/libaoc.so PYTHONPATH=bindings/python python3 tests/bindings.py || exit 1
if python3 -m pip --version >/dev/null 2>&1; then
    python3 -m pip --quiet --disable-pip-version-check --no-cache-dir install --no-index --target "$work/site" "$work/aoc/share/aoc/python" >"$work/log" 2>&1 ||
        { cat "$work/log"; wrong "pip installs no package"; }
    [ -z "$(cd "$work/aoc/share/aoc/python" && find . -newer "$work/readme.out" ! -type d)" ] || wrong "pip left something in the package's folder"
    installed() { PYTHONPATH=$work/site python3 "$work/aoc/share/aoc/python/examples/$1.py"; }
    hosts "Python as pip installs it" installed
else
    echo "languages: no pip here"
fi

rust=$work/aoc/share/aoc/rust
if command -v rustc >/dev/null; then
    for edition in 2021 2024; do
        mkdir "$work/$edition"
        rustc --edition "$edition" -D warnings --crate-name aoc --crate-type rlib "$rust/src/lib.rs" -o "$work/$edition/libaoc_rs.rlib" || exit 1
    done
    # program SOURCE NAME EDITION: over the package of that edition
    program() {
        rustc --edition "$3" -D warnings "$1" --extern "aoc=$work/$3/libaoc_rs.rlib" -L "$work/aoc/lib" -l static=aoc -o "$work/$2" || exit 1
    }
    program "$work/layout.rs" layout_rs 2021
    "$work/layout_rs" | diff "$work/c.layout" - || wrong "Rust lays out a struct in another way"
    program tests/bindings.rs bindings 2021
    "$work/bindings" || exit 1
    program "$rust/examples/audit.rs" audit 2024
    program "$rust/examples/host.rs" host 2021
    compiled() { "$work/$1"; }
    hosts Rust compiled
else
    echo "languages: no rustc here"
fi
if command -v cargo >/dev/null; then
    mkdir -p "$work/desk/src"
    cp "$rust/examples/host.rs" "$work/desk/src/main.rs"
    printf '%s\n' '[package]' 'name = "desk"' 'edition = "2024"' '[dependencies]' "aoc = { path = \"$rust\" }" >"$work/desk/Cargo.toml"
    (cd "$work/desk" && CARGO_TARGET_DIR=$work/cargo cargo build --offline --quiet) || wrong "cargo does not build a host"
    "$work/cargo/debug/desk" | cmp - "$work/readme.out" || wrong "a host that takes the package by cargo prints something else"
    echo "languages: cargo builds a host of edition 2024 over the package"
else
    echo "languages: no cargo here"
fi
