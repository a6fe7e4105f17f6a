#!/bin/sh
# The C library as a host sees it: every function, through include/aoc.h and the archive.
cd "$(dirname "$0")/.." || exit 2
work=$(mktemp -d) || exit 2
trap 'rm -rf "$work"' EXIT
sh tools/archive || exit 1
for name in host calls lengths trunks trunks_written exchange words why fault price board month messages events live inline; do
    # at both levels: how structs are passed must not depend on what the compiler inlines
    for level in -O2 -O0; do
        sh tools/cc "$work/$name" "tests/$name.c" "$level" && sh tools/exec "$work/$name" || exit 1
    done
done
