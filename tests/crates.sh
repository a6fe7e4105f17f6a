#!/bin/sh
# The tables of crates in docs/ARCHITECTURE.md are those that docs/crates.sh prints, and crates.txt has each crate after those that it
# depends on.
cd "$(dirname "$0")/.." || exit 2
exec sh docs/crates.sh check
