#!/bin/sh
# docs/CONTRACTS.md has the statement of every public function as the sources have it, once, and of no other function.
cd "$(dirname "$0")/.." || exit 2
exec sh docs/contracts.sh check
