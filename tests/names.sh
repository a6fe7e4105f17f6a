#!/bin/sh
# No name has two meanings among the definitions that must be believed.
cd "$(dirname "$0")/.." || exit 2
exec python3 tests/names.py
