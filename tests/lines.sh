#!/bin/sh
# tests/lines.sh [PROGRAM]: the line program on inputs of every kind, compared with what document 01 says and with the second program.
# One line for each case; the last line is 'N passed, M failed'; status 1 if any failed.
cd "$(dirname "$0")/.." || exit 2
program=${1:-target/bin/lines}
[ $# -gt 0 ] || sh tools/prove lines || exit 2
[ -x "$program" ] || { echo "lines.sh: no $program (sh tools/prove lines)" >&2; exit 2; }
exec python3 tests/line_cases.py sh tools/exec "$program"
