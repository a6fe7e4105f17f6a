#!/bin/sh
# sh docs/trust.sh          prints the rows of docs/TRUST.md whose count of lines is not that of the file.
# sh docs/trust.sh write    puts the counts there. The minutes of reading are judged by hand.
cd "$(dirname "$0")/.." || exit 2
exec python3 - "$@" <<'PYTHON'
import os
import re
import sys

PAGE = "docs/TRUST.md"


def counted(row):
    if not os.path.exists("crates/" + row[2]):
        return row[0]
    with open("crates/" + row[2], encoding="utf-8") as file:
        lines = file.read().count("\n")
    if lines != int(row[3]) and sys.argv[1:] != ["write"]:
        print(f"{row[2]} has {lines} lines, not {row[3]}")
    return f"{row[1]}{lines}{row[4]}"


with open(PAGE, encoding="utf-8") as file:
    page = file.read()
new = re.sub(r"(?m)^((?:\| )?`([a-z_]+/specs/[A-Za-z]+\.antt)` \| )(\d+)( \|)", counted, page)
if sys.argv[1:] == ["write"]:
    with open(PAGE, "w", encoding="utf-8") as file:
        file.write(new)
PYTHON
