#!/bin/sh
# sh docs/proofs.sh [FILES]: how long and how plain the proofs are. For each crate: the lines of proof, the lines of over 200 characters,
# and the paths with four or more `.before` in a row (such a fact is better named by a `let`, or found by a ruleset); then the
# FILES (default 15) with most of these. It prints and judges nothing.
exec python3 - "$(dirname "$0")/../crates" "${1:-15}" <<'PYTHON'
import pathlib, re, sys

crates, most = pathlib.Path(sys.argv[1]), int(sys.argv[2])
rows, files = {}, []
for path in sorted(crates.glob("*/proofs/**/*.antt")):
    lines = path.read_text().splitlines()
    wide = sum(len(line) > 200 for line in lines)
    chains = sum(len(re.findall(r"(?:\.before ){3,}\.before\b", line)) for line in lines)
    name = str(path.relative_to(crates))
    row = rows.setdefault(name.split("/")[0], [0, 0, 0, 0])
    for i, n in enumerate((1, len(lines), wide, chains)):
        row[i] += n
    files.append((chains + wide, name, len(lines), wide, chains))
rows["all"] = [sum(column) for column in zip(*rows.values())]
print("| Crate | Files | Lines of proof | Over 200 characters | Chains of `.before` |\n|---|---|---|---|---|")
for name, row in rows.items():
    print(f"| `{name}` | ".replace("`all`", "all") + " | ".join(map(str, row)) + " |")
worst = [f for f in sorted(files, reverse=True) if f[0]][:most]
if worst:
    print("\n| File | Lines | Over 200 characters | Chains of `.before` |\n|---|---|---|---|")
    for _, name, lines, wide, chains in worst:
        print(f"| `{name}` | {lines} | {wide} | {chains} |")
PYTHON
