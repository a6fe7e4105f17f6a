#!/bin/sh
# The functions of SPEED.md's table "What one more caller costs" are called where that table says, and nowhere else in the crates that
# `aoc` reaches: one more caller costs every component what the table has.
cd "$(dirname "$0")/.." || exit 2
exec python3 - <<'PYTHON'
import glob
import re
import sys


def text(path):
    with open(path, encoding="utf-8") as file:
        return file.read()


# ---- the crates that `aoc` reaches
below = {}
for line in text("crates.txt").splitlines():
    if ":" in line.split("#")[0]:
        name, others = line.split("#")[0].split(":")
        below[name.split()[0]] = others.split()  # `NAME staticlib` is a static library
reached, left = set(), ["aoc"]
while left:
    crate = left.pop()
    if crate in below and crate not in reached:
        reached.add(crate)
        left += below[crate]

# ---- each call of a function, by the function that it stands in
bodies = []  # a crate, a function of it, its text without comments, and what its file takes in by `use`
for crate in sorted(reached):
    for path in sorted(glob.glob(f"crates/{crate}/src/**/*.rt", recursive=True)):
        code = re.sub(r"//[^\n]*", "", text(path))
        heads = list(re.finditer(r"(?m)^\s*(?:pub )?(?:extern \"C\" )?fn (\w+)", code))
        for head, following in zip(heads, [*(h.start() for h in heads[1:]), len(code)]):
            bodies.append((crate, head[1], code[head.end():following], re.findall(r"(?m)^\s*(?:pub )?use ([\w:]+)", code)))


def callers(crate, name):
    """In its own crate a function goes by its name, in another one by its crate's name before it, or by `use`."""
    near, far = rf"(?<![\w:.])(?:\w+::)*{name}\(", rf"(?<![\w:]){crate}::(?:\w+::)*{name}\("
    taken = re.compile(rf"{crate}::(?:\w+::)*{name}")
    return {f"{of}::{function}" for of, function, body, uses in bodies
            if re.search(near if of == crate or any(map(taken.fullmatch, uses)) else far, body)}


# ---- the table
rows = re.findall(r"(?m)^(`\w+::\w+`(?:, `\w+::\w+`)*) \| (`\w+::\w+`(?:, `\w+::\w+`)*) \|", text("docs/SPEED.md").split("## What one more caller costs")[1].split("\n## ")[0])
wrong = []
functions = [(row, name) for row in rows for name in re.findall(r"\w+::\w+", row[0])]
for (_, said), name in functions:
    true = callers(*name.split("::"))
    for caller in sorted(true ^ set(re.findall(r"\w+::\w+", said))):
        wrong.append(f"{name}: {caller} {'calls it, and docs/SPEED.md does not say so' if caller in true else 'does not call it'}")
print("\n".join(wrong), end="\n" if wrong else "")
print(f"callers: {len(functions)} functions in {len(reached)} crates; {len(wrong)} wrong")
sys.exit(1 if wrong or len(functions) < 17 else 0)
PYTHON
