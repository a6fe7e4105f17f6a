#!/usr/bin/env python3
"""tools/respell_pages.py [dry | write]: brought the project's own names in the pages' code spans to the spelling of today's crates, once, after
port.py and tools/respell.py: by tools/respelled.tsv, and where port.py turned a name itself, by what the crates declare. It prints what it
turns, and names in other files (OTHER) that are to be looked at by hand.
"""
import collections
import glob
import os
import re
import sys

table = dict(line.rstrip("\n").split("\t") for line in open("tools/respelled.tsv", encoding="utf-8"))
TOKEN = re.compile(r"(?<![\w'·/.-])[^\W\d][\w'·₀-₉]*(?:-[\w'·₀-₉]+)*(?![\w'·-])")
texts = {q: open(q, encoding="utf-8").read() for q in glob.glob("crates/*/specs/**/*.antt", recursive=True) + glob.glob("crates/*/proofs/**/*.antt", recursive=True) + glob.glob("crates/*/src/**/*.rt", recursive=True)}
words = set()
declared = {}
for q, t in texts.items():
    words |= set(re.findall(r"[^\W\d][\w'·₀-₉]*(?:-[\w'·₀-₉]+)*", t))
    for n in re.findall(r"(?m)^ *(?:(?:pub|abbrev|unfoldable|data|record|ruleset) )*([^\s:(){}.]+)(?= )", t):
        declared.setdefault(n, set()).add(q)
def snake(name):
    w = re.sub(r"(?<=[a-z0-9])[A-Z]", lambda m: "_" + m[0].lower(), name)
    return re.sub("[-·]", "_", w)
class Table(dict):
    def get(self, name, other=None):
        if name in self:
            return self[name]
        if not re.fullmatch(r"[a-z][a-z0-9]*(?:[A-Z][a-z0-9]*)+'*|[a-z][a-z0-9]*(?:-[a-z0-9]+)+'*", name):
            return other
        if name in words:
            return other
        new = snake(name)
        if "-" in name and new + "_lem" in declared:
            return new + "_lem"
        return new if new in declared else other
table = Table(table)
turned = collections.Counter()
def word(m):
    new = table.get(m[0])
    if new is None or new == m[0]:
        return m[0]
    turned[(where, m[0], new)] += 1
    return new
def span(m):
    return "`" + TOKEN.sub(word, m[1]) + "`"
pages = [p for p in ["README.md", "CONTRIBUTING.md", "examples/README.md", "second/README.md", *sorted(glob.glob("docs/*.md"))] if p not in ("docs/PORT.md",)]
for where in pages:
    text = open(where, encoding="utf-8").read()
    parts = re.split(r"(?ms)(^```.*?^```\n)", text)
    for i in range(0, len(parts), 2):
        parts[i] = re.sub(r"`([^`\n]+)`", span, parts[i])
    new = "".join(parts)
    if sys.argv[1:] == ["write"] and new != text:
        open(where, "w", encoding="utf-8").write(new)
others = [p for pat in ("include/*", "tests/*", "tests/eva/*", "second/*.py", "examples/*.c", "bench/*", "docs/*.sh", "docs/*.1", "docs/*.3", "bindings/**/*", "tools/*") for p in sorted(glob.glob(pat, recursive=True))]
for where in others:
    if not os.path.isfile(where) or where.startswith("tools/respell") or where == "tests/released.txt": continue
    try:
        text = open(where, encoding="utf-8").read()
    except UnicodeDecodeError:
        continue
    for n, line in enumerate(text.splitlines(), 1):
        for m in TOKEN.finditer(line):
            if m[0] in table and table[m[0]] != m[0]:
                print(f"OTHER {where}:{n}: {m[0]} -> {table[m[0]]}: {line.strip()[:140]}")
for (w, a, b), n in sorted(turned.items()):
    print(f"{w}: {a} -> {b} ({n})")
