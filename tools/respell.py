#!/usr/bin/env python3
"""tools/respell.py: spells the project's own definitions, lemmas and fields in snake case, after /opt/rattle/port/port.py, once.

It reads the names that crates/*/specs and crates/*/proofs declare, and turns them in .antt files, in the clauses of .rt files and in
must-fail edits: numberedAt and numbered-at become numbered_at. Types, modules, names with a type in them (IsPrefix-mem), names that
the toolchain makes (Need-returns) and names that only the libraries declare stay. A lemma that would have a definition's name gets _lem.
It writes the table of what it turned to tools/respelled.tsv.
"""
import glob
import os
import re
import sys

NAME = r'[^\s(){}.;,@"«»\x60]+'
CAMEL = re.compile(r"[a-z][a-z0-9]*(?:[A-Z][a-z0-9₀-₉]*)+'*")
KEBAB = re.compile(r"[a-z][a-z0-9_]*(?:[-·][a-z0-9_]+)+[₀-₉]*'*")
# names that the libraries have too
LIBRARY = {"or-false", "or-true"}
# a lemma that would have a definition's name, where both are plain already or the definition is named second
ALSO = {
    "account": {"read_off": "read_off_lem"},
    "amounts": {"one_more": "one_more_lem"},
    "trace": {"one_more": "one_more_lem"},
    "trunk_read_extensions": {"in_place": "in_place_lem"},
    "write_tests": {"number_by": "number_by_lem"},
    "reply_rules": {"number_by": "number_by_lem"},
    "month_totals": {"in_list": "in_list_lem"},
    "board_rules": {"in_list": "in_list_lem"},
    "outcomes": {"in_list": "in_list_lem"},
    "phases": {"by_number": "by_number_lem"},
    "write_association": {"by_number": "by_number_lem"},
    "types": {"no_record": "no_record_lem"},
}


def read(path):
    with open(path, encoding="utf-8") as f:
        return f.read()


def snake(name):
    words = re.sub(r"(?<=[a-z0-9])[A-Z]", lambda m: "_" + m[0].lower(), name) if CAMEL.fullmatch(name) else name
    words = re.sub(r"[A-Z]", lambda m: "_" + m[0].lower(), words)
    return re.sub("[-·]", "_", words)


def declared(texts):
    """each name that a line declares, with the files"""
    found = {}
    stated = set()
    for path, text in texts.items():
        for m in re.finditer(r"(?m)^[ \t]*(?:[a-z]+ )*?((?:%s )+?)(?:\{[^{}\n]*\} |\([^()\n]*\) )*:(?= |$)" % NAME, text):
            for name in m[1].split():
                if not text[m.end() :].lstrip(" ").startswith("tie."):
                    found.setdefault(name, set()).add(path)
                    stated.add(name)
        for m in re.finditer(r"(?m)\bruleset (%s)" % NAME, text):
            found.setdefault(m[1], set()).add(path)
        for m in re.finditer(r"\blet (%s) =" % NAME, text):
            found.setdefault(m[1], set()).add(path)
        for m in re.finditer(r"(?<=\bas )(%s)" % NAME, text):
            found.setdefault(m[1], set()).add(path)
        for m in re.finditer(r"λ ([^.\n]*)\.", text):
            for name in re.findall(NAME, m[1]):
                found.setdefault(name, set()).add(path)
    return found, stated


def main():
    paths = sorted(glob.glob("crates/*/specs/**/*.antt", recursive=True) + glob.glob("crates/*/proofs/**/*.antt", recursive=True))
    texts = {p: read(p) for p in paths}
    own, stated = declared(texts)
    fields = set()
    for text in texts.values():
        for m in re.finditer(r"(?m)^(?:[a-z]+ )*record [^\n]*where\n((?:[ \t]+[^\n]*\n|\n)*)", text):
            for f in re.finditer(r"(?m)^[ \t]+([^\s:]+(?: [^\s:]+)*) :", m[1]):
                fields |= set(f[1].split())
    table = {}
    for name in own:
        if CAMEL.fullmatch(name) or KEBAB.fullmatch(name):
            table[name] = snake(name)
    defined = {table.get(n, n) for n in own if any("/specs/" in p for p in own[n])}
    clash = {}
    for name, new in list(table.items()):
        in_specs = any("/specs/" in p for p in own[name])
        if in_specs:
            continue
        other = new in defined or any(table[o] == new and o != name and CAMEL.fullmatch(o) for o in table)
        if other and KEBAB.fullmatch(name) and name in stated:
            table[name] = clash[name] = re.sub(r"('*)$", r"_lem\1", new)
    functions = set()
    for p in glob.glob("crates/*/src/**/*.rt", recursive=True):
        functions |= set(re.findall(r"\bfn (\w+)", read(p)))
    keep = set(sys.argv[1:])
    for name in keep | LIBRARY:
        table.pop(name, None)

    def turn_word(text, path, crate):
        def one(m):
            name = m[0]
            before = text[: m.start()]
            dot = before.endswith(".")
            if dot:
                head = re.search(r"(%s)\.$" % NAME, before)
                value = not (head and (head[1][:1].isupper() or "Rattle." in before[before.rfind("\n") + 1 :]))
                # a step of a walk has its function's name
                if value and name in clash:
                    return snake(name)
                m2 = re.fullmatch(r"([a-z0-9-]+?)(\d*)", name)
                if value and "-" in name and m2 and m2[1].replace("-", "_") in functions:
                    return m2[1].replace("-", "_") + m2[2]
                if value and "-" in name and name not in fields:
                    return name
            if name in ALSO.get(crate, {}) and not dot:
                return ALSO[crate][name]
            if name in ALSO.get(crate, {}) and head_is_module(before):
                return ALSO[crate][name]
            return table.get(name, name)

        def head_is_module(before):
            head = re.search(r"(%s)\.$" % NAME, before)
            return bool(head and head[1][:1].isupper())

        return re.sub(NAME, one, text)

    def turn_antt(text, path, crate):
        out = []
        for line in text.split("\n"):
            code, dashes, comment = line.partition("-- ") if re.match(r"\s*-- ", line) else (line, "", "")
            if not dashes and " -- " in line:
                code, dashes, comment = line.partition(" -- ")
            code = turn_word(code, path, crate)
            comment = re.sub(r"[A-Za-z0-9_'-]+", lambda m: table[m[0]] if CAMEL.fullmatch(m[0]) and m[0] in table else m[0], comment)
            comment = re.sub(r"\x60[^\x60]*\x60", lambda m: turn_word(m[0], path, crate), comment)
            out.append(code + dashes + comment)
        return "\n".join(out)

    def turn_rt(text, path, crate):
        def plain_words(code):
            code = re.sub(r"(?<![\w'])[a-z]\w*[A-Z]\w*'*", lambda m: table.get(m[0], m[0]), code)
            return re.sub(r"(?<![\w-])[a-z]\w*(?:-\w+)+'*", lambda m: table.get(m[0], m[0]), code)

        out = []
        for line in text.split("\n"):
            head, mark, tail = (line, "", "") if '"' in line else line.partition("//")
            if '"' in head:
                parts = re.split(r'("(?:\\.|[^"\\])*")', head)
                head = "".join(p if p.startswith('"') else plain_words(p) for p in parts)
            else:
                head = plain_words(head)
            tail = re.sub(r"(?<![\w'])[a-z]\w*[A-Z]\w*'*", lambda m: table.get(m[0], m[0]), tail)
            tail = re.sub(r"\x60[^\x60]*\x60", lambda m: plain_words(m[0]), tail)
            out.append(head + mark + tail)
        return "\n".join(out)

    changed = 0
    every = paths + sorted(glob.glob("crates/*/src/**/*.rt", recursive=True)) + sorted(glob.glob("crates/*/must-fail/*.edit"))
    for p in every:
        text = read(p)
        crate = p.split("/")[1]
        if p.endswith(".antt"):
            new = turn_antt(text, p, crate)
        elif p.endswith(".rt"):
            new = turn_rt(text, p, crate)
        else:
            lines = []
            for line in text.split("\n"):
                key, colon, rest = line.partition(": ")
                if key in ("old", "new"):
                    rest = turn_antt(rest, p, crate) if ".antt" in current else turn_rt(rest, p, crate)
                elif key == "file":
                    current = rest
                lines.append(key + colon + rest)
            new = "\n".join(lines)
        if new != text:
            changed += 1
            with open(p, "w", encoding="utf-8") as f:
                f.write(new)
    os.makedirs("tools", exist_ok=True)
    with open("tools/respelled.tsv", "w", encoding="utf-8") as f:
        f.write("".join(f"{a}\t{b}\n" for a, b in sorted(table.items())))
    print(f"{len(table)} names, {changed} files; with _lem: {' '.join(sorted(clash))}")


main()
