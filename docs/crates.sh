#!/bin/sh
# sh docs/crates.sh          prints the table of crates and the picture of their themes, from crates.txt (its headings) and the first
#                            sentence of each crate's lib.rt or main.rt.
# sh docs/crates.sh write    puts both into docs/ARCHITECTURE.md, between the lines that mark them.
# sh docs/crates.sh check    fails where the page has other ones, or a crate stands before one that it depends on.
cd "$(dirname "$0")/.." || exit 2
exec python3 - "$@" <<'PYTHON'
import re, sys

PAGE = "docs/ARCHITECTURE.md"
BEGIN, END = "<!-- printed by docs/crates.sh -->\n", "<!-- end of what is printed -->\n"


def read(path):
    with open(path, encoding="utf-8") as file:
        return file.read()


def themes():
    """The headings of crates.txt, each with its crates; and what each crate depends on."""
    found, depends = [], {}
    for line in read("crates.txt").splitlines():
        if line.startswith("# "):
            found.append((line[2:], []))
        elif ":" in line:
            name, below = line.split(":")
            name = name.split()[0]  # `NAME staticlib` is a static library
            found[-1][1].append(name)
            depends[name] = below.split()
    return [(heading, crates) for heading, crates in found if crates], depends


def first_sentence(crate):
    for name in ("lib", "main"):
        try:
            lines = read(f"crates/{crate}/src/{name}.rt").splitlines()
        except FileNotFoundError:
            continue
        comment = []
        for line in lines:
            if not line.startswith("// "):
                break
            comment.append(line[3:])
        return re.match(r".*?[^.]\.(?= |$)", " ".join(comment))[0]
    sys.exit(f"crates: {crate} has no lib.rt and no main.rt")


def printed():
    found, depends = themes()
    of = {crate: heading for heading, crates in found for crate in crates}
    below = {h: {of[d] for crate in crates for d in depends[crate] if d in of} - {h} for h, crates in found}
    reached = {}  # by any way; a theme comes after those that it depends on
    for heading, _ in found:
        reached[heading] = below[heading].union(*(reached[h] for h in below[heading]))
    out = ["| Theme | Depends directly on (and so on everything below that) |", "|---|---|"]
    for heading, _ in found:
        direct = [h for h, _ in found if h in below[heading] and not any(h in reached[other] for other in below[heading])]
        out.append(f"| {heading} | {', '.join(direct) or 'nothing'} |")
    out += ["", "| Theme | Crate | What is in it |", "|---|---|---|"]
    for heading, crates in found:
        for crate in crates:
            out.append(f"| {heading} | `{crate}` | {first_sentence(crate)} |")
            heading = ""
    return "\n".join(out) + "\n"


def out_of_order():
    found, depends = themes()
    seen = set()
    for _, crates in found:
        for crate in crates:
            for below in depends[crate]:
                if below in depends and below not in seen:
                    yield f"crates.txt: {crate} stands before {below}, which it depends on"
            seen.add(crate)


text = printed()
what = sys.argv[1] if len(sys.argv) > 1 else ""
if what in ("write", "check"):
    page = read(PAGE)
    before, begin, rest = page.partition(BEGIN)
    now, end, after = rest.partition(END)
    if not begin or not end:
        sys.exit(f"crates: {PAGE} lacks the lines that mark what is printed")
    if what == "write":
        with open(PAGE, "w", encoding="utf-8") as file:
            file.write(before + begin + text + end + after)
        sys.exit()
    wrong = list(out_of_order())
    if now != text:
        wrong.append(f"{PAGE} has other tables than 'sh docs/crates.sh' prints: 'sh docs/crates.sh write' puts them there")
    for line in wrong:
        print(line)
    found, depends = themes()
    print(f"crates: {len(depends)} in {len(found)} themes, {len(wrong)} wrong")
    sys.exit(bool(wrong))
sys.stdout.write(text)
PYTHON
