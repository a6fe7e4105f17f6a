#!/bin/sh
# The pages say what the tree has: the lines of each file of definitions, which of them are to be believed,
# the exports, the sizes, the must-fail edits, the theorems, the names in backticks with the crates and files that they are said to be in (in
# comments of the code too), what is quoted of definitions, what public statements cite, the landings' notes, the links, what programs print.
cd "$(dirname "$0")/.." || exit 2
exec python3 - <<'PYTHON'
import glob
import os
import re
import subprocess
import sys

wrong = []


def text(path):
    with open(path, encoding="utf-8") as file:
        whole = file.read()
    return barred(whole) if path.endswith(".md") else whole


def barred(page):
    """A page whose tables all have a bar at both ends of a row."""
    lines = page.split("\n")
    for i in [i for i, line in enumerate(lines) if re.fullmatch(r"---(?:\|---)+", line)]:
        last = i
        while last + 1 < len(lines) and " | " in lines[last + 1]:
            last += 1
        lines[i - 1:last + 1] = [f"|{line}|" if line.startswith("---") else f"| {line} |" for line in lines[i - 1:last + 1]]
    return "\n".join(lines)


def tell(page, what):
    wrong.append(f"{page}: {what}")


def differ(page, what, said, true):
    for name in sorted(set(said) ^ set(true)):
        tell(page, f"{what}: {name} is {'not there' if name in said else 'not named'}")


ARCHITECTURE, TRUST, CONTRACTS, EDITS = "docs/ARCHITECTURE.md", "docs/TRUST.md", "docs/CONTRACTS.md", "docs/EDITS.md"

crates = [line.split(":")[0].split()[0] for line in text("crates.txt").splitlines() if ":" in line.split("#")[0]]

# ---- the files of definitions: those to be believed, with their lines and the minutes of reading, and those that only help
files = {path[len("crates/"):] for path in glob.glob("crates/*/specs/*.antt") if not path.endswith(("/Lib.antt", "/inner.antt"))}
rows = re.findall(r"^\| `([a-z_]+/specs/[A-Za-z]+\.antt)` \| (\d+) \|", text(TRUST), re.M)
believed = {name: int(lines) for name, lines in rows}
helping = {path[len("crates/"):] for path in glob.glob("crates/*/specs/inner/*.antt")}
differ(TRUST, "file", set(believed), files)
listed = [name for name, lines in rows]
for name in sorted({name for name in listed if listed.count(name) > 1}):
    tell(TRUST, f"{name} is listed twice")
for name, lines in believed.items():
    if name not in files:
        continue
    body = text("crates/" + name)
    if body.count("\n") != lines:
        tell(TRUST, f"{name} has {body.count(chr(10))} lines, not {lines}")
    if re.search(r"\binner\.[A-Z]", body):
        tell(TRUST, f"{name} is to be believed and cites a file of specs/inner/, which is not")

# ---- the minutes of each step of reading, and of all of them
minutes = 0
for head, said, step in re.findall(r"(?m)^### (\d+\. .*?) \((\d+) minutes\)$((?:.|\n)*?)(?=^### )", text(TRUST)):
    took = sum(map(int, re.findall(r"(?m)^\| `[a-z_]+/specs/\w+\.antt` \| \d+ \| (\d+) \|", step)))
    minutes += took
    if took != int(said):
        tell(TRUST, f"{head}: its files take {took} minutes, not {said}")
if f"All of it takes {minutes} minutes" not in text(TRUST):
    tell(TRUST, f"all of it takes {minutes} minutes")
order = re.findall(r"(?m)^\| `([a-z_]+/specs/\w+\.antt)` \| \d+ \| \d+ \| (.*) \|$", text(TRUST))
differ(TRUST, "file with its minutes", [path for path, names in order], believed)

# ---- the exports
exports = re.findall(r'extern "C" fn (aoc_\w+)', text("crates/aoc/src/lib.rt"))
table = "".join(line + "\n" for line in text(ARCHITECTURE).splitlines() if line.startswith("| `") and "`aoc_" in line)
inline = re.findall(r"(?m)^AOC_INLINE [^;{]*?\b(aoc_\w+)\(", text("include/aoc.h"))
differ(ARCHITECTURE, "export", set(re.findall(r"`(aoc_\w+)`", table)) - set(inline), exports)

# ---- the sizes that hosts are told
sizes = {name: eval(number) for name, number in re.findall(r"sizeof\((aoc_\w+)\) == ([\d +]+)", text("include/aoc_parts.h"))}
for names, numbers in re.findall(r"^\| (`aoc_\w+`(?:, `aoc_\w+`)*) \| ([\d, ]+) \|", text("docs/HOST.md").split("## Sizes")[1].split("\n## ")[0], re.M):
    for name, number in zip(re.findall(r"aoc_\w+", names), numbers.split(", ")):
        if sizes.get(name) != int(number.replace(",", "")):
            tell("docs/HOST.md", f"{name} has {sizes.get(name)} octets")

# ---- the stack that is enough for any function, and the kit that the project is proved with
enough = int(re.search(r"^(\d+) KB are enough for any function", text("docs/HOST.md"), re.M)[1])
for names, octets in re.findall(r"^\| (`aoc_\w+`(?:, `aoc_\w+`)*) \| ([\d,]+) \|$", text("docs/HOST.md").split("## Stack")[1].split("\n## ")[0], re.M):
    if int(octets.replace(",", "")) > 1024 * enough:
        tell("docs/HOST.md", f"{names}: more than {enough} KB of stack")
try:
    kit = subprocess.run(["rt", "version"], capture_output=True, text=True).stdout.strip()
    if kit not in text("README.md"):
        tell("README.md", f"the kit is {kit}")
except FileNotFoundError:
    pass

# ---- the must-fail edits
edits = {"/".join((path.split("/")[1], path.split("/")[3][: -len(".edit")])) for path in glob.glob("crates/*/must-fail/*.edit")}
differ(EDITS, "edit", set(re.findall(r"^- `([a-z_]+/[a-z_0-9]+)`", text(EDITS), re.M)), edits)
headed = re.findall(r"`([a-z_]+)(?:::|`)", " ".join(re.findall(r"^## .*", text(CONTRACTS), re.M)))
for crate in set(re.findall(r"^## `([a-z_]+)`", text(EDITS), re.M)) - set(headed) - {"aoc", "lines"}:
    tell(EDITS, f"{crate} has no section in CONTRACTS.md")
for edit in set(re.findall(r"`([a-z_]+/[a-z_0-9]+)`", text(CONTRACTS))) - edits:
    if edit.split("/")[1] not in ("src", "specs", "proofs"):
        tell(CONTRACTS, f"no edit {edit}")

# ---- each theorem that CONTRACTS names stands in the file that it names
folder = file = None
for line in text(CONTRACTS).split("## Theorems", 1)[1].splitlines():
    if line.startswith("#"):
        at = re.search(r"`([a-z_]+/proofs)(?:/(\w+\.antt))?`", line)
        folder, file = (at[1], at[2]) if at else ("coding/proofs", None)
    elif line.startswith("| `"):
        cell = line.split("|")[1]
        own = re.search(r"\(`(\w+\.antt)`\)", cell)
        path = f"crates/{folder}/{own[1] if own else file}"
        for name in re.findall(r"`([^\W\d][\w-]*)`", cell) if own or file else []:
            if not os.path.exists(path) or not re.search(rf"(?m)^ *(?:pub )?(?:unfoldable )?{re.escape(name)} ", text(path)):
                tell(CONTRACTS, f"no {name} in {path}")

# ---- names in backticks
code = {crate: "\n".join(text(path) for path in glob.glob(f"crates/{crate}/src/**/*.rt", recursive=True)) for crate in crates}
words = set()
for pattern in ("crates/**/*.rt", "crates/**/*.antt", "include/*", "tests/*", "second/*.py", "examples/*", "bench/*", "tools/*", "docs/*.sh", "docs/*.1", "bindings/**/*"):
    for path in glob.glob(pattern, recursive=True):
        if os.path.isfile(path) and not path.endswith(".md"):
            words.update(re.findall(r"[^\W\d][\w'·-]*", text(path)))
            words.add(os.path.basename(path).split(".")[0])
words.update(folder for path in glob.glob("crates/**/", recursive=True) for folder in path.split("/"))
# (docs/PORT.md and docs/DESIGN-PASS.md are history: they tell of names and files that went)
pages = sorted(set(glob.glob("docs/*.md")) - {"docs/PORT.md", "docs/DESIGN-PASS.md"}) + ["README.md", "CONTRIBUTING.md", "examples/README.md", "second/README.md"]
for page in pages:
    if page == "docs/EDITS.md":
        continue
    prose = re.sub(r"^```.*?^```", "", text(page), flags=re.M | re.S)
    for quoted in set(re.findall(r"`([^`\n]+)`", prose)):
        of = re.match(r"([a-z_]+)::(\w+)", quoted)
        if of and of[1] in code:
            if not re.search(rf"\b(fn|struct|const|mod)\s+{of[2]}\b", code[of[1]]):
                tell(page, f"no {quoted}")
        elif re.fullmatch(r"[^\W\d][\w-]{2,}", quoted) and quoted not in words:
            tell(page, f"no name {quoted}")

# ---- `name` in `file`: the file has it; so has the file of a row of TRUST's order of reading
places = [(page, found) for page in pages for found in re.findall(r"((?:`[\w-]+`(?:, | and | to )?)+) in `([a-z_]+/(?:specs|proofs|src)/[\w/]+\.\w+)`", text(page))]
places += [(TRUST, (names, path)) for path, names in order]
for page, (names, path) in places:
    for name in re.findall(r"`([\w-]+)`", names):
        if os.path.exists("crates/" + path) and not re.search(rf"(?m)^(?!--|//).*(?<![\w-]){re.escape(name)}(?![\w-])", text("crates/" + path)):
            tell(page, f"no {name} in {path}")

# ---- `name` (`file`): one of the files of that name, or path, defines it; so in comments of the code, where a path stands without its quotes
def defines(path, name):
    return bool(re.search(rf"(?m)^ *(?:(?:pub|abbrev|unfoldable|data|record|fn|struct|const|ruleset) )*{re.escape(name)}(?![\w·-])", text(path)))


antt = glob.glob("crates/*/specs/**/*.antt", recursive=True) + glob.glob("crates/*/proofs/*.antt")
comments = [(path, "\n".join(re.findall(r"(?m)^\s*(?:--|//) ?(.*)", text(path)))) for path in antt + glob.glob("crates/*/src/**/*.rt", recursive=True)]
for page, said in [(page, text(page)) for page in pages if page != "docs/EDITS.md"] + comments:
    for names, beside in re.findall(r"((?:`[^\W\d][\w-]*`(?:, | and )?)+) \(((?:`?(?:[a-z_]+/(?:specs|proofs)/)?\w+\.antt`?(?:, )?)+)\)", said):
        standing = [path for file in re.findall(r"[\w/]+\.antt", beside) for path in antt if path.endswith("/" + file)]
        for name in re.findall(r"`([^`]+)`", names):
            if name not in crates and not any(defines(path, name) for path in standing):
                tell(page, f"no {name} in {beside}")
    for path in set(re.findall(r"(?<![\w/])[a-z_]+/(?:specs|proofs|src)/[\w/+]+\.(?:antt|rt)", said)):
        if not os.path.exists("crates/" + path):
            tell(page, f"no file {path}")

# ---- `name` in `crate`, and `crate` (`file`, `name`): the crate is there and has them. A word after "in" that is no crate is a definition's or a function's
called = set(re.findall(r"\b(?:fn|struct|const) (\w+)", "\n".join(code.values())))
every = {crate: "\n".join(text(path) for path in glob.glob(f"crates/{crate}/**/*", recursive=True) if path.endswith((".antt", ".rt"))) for crate in crates}
for page in pages:
    for name, crate in re.findall(r"`([^`\n]+)` in `([a-z][a-z_]*)`", text(page)) if page != "docs/EDITS.md" else []:
        if crate not in crates and crate not in called and not any(defines(path, crate) for path in antt) and not os.path.exists(crate):
            tell(page, f"{name}: no crate and no definition {crate}")
        elif crate in crates and re.fullmatch(r"[^\W\d][\w-]*", name) and not re.search(rf"(?<![\w-]){re.escape(name)}(?![\w-])", every[crate]):
            tell(page, f"no {name} in the crate {crate}")
for line in text("CONTRIBUTING.md").split("## The requests of document 02")[1].splitlines():
    for crate, inside in re.findall(r"`([a-z_]+)` \(((?:`[^`]+`(?:, )?)+)\)", line):
        for name in re.findall(r"`([^`]+)`", inside):
            there = glob.glob(f"crates/{crate}/*/{name}") if name.endswith(".antt") else [crate for path in glob.glob(f"crates/{crate}/*/*") if os.path.isfile(path) and defines(path, name)]
            if not there:
                tell("CONTRIBUTING.md", f"no {name} in {crate}")
trunks = re.search(r"(?m)^\| \[1 QSIG trunks\]\([^|]*\|([^|]*)\|", text("CONTRIBUTING.md"))[1]
for crate in crates:
    if re.match(r"trunk|profile", crate) and "fn " in code[crate] and f"`{crate}`" not in trunks:
        tell("CONTRIBUTING.md", f"request 1: {crate} is not named")

# ---- what READINGS quotes of a definition stands there, `..` for anything
specs = " ".join(re.sub(r"\s+", " ", text(path)) for path in glob.glob("crates/*/specs/**/*.antt", recursive=True) + glob.glob("crates/*/proofs/*.antt"))
for line in text("docs/READINGS.md").splitlines():
    for quoted in re.findall(r"`([^`]+)`", line) if line.startswith("|") else []:
        if re.search(r"\S [=∷(]|^\(", quoted):
            for piece in re.split(r" ?\.\. ?", quoted.replace("\\|", "|")):
                if piece not in specs:
                    tell("docs/READINGS.md", f"no definition has {piece}")

# ---- a name after a short name in READINGS (before the colon that parts a definition from its line) stands in the file that the short name is said to be
def shorts(line):
    """The short names that a line gives: **A**, **B** are `crate/specs/..`, or **A** is `crate/specs/A.antt`."""
    for names, path in re.findall(r"((?:\*\*\w+\*\*(?:, )?)+) (?:is|are) `([a-z_]+/specs/[\w.]+)`", line):
        for name in re.findall(r"\w+", names):
            yield name, path if path.endswith(".antt") else path.replace("..", f"{name}.antt")


general, own = {}, {}
for line in text("docs/READINGS.md").splitlines():
    if line.startswith("## "):
        own = {}
    elif line.startswith("Short names: "):
        general = dict(shorts(line))
    else:
        own.update(shorts(line))
    for piece in re.split(r"; |, (?=[A-Z]\w* `)", re.sub(r" \([^)]*\)", "", line.split(" | ")[1].split(": ")[0])) if line.startswith("| ") else []:
        at = re.match(r"(\w+) `", piece)
        path = {**general, **own}.get(at[1]) if at else None
        if at and not path and re.fullmatch(r"[A-Z][a-z]+", at[1]):
            tell("docs/READINGS.md", f"no file has the short name {at[1]}")
        for name in re.findall(r"`([^\W\d][\w·-]*)", piece) if path else []:
            if not os.path.exists("crates/" + path) or not re.search(rf"(?m)^ *(?:(?:pub|abbrev|unfoldable|data|record|struct) )*{re.escape(name)}(?![\w·-])", text("crates/" + path)):
                tell("docs/READINGS.md", f"no {name} in {path}")

# ---- a public function has no `requires`, and its `ensures` cites no definition that only helps
public, crate = {"aoc": None}, None
for row in text(ARCHITECTURE).split("## What is public")[1].split("\n## ")[0].splitlines():
    for name in re.findall(r"`([\w:]+)`", row.split("|")[1]) if row.startswith("| `") else []:
        crate = name.split("::")[0] if "::" in name else crate
        public.setdefault(crate, set()).add(name.split("::")[-1])
for crate, functions in public.items():
    if crate not in code:
        tell(ARCHITECTURE, f"no crate {crate}")
        continue
    cited = re.findall(r"ghost use Rattle\.([a-z_]+)\.specs\.((?:inner\.)?[A-Za-z]+)(?:\.[A-Za-z]+)?\.\{([^}]*)\}", code[crate])
    stand = {name.strip(): f"{of}/specs/{file.replace('.', '/')}.antt" for of, file, names in cited for name in names.split(",")}
    for head in re.finditer(r"pub (?:extern \"C\" )?fn (\w+)\((?:.|\n)*?\n\s*\{\n", code[crate]):
        if functions is not None and head[1] not in functions:
            continue
        if "requires" in head[0]:
            tell(ARCHITECTURE, f"{crate}::{head[1]} is public and has a requires")
        for name in sorted(set(re.findall(r"[^\W\d][\w·-]*", " ".join(re.findall(r"ensures[^\n]*", head[0]))))):
            if stand.get(name) in helping:
                tell(ARCHITECTURE, f"{crate}::{head[1]} is public and cites {name} of {stand[name]}, which is not to be believed")

# ---- a landing's note is short, and gives the time of the check before and after
for page in sorted(glob.glob("docs/landings/*.md")):
    if not re.search(r"(?m)^Check: [0-9.,]+ s before, [0-9.,]+ s after", text(page)):
        tell(page, "no line 'Check: N s before, M s after'")
    if len(text(page).split()) > 500:
        tell(page, f"{len(text(page).split())} words, 500 at most")

# ---- links, and files that are named by their path
for page in pages + sorted(glob.glob("docs/landings/*.md")):
    for link in re.findall(r"\]\(([^)#:]+)\)", text(page)):
        if not os.path.exists(os.path.join(os.path.dirname(page), link)):
            tell(page, f"no page {link}")
for page in pages:
    for path in set(re.findall(r"`([a-z_]+/(?:specs|proofs|src)/[\w/]+\.(?:antt|rt))`", text(page))):
        if not os.path.exists("crates/" + path):
            tell(page, f"no file {path}")
    for path in set(re.findall(r"`((?:docs|tests|tools|second|examples|bench|include|bindings)/[\w./-]+\.\w+)`", text(page))):
        if not os.path.exists(path):
            tell(page, f"no file {path}")

# ---- what a page shows of a program's output stands in the file that the program's test compares, in this order
shown = 0
for page in pages:
    blocks = re.findall(r"(?:^|\n)([^\n]+)\n\n((?:    [^\n]*\n)+)", text(page))
    for (_, command), (words, output) in zip(blocks, blocks[1:]):
        last = command.splitlines()[-1].strip()
        given = re.search(r"\./run (\w+)[^<|]*(?:< (\S+))?$", last)
        if not given or "print" not in words or not words.endswith(":"):
            continue
        kept = "examples/capture/night.out" if "|" in last else f"examples/{given[1]}.out" if not given[2] else \
            given[2].replace("stdin", "stdout").replace(".txt", ".out")
        left = iter(text(kept).splitlines())
        for line in output.splitlines():
            if line[4:] not in left:
                tell(page, f"{kept} does not have, behind the lines before it: {line[4:]}")
        shown += 1
if shown < 8:
    tell("README.md", f"{shown} outputs of programs are found on the pages, at least 8 are there")

print("\n".join(wrong), end="\n" if wrong else "")
print(f"pages: {len(pages)}, {len(crates)} crates, {len(files)} files of definitions, {len(edits)} edits, {len(exports)} exports; {len(wrong)} wrong")
sys.exit(1 if wrong or len(believed) < 20 or len(edits) < 100 else 0)
PYTHON
