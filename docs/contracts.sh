#!/bin/sh
# sh docs/contracts.sh          prints the statement (the head and what it ensures) of each public function, from crates/*/src, and the files of the
#                               definitions that it cites.
# sh docs/contracts.sh write    puts them into docs/CONTRACTS.md, each between the lines that mark it; the first of these lines names its functions.
# sh docs/contracts.sh check    fails where the page has other ones, or where a public function is missing or there twice.
# Which functions are public: docs/ARCHITECTURE.md, the table "What is public".
cd "$(dirname "$0")/.." || exit 2
exec python3 - "$@" <<'PYTHON'
import glob
import re
import sys

PAGE, LIST = "docs/CONTRACTS.md", "docs/ARCHITECTURE.md"
BEGIN, END = "<!-- printed by docs/contracts.sh: ", "<!-- end of what is printed -->"


def read(path):
    with open(path, encoding="utf-8") as file:
        return file.read()


def full(names, crate=None):
    """crate::name for each name; one without a crate is in the crate of the name before it."""
    for name in names:
        crate, _, own = name.rpartition("::") if "::" in name else (crate, "", name)
        yield f"{crate}::{own}"


crates = {line.split(":")[0].split()[0] for line in read("crates.txt").splitlines() if ":" in line.split("#")[0]}
sources = {crate: "\n".join(map(read, sorted(glob.glob(f"crates/{crate}/src/**/*.rt", recursive=True)))) for crate in crates}
wrong = []


def statement(name):
    """The head of a function as the source has it, up to its body, at the left margin."""
    crate, function = name.split("::")
    heads = re.findall(rf"(?ms)^( *)(pub fn {function}\(.*?)^\1\{{$", sources.get(crate, ""))
    if len(heads) != 1 or "ensures" not in heads[0][1]:
        wrong.append(f"{name}: {len(heads)} public functions of that name, with what they ensure")
        return f"{name}: no statement\n"
    indent, head = heads[0]
    return re.sub(rf"(?m)^{indent}", "", head)


def definitions(name, text):
    """The definitions of the project that a statement cites, each with its file. A name after a dot is a field."""
    cited = re.findall(r"(?<![\w.«])[^\W\d][\w'-]*", re.sub(r"ensures \w* ?\{", "", text[text.find("ensures"):]))
    for crate, file, names in re.findall(r"ghost use Rattle\.([a-z_]+)\.specs\.((?:inner\.)?\w+)\.\{([^}]*)\}", sources[name.split("::")[0]]):
        for own in re.split(r",\s*", names.strip()):
            if own in cited and crate in crates:
                yield f"{crate}/specs/{file.replace(chr(46), chr(47))}.antt", own


def printed(names):
    heads = {name: statement(name) for name in names}
    files = {}
    for name, head in heads.items():
        for file, own in definitions(name, head):
            files.setdefault(file, {})[f"`{own}`"] = None
    where = "; ".join(f"{', '.join(files[file])} in `{file}`" for file in files)
    return "```rust\n" + "\n".join(heads.values()) + f"```\n\nDefinitions: {where}.\n"


# ---- what is public: functions; a type and a constant have no statement
public = []
for row in read(LIST).split("## What is public")[1].split("\n## ")[0].splitlines():
    if re.match(r"(?:\| )?`.* \| ", row):  # with or without bars at its ends
        before = public[-1].split("::")[0] if public else None
        for name in full(re.findall(r"`([\w:]+)`", row.removeprefix("| ").split("|")[0]), before):
            crate, own = name.split("::")
            if re.search(rf"\bpub fn {own}\(", sources.get(crate, "")):
                public.append(name)
            elif own not in crates and not re.search(rf"\bpub (?:struct|const) {own}\b", sources.get(crate, "")):
                wrong.append(f"{LIST}: no public function {name}")

# ---- the page, with every printed part as it should be
page, new, there, inside = read(PAGE), [], [], False
for line in page.splitlines(keepends=True):
    if line.startswith(BEGIN):
        names = list(full(line[len(BEGIN):line.index(" -->")].split(", ")))
        there += names
        new.append(line + printed(names))
        inside = True
    elif line.startswith(END):
        new.append(line)
        inside = False
    elif not inside:
        new.append(line)
if inside:
    sys.exit(f"contracts: {PAGE} lacks the last line '{END}'")
wrong += [f"{PAGE}: {name} is public and not there" for name in public if name not in there]
wrong += [f"{PAGE}: {name} is not public" for name in there if name not in public]
wrong += [f"{PAGE}: {name} is there twice" for name in sorted(set(there)) if there.count(name) > 1]

what = sys.argv[1] if len(sys.argv) > 1 else ""
if what == "write":
    with open(PAGE, "w", encoding="utf-8") as file:
        file.write("".join(new))
elif what == "check":
    if page != "".join(new):
        wrong.append(f"{PAGE} has other statements than crates/*/src: 'sh docs/contracts.sh write' puts them there")
else:
    sys.stdout.write("".join(f"{name}\n{printed([name])}" for name in public))
if wrong or what == "check":
    print("\n".join(wrong + [f"contracts: {len(public)} public functions, {len(wrong)} wrong"]))
sys.exit(1 if wrong or not public else 0)
PYTHON
