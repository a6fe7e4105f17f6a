#!/bin/sh
# sh docs/landing.sh BEFORE AFTER [BEFORE_LOGS AFTER_LOGS]
#     prints the tables of a landing's note: what moved and what stayed between two commits, and the seconds of the check before and
#     after. A commit may be a tree (`git write-tree`: what is staged). The logs are two copies of target/log, which older kits than
#     rattle-kit-13f wrote; today's `rt` tells no seconds.
# sh docs/landing.sh write FILE BEFORE AFTER [BEFORE_LOGS AFTER_LOGS]
#     puts them into FILE: in place of its line <!-- tables -->, or between that line and <!-- /tables -->.
#
# Moved means: another text. Comments, imports, layout and the names of renamed crates do not count, nor does the file.
# A definition is a name of specs/ with all its text, or a struct or enum of src/. A promise is a function's head: its
# parameters, result, `requires` and `ensures`. A theorem's statement is its signature with the section that it stands in.
exec python3 - "$(dirname "$0")/.." "$@" <<'PYTHON'
import collections, io, os, re, subprocess, sys, tarfile

root, words = sys.argv[1], sys.argv[2:]
page = words[1] if words[:1] == ["write"] else None
words = words[2:] if page else words
if len(words) not in (2, 4):
    sys.exit("landing: BEFORE AFTER [BEFORE_LOGS AFTER_LOGS]")
before, after = words[:2]
logs = words[2:] or [None, None]


def git(*arguments):
    return subprocess.run(["git", "-C", root, *arguments], stdout=subprocess.PIPE, check=True).stdout


def files(commit):
    """Every file below crates/, by its path from there."""
    with tarfile.open(fileobj=io.BytesIO(git("archive", commit, "crates"))) as tar:
        return {m.name[7:]: tar.extractfile(m).read().decode() for m in tar if m.isfile() and m.name.split("/")[2:3] != ["out"]}


def moved_files():
    """(state, path before, path after) of each file that changed."""
    fields = git("diff", "-M", "--name-status", "-z", before, after, "--", "crates").decode().split("\0")[:-1]
    while fields:
        state, old = fields.pop(0)[0], fields.pop(0)[7:]
        yield state, old, fields.pop(0)[7:] if state == "R" else old


def renamed_crates(old, new):
    """The names of crates before that have another after: where most of their files went."""
    crates = [{p.split("/")[0] for p in side} for side in (old, new)]
    votes = collections.Counter((a.split("/")[0], b.split("/")[0]) for state, a, b in moved_files() if state == "R")
    names = {}
    for (a, b), _ in votes.most_common():
        if a not in crates[1] and b not in crates[0]:
            names.setdefault(a, b)
    return names


def declared(text):
    """The names that a file of antt declares: (signature, all of it)."""
    found, sections, name, head = {}, [], None, None
    for line in text.splitlines():
        line = re.sub(r"(^|\s)--(\s.*)?$", "", line).rstrip()
        bare = line.lstrip()
        depth = len(line) - len(bare)
        if not bare or re.match(r"(pub )?(use|mod) ", line):
            continue
        if head is None:
            while sections and depth <= sections[-1][0]:
                sections.pop()
        if head is not None or bare.startswith("module _"):
            head = (head[0], head[1] + " " + bare) if head else (depth, " " + bare)
            if bare.endswith("where"):
                sections.append(head)
                head = None
            continue
        new = re.match(r"(?:(?:abbrev|unfoldable|pub) )*(data |record |ruleset )?(\S+)(?=.*[:=])", bare)
        at_level = depth == (sections[-1][0] + 2 if sections else 0)
        if at_level and new and (new[1] or re.match(r"\S+ : |\S+ :$", bare[new.start(2):])):
            name, whole = new[2], bool(new[1])
            found[name] = ["".join(h for _, h in sections), ""]
            open_head = True
        elif name is None:
            continue
        elif at_level and not whole:
            open_head = False
        found[name][1 - open_head] += " " + bare
    return {n: (squeezed(s), squeezed(s + r)) for n, (s, r) in found.items()}


def squeezed(text):
    return " ".join(text.split())


def heads(text):
    """The functions of a file of Rattle, by name: their heads. And its structs and enums: their text."""
    functions, types, owner, taken, close = {}, {}, "", None, None
    for line in text.splitlines():
        line = re.sub(r"(^|\s)//.*$", "", line).rstrip()
        start = re.match(r'(\s*)(?:pub )?(?:extern "C" )?(?:fn|(struct|enum)) (\w+)', line)
        if taken is None and start:
            kind = types if start[2] else functions
            taken, close = owner + start[3], start[1] + ("}" if start[2] else "{")
            kind[taken] = ""
        elif taken is None:
            owner = line.split()[1] + "::" if line.startswith("impl ") else "" if line == "}" else owner
            continue
        if kind is types or line != close:
            kind[taken] += " " + line
        if line == close or line.endswith(";" if kind is types else "{") and not re.match(r"\s*(requires|ensures) ", line):
            taken = None
    return {n: squeezed(t) for n, t in functions.items()}, {n: squeezed(t) for n, t in types.items()}


def gathered(side, names):
    """Definitions, promises, statements and edits: {group: {name: text}}, the group a file or a crate."""
    kinds = [collections.defaultdict(dict) for _ in range(4)]
    for path, text in sorted(side.items()):
        crate, _, rest = path.partition("/")
        crate = names.get(crate, crate)
        for a, b in names.items():
            text = re.sub(rf"\b{a}\b(?=::|\.|·)", b, text)
        place = f"{crate}/{rest}"
        if rest.endswith(".antt") and not rest.endswith(("/Proof.antt", "/Answers.antt", "/Invariants.antt", "/Lib.antt")):
            part = 0 if rest.startswith("specs/") else 2
            kinds[part][place].update({n: t[1 if part == 0 else 0] for n, t in declared(text).items()})
        elif rest.startswith("src/"):
            module = "" if rest in ("src/lib.rt", "src/main.rt") else rest[4:-3].replace("/", "::") + "::"
            functions, types = heads(text)
            kinds[0][place].update(types)
            kinds[1][crate].update({module + n: t for n, t in functions.items()})
        elif rest.startswith("must-fail/"):
            kinds[3][crate][rest[10:-5]] = text
    return kinds


class Moves:
    """What was added, changed, removed and stayed, by group. What is only in another group, with the same text, stayed."""

    def __init__(self, old, new):
        self.rows, elsewhere = {}, collections.Counter()
        for g in new:
            elsewhere.update((n, t) for n, t in new[g].items() if n not in old.get(g, {}))
        gone = collections.Counter((n, t) for g in old for n, t in old[g].items() if n not in new.get(g, {}))
        both = elsewhere & gone
        for g in sorted(set(old) | set(new)):
            a, b = old.get(g, {}), new.get(g, {})
            came = {n for n in b if n not in a and both[n, b[n]]}
            left = {n for n in a if n not in b and both[n, a[n]]}
            self.rows[g] = (
                [n for n in b if n not in a and n not in came],
                [n for n in b if n in a and a[n] != b[n]],
                [n for n in a if n not in b and n not in left],
                [n for n in b if n in came or a.get(n) == b[n]],
                came | left,
            )

    def count(self):
        return [sum(len(r[i]) for r in self.rows.values()) for i in range(4)]

    def moved(self, changed=()):
        return {g: r for g, r in self.rows.items() if any(r[:3]) or r[4] or g in changed}


def listed(names):
    return ", ".join(f"`{n}`" for n in names)


def table(head, rows):
    print("| " + " | ".join(head) + " |\n" + "|---" * len(head) + "|")
    for r in rows:
        print("| " + " | ".join(str(c) for c in r) + " |")


def section(title, moves, what, changed=(), name="File", stay=listed):
    print(f"\n### {title}\n")
    rows = moves.moved(changed)
    if rows:
        table([name, "Added", "Changed", "Removed", "Stayed"], [[f"`{g}`", *map(listed, r[:3]), stay(r[3])] for g, r in rows.items()])
    rest = [r for g, r in moves.rows.items() if g not in rows]
    print(f"\n{sum(len(r[3]) for r in rest)} {what} in {len(rest)} other {name.lower()}s stayed." if rows else f"None moved: all {sum(len(r[3]) for r in rest)} {what} stayed.")


def seconds(folder):
    times = {}
    for entry in os.listdir(folder) if folder else ():
        with open(os.path.join(folder, entry), errors="replace") as log:
            for m in re.finditer(r"^rt: (\w+) proved \((\d+) s\)", log.read() if entry.endswith(".out") else "", re.M):
                times[m[1]] = int(m[2])
    return times


def total(times, crates):
    """Of all crates, or of those that have a log, and how many these are."""
    return sum(times.values()) if len(times) == len(crates) else f"{sum(times.values())} ({len(times)} crates)" if times else "-"


def main():
    sides = [files(before), files(after)]
    names = renamed_crates(*sides)
    old, new = gathered(sides[0], names), gathered(sides[1], {})
    definitions, promises, statements, edits = (Moves(a, b) for a, b in zip(old, new))
    lines, proofs = collections.Counter(), collections.defaultdict(lambda: [0, 0])
    fields = git("diff", "-M", "--numstat", "-z", before, after, "--", "crates").decode().split("\0")[:-1]
    while fields:
        plus, minus, path = fields.pop(0).split("\t")
        if not path:  # renamed: the path before and the path after follow
            fields.pop(0)
            path = fields.pop(0)
        if (plus, minus) == ("0", "0"):
            continue
        crate, part, rest = (path[7:] + "/").split("/", 2)
        for i, n in enumerate((int(plus), int(minus))):
            lines[part, i] += n
            if part == "proofs":
                proofs[f"{names.get(crate, crate)}/proofs/{rest[:-1]}"][i] += n
    was, now = ({re.sub(r"^\w+", lambda m: renamed.get(m[0], m[0]), p) for p in side if "/proofs/" in p} for side, renamed in zip(sides, (names, {})))
    state = {p: "changed" if p in was and p in now else "added" if p in now else "removed" for p in proofs}
    states = ("added", "changed", "removed")
    files_of = collections.Counter(state.values())

    counts = {
        "definitions": (definitions.count(), "specs"),
        "promises": (promises.count(), "src"),
        "theorems' statements": (statements.count(), None),
        "proof files": ([*(files_of[s] for s in states), len(now) - files_of["added"] - files_of["changed"]], "proofs"),
        "must-fail edits": (edits.count(), "must-fail"),
    }
    print("In all, added, changed, removed, stayed (lines added, removed): " + "; ".join(
        f"{what} " + ", ".join(map(str, count)) + (f" ({lines[of, 0]}, {lines[of, 1]})" if of else "") for what, (count, of) in counts.items()) + ".")
    if names:
        print("\nCrates renamed: " + ", ".join(f"`{a}` is `{b}`" for a, b in sorted(names.items())) + ".")
    section("Definitions", definitions, "definitions")
    changed = {names.get(a.split("/")[0], b.split("/")[0]) for _, a, b in moved_files() if "/src/" in b}
    section("Promises", promises, "promises", changed, "Crate")
    section("Theorems' statements", statements, "statements", stay=len)

    print("\n### Proofs\n")
    if len(proofs) <= 60:
        table(["File", "", "Lines added", "Lines removed"], [[f"`{p}`", state[p], *n] for p, n in sorted(proofs.items())])
    else:
        crates = collections.defaultdict(collections.Counter)
        for p, (plus, minus) in proofs.items():
            crates[p.split("/")[0]].update({state[p]: 1, "+": plus, "-": minus})
        table(["Crate", "Files added", "Changed", "Removed", "Lines added", "Lines removed"], [[f"`{c}`", *(n[s] for s in (*states, "+", "-"))] for c, n in sorted(crates.items())])

    print("\n### Must-fail edits\n")
    said = lambda crate, name: squeezed((new[3].get(crate, {}).get(name) or old[3][crate][name]).splitlines()[0].lstrip("# "))
    rows = [[f"`{c}/{n}`", how, said(c, n)] for c, r in edits.moved().items() for how, part in zip(states, r) for n in part]
    table(["Edit", "", "The wrong program"], rows) if rows else print("None moved.")

    if logs[0]:
        print("\n### Seconds of the check\n")
        first, last = ({names.get(c, c): s for c, s in seconds(f).items()} for f in logs)
        order = list(dict.fromkeys([*first, *last]))
        order.sort(key=lambda c: -max(first.get(c, 0), last.get(c, 0)))
        table(["Crate", "Before", "After"], [*([f"`{c}`", first.get(c, "-"), last.get(c, "-")] for c in order), ["all", *(total(side, order) for side in (first, last))]])


if not page:
    main()
    sys.exit()
stdout, sys.stdout = sys.stdout, io.StringIO()
main()
tables, sys.stdout = sys.stdout.getvalue(), stdout
with open(page) as f:
    text = f.read()
start, end = "<!-- tables -->\n", "<!-- /tables -->\n"
if start not in text:
    sys.exit(f"landing: {page} has no line <!-- tables -->")
head, rest = text.split(start, 1)
rest = rest.split(end, 1)[1] if end in rest else rest
with open(page, "w") as f:
    f.write(head + start + "\n" + tables + "\n" + end + rest)
PYTHON
