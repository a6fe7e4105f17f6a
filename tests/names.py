"""No name is defined in two of the files that docs/TRUST.md lists as to be believed, and each of them is there. Constructors count too: those
that another file has as well are the ones that TRUST.md names."""
import collections
import os
import re
import sys

ROW = re.compile(r"^`([a-z_]+/specs/[A-Za-z]+\.antt)` \|")
# a definition at the margin, or one step in where a section's parameters stand before it
MARGIN = re.compile(r"^(?:abbrev |unfoldable )?(?:pub )?(?:data |record )?([^\s:(){}|=,-][^\s:(){}=,]*)(?: [({].*)? :(?: |$)")
SECTION = re.compile(r"^  (?:abbrev|unfoldable) (?:pub )?([^\s:(){}]+) :(?: |$)")
DATA = re.compile(r"^(?:pub )?data ")
CONSTRUCTORS = re.compile(r"^  ((?:[^\s:(){}|=,-][^\s:(){}=,]* )+):(?: |$)")
SHARED = re.compile(r"but for (\w+) that are constructors in one file at least: ((?:`[^`]+`(?:, )?)+)")
NUMBERS = "none one two three four five six seven eight nine ten eleven twelve".split()


def believed():
    with open("docs/TRUST.md", encoding="utf-8") as page:
        return [os.path.join("crates", found.group(1)) for found in map(ROW.match, page) if found]


def names(path):
    """Each name that a file defines, and whether it is a constructor."""
    with open(path, encoding="utf-8") as text:
        inside = False
        for line in text:
            if not line.startswith(" ") and line.strip():
                inside = bool(DATA.match(line))
            found = inside and CONSTRUCTORS.match(line)
            for name in found.group(1).split() if found else []:
                yield name, True
            found = None if found else MARGIN.match(line) or SECTION.match(line)
            if found:
                yield found.group(1), False


def shared():
    """The names that TRUST.md says two files have, as a constructor in one at least; their count is said too."""
    with open("docs/TRUST.md", encoding="utf-8") as page:
        said = SHARED.search(page.read())
    found = re.findall(r"`([^`]+)`", said.group(2)) if said else []
    return set(found) if said and NUMBERS.index(said.group(1)) == len(found) else None


def main():
    files = believed()
    places, made = collections.defaultdict(set), set()
    for path in files:
        for name, constructor in names(path):
            places[name].add(path)
            if constructor:
                made.add(name)
    twice = {name for name in places if len(places[name]) > 1}
    said = shared()
    if said is None:
        print("docs/TRUST.md does not say, with their number, which names two files have, as a constructor in one at least")
    wrong = (twice & made) ^ (said or set()) | twice - made
    for name in sorted(wrong):
        print(f"{name}: {', '.join(sorted(places[name]))}" if name in twice else f"{name}: docs/TRUST.md says that two files have it")
    print(f"names: {len(places)}, {len(made)} of them constructors, in {len(files)} files; {len(said or ())} told in docs/TRUST.md, {len(wrong)} wrong")
    return 1 if wrong or said is None or len(files) < 20 or len(places) < 300 or len(made) < 30 else 0


if __name__ == "__main__":
    sys.exit(main())
