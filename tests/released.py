"""What a host may rely on in the headers, held against the list of the last release (tests/released.txt): names, numbers,
functions, structs and their layout. The version has to have moved as docs/HOST.md says.

python3 tests/released.py          compares
python3 tests/released.py write    makes the list anew: at a release, and only then"""
import re
import sys

LIST = "tests/released.txt"
# what code compiled with the headers has taken in
LAYOUT = ("struct", "layout", "part")


def text(path):
    with open(path, encoding="utf-8") as file:
        return file.read()


def plain(path):
    """A header without comments, continued lines joined, each blank one space."""
    return re.sub(r"[ \t]+", " ", re.sub(r"/\*.*?\*/", " ", text(path).replace("\\\n", " "), flags=re.S))


def one_line(code):
    return re.sub(r" ?([(),;*{}\[\]]) ?", r"\1", " ".join(code.split()))


# inline in the header or not, a host calls it alike
HEAD = r"^(?:static inline |[A-Z_]+ )?((?:const )?[a-z]\w+ \*?aoc_%s\([^{};]*\))"


def functions(code, names=r"\w+", behind="(?=;)"):
    return [one_line(found[1]) for found in re.finditer(HEAD % names + behind, code, re.M)]


def structs(code):
    return [f"{found[2]} {one_line(found[1])}" for found in re.finditer(r"typedef struct (\{(?:[^{}]|\{[^{}]*\})*\}) (\w+);", code)]


def facts():
    header, parts, words = plain("include/aoc.h"), plain("include/aoc_parts.h"), plain("include/aoc_text.h")
    found = {f"function {line}" for line in functions(header)}
    found |= {f"function {line}" for line in functions(words, r"(?:\w+_text|print_\w+)", "")}
    found |= {f"constant {name} {number}" for name, number in re.findall(r"\bROW\((AOC_\w+), (\d+),", header)}
    for body in re.findall(r"\benum (\{[^{}]*\})", header):
        found |= {f"constant {name} {int(number, 0)}" for name, number in re.findall(r"\b(AOC_\w+) = (\w+)", body)}
    found |= {f"struct {line}" for line in structs(header)} | {f"part {line}" for line in structs(parts)}
    found |= {f"part {line}" for line in functions(parts) if "aoc_layout_" not in line}
    for line in re.findall(r"^AOC_LAYOUT\((.*)\);", parts, re.M):
        found |= {f"layout {one_line(fact)}" for fact in line.split(" && ")}
    return found


def three(version):
    return tuple(int(number) for number in version.split("."))


def main(arguments):
    header = text("include/aoc.h")
    version = re.search(r'^#define AOC_VERSION_TEXT "([\d.]+)"', header, re.M)[1]
    number = int(re.search(r"^#define AOC_VERSION (\d+)", header, re.M)[1])
    layout = re.search(r"\baoc_layout_(\d+)\(void\)", text("include/aoc_parts.h"))[1]
    exports = text("crates/aoc/src/lib.rt")
    now = facts()
    if arguments == ["write"]:
        with open(LIST, "w", encoding="utf-8") as file:
            print(f"version {version}", f"layout-number {layout}", *sorted(now), sep="\n", file=file)
        return 0
    wrong = []
    first, second, third = three(version)
    if number != 10000 * first + 100 * second + third:
        wrong.append(f"AOC_VERSION is {number}, AOC_VERSION_TEXT {version}")
    if not re.search(rf"fn aoc_version\(\) -> u32\s+ensures \{{ result ≡ {number} \}}", exports):
        wrong.append(f"aoc_version of crates/aoc/src/lib.rt is not {number}")
    if not re.search(rf"fn aoc_layout_{layout}\(\) -> u32\s+ensures \{{ result ≡ {layout} \}}", exports):
        wrong.append(f"no aoc_layout_{layout} in crates/aoc/src/lib.rt")
    if not re.search(rf"^## {re.escape(version)}\b", text("CHANGELOG.md"), re.M):
        wrong.append(f"CHANGELOG.md has no {version}")
    released = text(LIST).splitlines()
    before, layout_before = three(released[0].split()[1]), int(released[1].split()[1])
    then = set(released[2:])
    gone, new = sorted(then - now), sorted(now - then)
    if gone and first <= before[0]:
        wrong += [f"gone or changed since {released[0]}, so that the first number moves: {line}" for line in gone]
    elif new and (first, second) <= before[:2]:
        wrong += [f"new since {released[0]}, so that the second number moves: {line}" for line in new]
    elif (first, second, third) < before:
        wrong.append(f"{version} is before {released[0]}")
    if any(line.split()[0] in LAYOUT for line in gone) and not (layout_before < int(layout) == first):
        wrong.append(f"the layout is another one: aoc_layout_{layout} becomes aoc_layout_{max(first, before[0] + 1)}, in the library and in aoc_parts.h")
    print("\n".join(wrong), end="\n" if wrong else "")
    print(f"released: {len(now)} facts, {len(gone)} gone and {len(new)} new since {released[0]}; now {version}, layout {layout}")
    return 1 if wrong or len(now) < 200 else 0


if __name__ == "__main__":
    sys.exit(main(sys.argv[1:]))
