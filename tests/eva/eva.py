"""The headers' inline C under Frama-C's Eva: a driver for each inline function, a contract for each export, no alarm, every statement
reached; and wrong indices, put into copies of the headers, are found.

A new inline function of the headers needs a driver in drivers.c and a mark that says which kind it is, a new export a contract in
contracts.h, a new header a line in drivers.c that includes it. This file changes only where an analysis wants more precision (OPTIONS,
SPLITS) or a wrong index no longer fits (WRONG)."""
import glob
import os
import re
import shutil
import subprocess
import sys
import tempfile
import time

# The loop over the characters of words is followed one by one; an invalid pointer is told where it is made, not only where it is used.
OPTIONS = ["-c11", "-machdep", "gcc_x86_64", "-eva", "-eva-precision", "0", "-eva-slevel-function", "aoc_put_words:100",
           "-warn-invalid-pointer", "-eva-msg-key=-initial-state,-final-states"]
# What Frama-C does not read (an attribute), or takes for memory that others change (a volatile that keeps a compiler from a short way).
MACROS = "-DAOC_MUST_USE= -Dvolatile="
# Notes for Eva, put behind these lines of a copy of a header: go through the values of these variables one by one.
SPLITS = {"aoc_parts.h": [("    left = length;\n", ["left"]),
                          ("    rest = length;\n", ["rest"]),
                          ("    at = 0;\n    used = 0;\n", ["at", "used"])]}
# Wrong indices: the function whose driver has to find it, the header, a text of it, and what stands in its place.
WRONG = [
    ("aoc_month_place", "aoc_parts.h", "month->table[service - AOC_SERVICE_D]", "month->table[service - AOC_SERVICE_S]"),
    ("aoc_unit_at", "aoc_parts.h", "index < AOC_LIMIT_UNITS", "index <= AOC_LIMIT_UNITS"),
    ("aoc_take", "aoc_parts.h", "row[5] = count;", "row[6] = count;"),
    ("aoc_replay", "aoc_parts.h", "aoc_step(account, event, octets + (length - left), count",
     "aoc_step(account, event, octets + (length - left) + 1, count"),
    ("aoc_next_facility", "aoc_parts.h", "if (at + 1 >= length ||", "if (at >= length ||"),
    ("aoc_read", "aoc_parts.h", "charge), &charge->numbers, &charge->octets);\n    memcpy(answer, &a,",
     "&charge->association), &charge->numbers, &charge->octets);\n    memcpy(answer, &a,"),
    ("aoc_print_money", "aoc_text.h", "text->length : text->room - 1] = 0", "text->length : text->room] = 0"),
]
MARK = re.compile(r"/\* (Proved|Inline, (?:over a proved function|looks into|computes|prints)|Inline)\b")


def text(path):
    with open(path, encoding="utf-8") as file:
        return file.read()


def spaced(words):
    return " ".join(words.split())


class Headers:
    """The functions of the headers: those marked AOC_INLINE, the other inline ones, and the exports with their prototypes."""

    def __init__(self, more=""):
        self.whole = {path: text(path) for path in sorted(glob.glob("include/*.h"))}
        code = re.sub(r"/\*.*?\*/", "", "\n".join(self.whole.values()) + more, flags=re.S)
        code = re.sub(r"(?m)^#.*(?:\\\n.*)*$", "", code)
        self.inline = set(re.findall(r"(?m)^AOC_INLINE\b[^;{}()]*?\b(\w+)\(", code))
        self.inner = set(re.findall(r"(?m)^static inline\b[^;{}()]*?\b(\w+)\(", code))
        found = re.findall(r"(?m)^(?!AOC_INLINE|static|typedef)(\w[\w ]* \*?(\w+)\([^;{}]*\));", code)
        self.exports = {name: spaced(prototype) for prototype, name in found}

    def unmarked(self):
        """The inline functions that hosts call and whose mark, the last one before their first mention, does not say which kind."""
        for path, code in self.whole.items():
            marks = [(found.start(), found[1]) for found in MARK.finditer(code)]
            seen = set()
            for found in re.finditer(r"(?m)^AOC_INLINE\b[^;{}()]*?\b(\w+)\(", code):
                last = [mark for start, mark in marks if start < found.start()][-1:]
                # the bodies of aoc.h's functions stand in aoc_parts.h
                if found[1] not in seen and "Inline, " not in "".join(last) and not path.endswith("aoc_parts.h"):
                    yield found[1]
                seen.add(found[1])


def differences(headers, contracts, drivers):
    """What the two files lack, or have too much."""
    told = []
    found = re.findall(r"/\*@((?:(?!\*/).)*)\*/\s*(\w[\w ]* \*?(\w+)\([^;{}]*\));", contracts, flags=re.S)
    clauses = {name: clause for clause, _, name in found}
    prototypes = {name: spaced(prototype) for _, prototype, name in found}
    bodies = dict(re.findall(r"(?ms)^static void drive_(\w+)\(void\)\n\{(.*?)^\}", drivers))
    bodies.update((name, name + "(") for name in re.findall(r"(?m)^WORDS\((\w+)\)", drivers))
    driven = {name for name, body in bodies.items() if re.search(rf"\b{name}\(", body)}
    told += [f"{name}: an inline function without a driver (tests/eva/drivers.c)" for name in sorted(headers.inline - driven)]
    told += [f"{name}: a driver of no inline function" for name in sorted(bodies.keys() - headers.inline)]
    told += [f"{name}: an export without a contract (tests/eva/contracts.h)" for name in sorted(headers.exports.keys() - prototypes)]
    told += [f"{name}: a contract of no export" for name in sorted(prototypes.keys() - headers.exports)]
    for name in sorted(prototypes.keys() & headers.exports):
        if prototypes[name] != headers.exports[name]:
            told.append(f"{name}: the contract's prototype is not the header's: {prototypes[name]}")
        if not re.search(r"\bassigns\b", clauses[name]):
            told.append(f"{name}: a contract that does not say what is written")
    return told


def lay(include, changes):
    """A copy of the headers, with the notes for Eva and some texts replaced. Each text has to stand there, one to be replaced once."""
    os.makedirs(include)
    for path in glob.glob("include/*.h"):
        name, code = os.path.basename(path), text(path)
        for old, new in changes.get(name, []):
            if code.count(old) != 1:
                sys.exit(f"eva: {name} does not have this text once: {old}")
            code = code.replace(old, new)
        for line, variables in SPLITS.get(name, []):
            if line not in code:
                sys.exit(f"eva: {name} does not have this line: {line}")
            code = code.replace(line, line + "".join(f"    /*@ dynamic_split {variable}; */\n" for variable in variables))
        with open(os.path.join(include, name), "w", encoding="utf-8") as file:
            file.write(code)


def added(code):
    """How many statements Frama-C may have added to each function behind a return inside a switch, where nothing is reached."""
    counts = {}
    for found in re.finditer(r"(?ms)^(?:__inline )?static [^;{}]*?\b(\w+)\([^;{}]*\)\n\{\n(.*?)^\}", code):
        opened, count = [], 0
        for line in found[2].splitlines():
            if line.strip().startswith("}"):
                opened.pop()
            if line.endswith("{"):
                opened.append(line.strip().startswith("switch ("))
            elif opened and opened[-1] and line.strip() == "goto return_label;":
                count += 1
        counts[found[1]] = count
    return counts


class Analysis:
    """One run of Eva over the drivers of some functions."""

    def __init__(self, work, changes, names):
        include, main_file, code = (os.path.join(work, name) for name in ("include", "main.c", "print.c"))
        shutil.rmtree(include, ignore_errors=True)
        lay(include, changes)
        with open(main_file, "w", encoding="utf-8") as file:
            calls = "".join(f"    drive_{name}();\n" for name in sorted(names))
            file.write(f'#include "drivers.c"\n\nint main(void)\n{{\n{calls}    return 0;\n}}\n')
        began = time.monotonic()
        command = ["frama-c", f"-cpp-extra-args=-I{include} -Itests/eva {MACROS}", *OPTIONS, main_file]
        command += ["-then", "-metrics", "-metrics-eva-cover", "-then", "-print", "-ocode", code]
        done = subprocess.run(command, stdout=subprocess.PIPE, stderr=subprocess.STDOUT, check=False)
        self.seconds = time.monotonic() - began
        self.said = done.stdout.decode().replace(include, "include")
        self.told = re.findall(r"(?m)^\[eva:alarm\].*(?:\n .*)*", self.said)
        alarms = re.search(r"(\d+) alarms? generated", self.said)
        statuses = re.findall(r"(?m)^ +(?:Assertions|Preconditions) +(\d+) valid +(\d+) unknown +(\d+) invalid", self.said)
        if done.returncode or not alarms or len(statuses) != 2:
            sys.exit(f"eva: frama-c gave no result:\n{self.said[-3000:]}")
        self.alarms = int(alarms[1])
        self.held = sum(int(valid) for valid, _, _ in statuses)
        self.open = sum(int(unknown) + int(invalid) for _, unknown, invalid in statuses)
        warned = re.findall(r"by the .*: +(\d+) errors? +(\d+) warnings?", self.said)
        self.warnings = sum(int(errors) + int(warnings) for errors, warnings in warned)
        reached = re.findall(r"(?m)^ +(\w+): (\d+) stmts out of (\d+) ", self.said)
        self.reached = {name: (int(some), int(every)) for name, some, every in reached}
        self.added = added(text(code))


def compare_lists(headers):
    contracts, drivers = text("tests/eva/contracts.h"), text("tests/eva/drivers.c")
    told = differences(headers, contracts, drivers)
    told += [f"{name}: its mark in the header does not say which kind of inline function it is" for name in headers.unmarked()]
    if len(headers.inline) < 40 or len(headers.inner) < 10 or len(headers.exports) < 45:
        told.append("the functions of the headers are not found")
    # one more of each kind is missed
    more = Headers("\nAOC_INLINE int aoc_one(void);\nuint32_t aoc_two(const uint8_t *octets,\n                 size_t length);\n")
    if len(differences(more, contracts, drivers)) != len(differences(headers, contracts, drivers)) + 2:
        told.append("a function without a driver or an export without a contract is not missed")
    # to a compiler, too, the prototypes are the headers'
    command = [os.environ.get("CC", "cc"), "-std=c11", "-Wall", "-Wextra", "-Werror", "-fsyntax-only", "-Iinclude", "-x", "c"]
    if subprocess.run([*command, "tests/eva/contracts.h"], check=False).returncode:
        told.append("tests/eva/contracts.h does not compile")
    if told:
        sys.exit("\n".join(told))


def main():
    headers = Headers()
    compare_lists(headers)
    lists = f"eva: {len(headers.inline)} inline functions have a driver, {len(headers.exports)} exports a contract"
    if not shutil.which("frama-c"):
        print(f"{lists}; not analysed: frama-c is not there")
        return
    functions = sorted(headers.inline | headers.inner)
    with tempfile.TemporaryDirectory() as work:
        whole = Analysis(work, {}, headers.inline)
        if whole.told or whole.alarms or whole.open or whole.warnings:
            print("\n".join(whole.told) or whole.said[-3000:])
            sys.exit(f"eva: {whole.alarms} alarms, {whole.open} properties not shown, {whole.warnings} errors and warnings")
        missed = []
        for name in functions:
            some, every = whole.reached.get(name, (0, 0))
            if not some or every - some > whole.added.get(name, 0):
                missed.append(f"eva: {name}: {some} of {every} statements reached")
        if missed:
            sys.exit("\n".join(missed))
        for name, header, old, new in WRONG:
            wrong = Analysis(work, {header: [(old, new)]}, [name])
            if not wrong.alarms and not wrong.open:
                sys.exit(f"eva: a wrong index is not found in {name}: {new}")
    statements = sum(whole.reached[name][0] for name in functions)
    print(f"{lists}; all {statements} statements of {len(functions)} functions reached, 0 alarms, {whole.held} preconditions and assertions "
          f"hold, {whole.seconds:.0f} s; {len(WRONG)} wrong indices found")


main()
