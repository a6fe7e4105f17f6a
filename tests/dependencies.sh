#!/bin/sh
# Every crate names each crate that its line of crates.txt lists, in src/, specs/ or proofs/: a line says what the crate stands on, and
# what it does not stand on is not to be checked before it.
cd "$(dirname "$0")/.." || exit 2
exec python3 - <<'PYTHON'
import pathlib
import re
import sys

# Listed and never named: an account is handed on whole, and the checker must know each struct in it, the charges of `types` and the
# services of `requests`; and an answer of `read_elements` is handed on.
HELD = {("step", "requests"), ("fault", "requests"), ("why", "requests"), ("board", "types"), ("trunk_write_tests", "read_elements")}

listed, unnamed = 0, set()
for line in pathlib.Path("crates.txt").read_text(encoding="utf-8").splitlines():
    if ":" not in (line := line.split("#")[0]):
        continue
    (crate, *_), needs = (part.split() for part in line.split(":"))  # `NAME staticlib` is a static library
    files = [path for part in ("src", "specs", "proofs") for path in pathlib.Path("crates", crate, part).rglob("*") if path.suffix in (".rt", ".antt")]
    text = "\n".join(re.sub(r"(?m)^\s*(--|//).*", "", path.read_text(encoding="utf-8")) for path in files)
    listed += len(needs)
    # `Rattle.NAME` in a proof or a `ghost use`, `NAME::` in code
    unnamed |= {(crate, need) for need in needs if not re.search(rf"Rattle\.{need}(?!\w)|(?<![\w:.]){need}::", text)}
for crate, need in sorted(unnamed - HELD):
    print(f"crates.txt: {crate} lists {need} and never names it")
for crate, need in sorted(HELD - unnamed):
    print(f"tests/dependencies.sh: {crate} names {need} or does not list it: no exception")
wrong = len(unnamed ^ HELD)
print(f"dependencies: {listed} listed, {len(HELD)} for the checker, {wrong} wrong")
sys.exit(wrong != 0)
PYTHON
