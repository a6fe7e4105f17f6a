#!/bin/sh
# sh docs/edits.sh          prints docs/EDITS.md with its lines from what the last gate's `rt ci` said of each edit (target/edits): the wrong
#                           program, and the fact at which the prover stopped.
# sh docs/edits.sh write    puts that into docs/EDITS.md.
# `rt must-fail >target/edits` at the top of the repository says the same of all edits, without the gate.
# It fails, and writes nothing, where an edit has no line, is bad or not refused, or is refused only because a proof file names what the edit took away.
cd "$(dirname "$0")/.." || exit 2
exec python3 - "$@" <<'PYTHON'
import glob
import os
import re
import sys

PAGE, SAID = "docs/EDITS.md", "target/edits"


def read(path):
    with open(path, encoding="utf-8") as file:
        return file.read()


def function_at(crate, path, line):
    """The function that stands at a line of a source; an edit is one line for one line, so the unedited text has it there too."""
    lines = read(f"crates/{crate}/{path}").splitlines()
    module = re.sub(r"^src/(?:lib|main)?|(?:/mod)?\.rt$", "", path).replace("/", "::")
    heads = [re.match(r'\s*(?:pub )?(?:unsafe )?(?:extern "C" )?fn (\w+)', text) for text in lines]
    at = min(line, len(lines)) - 1
    while at + 1 < len(lines) and re.match(r"\s*(#\[|//|$)", lines[at]):  # a place above a head is that function's
        at += 1
    head = next((heads[i] for i in range(at, -1, -1) if heads[i]), None)
    return path if not head else f"{module}::{head[1]}" if module else head[1]


def fact(crate, told):
    """Where the prover stopped, of the line that rt says of an edit."""
    if "refused, as it must be" not in told:
        raise ValueError(told[:120])
    if "only because a proof file names" in told:
        raise ValueError("refused by its shape, which shows nothing")
    limit = "only by a limit" in told
    told = told.split("refused, as it must be", 1)[1]
    told = re.sub(r"^(?: \([^:]*\))?: ?(?:note: )?", "", told)
    place = re.match(r"(?:\./)?(\S+?):(\d+):\d+: (.*)", told)
    if not place:
        return "limit of the prover" if limit else "it is not proved"
    path, line, says = place[1], int(place[2]), re.sub(r"^error: ", "", place[3])
    need = re.search(r"\(`([^`]+)`\)", says) or re.match(r"`([^`]+)`", says)
    if path.startswith("src/"):
        where = f"`{function_at(crate, path, line)}`"
    else:
        of = re.match(r"proofs/(.+)/(?:Answers|Invariants|Proof)\.antt$", path)
        where = f"`{of[1].replace('/', '::')}`" if of else f"`{path}`"
    return where + (f": `{need[1]}`" if need else "") + ("; a limit of the prover" if limit else "")


if not os.path.exists(SAID):
    sys.exit(f"no {SAID}: run .ci/run first, or rt must-fail >{SAID}")
said = {f"{crate}/{name}": told for crate, name, told in re.findall(r"(?m)^rt: must-fail (\w+)/(\S+)\.edit: (.*)", read(SAID))}
edits = {"/".join((path.split("/")[1], path.split("/")[3][: -len(".edit")])): path for path in sorted(glob.glob("crates/*/must-fail/*.edit"))}
wrong, new, there = [], [], set()
for line in read(PAGE).splitlines():
    name = re.match(r"- `([^`]+)`", line)
    if not name:
        new.append(line)
        continue
    there.add(name[1])
    try:
        comment = re.sub(r"^# *", "", read(edits[name[1]]).splitlines()[0])
        new.append(f"- `{name[1]}` {comment}. {fact(name[1].split('/')[0], said[name[1]])}")
    except KeyError:
        wrong.append(f"no edit {name[1]}" if name[1] not in edits else f"{SAID} says nothing of {name[1]}: run .ci/run first")
    except ValueError as error:
        wrong.append(f"{name[1]}: {error}")
wrong += [f'{PAGE} has no line for {name}: write "- `{name}`" under its contract' for name in edits if name not in there]
if wrong:
    sys.exit("\n".join(wrong))
text = "\n".join(new) + "\n"
if sys.argv[1:] == ["write"]:
    with open(PAGE, "w", encoding="utf-8") as file:
        file.write(text)
else:
    sys.stdout.write(text)
PYTHON
