"""Lines for a line program: python3 tests/line_inputs.py SEED INPUTS TEXT ANSWERS [trunks]

Each component of INPUTS (the lines of second/inputs.py that begin with R, or of trunks those with Q and the profile octet) becomes a line of TEXT,
some with a fault of style in it, some overlong; ANSWERS is what the second program prints for TEXT. The last line has no LF."""

import random
import sys

sys.path.insert(0, "second")
import aoc
import trunks

ODD = (b" ", b"  ", b"\t", b"\0", b"\r", b"\xFF", b"g", b"G", b"x", b":", b"@", b"`", b"/", b"0", b"a", b"F")


def insert(rng, line):
    i = rng.randrange(len(line) + 1)
    return line[:i] + rng.choice(ODD) + line[i:]


def drop(rng, line):
    i = rng.randrange(len(line) + 1)
    return line[:i] + line[i + 1:]


FAULTS = (
    insert, insert, insert, drop,
    lambda rng, line: b" " + line,
    lambda rng, line: line + b" ",
    lambda rng, line: line + b"\r",
    lambda rng, line: line + b" 0",
    lambda rng, line: line.replace(b" ", b""),
    # Long enough to be 3; a fault at the end of such a line is still found.
    lambda rng, line: b" ".join([b"a1"] * rng.choice((254, 255, 256, 300, 3000))),
    lambda rng, line: b" ".join([b"A1"] * rng.choice((255, 1000))) + rng.choice((b" ", b" a", b"g")),
)


def styled(rng, octets):
    line = octets.hex(" ").encode()
    style = rng.random()
    if style < 0.6:
        line = line.upper()
    elif style < 0.7:
        line = bytes(rng.choice((c, c ^ 0x20)) if c >= 0x61 else c for c in line)
    return rng.choice(FAULTS)(rng, line) if rng.random() < 0.08 else line


def main():
    seed, inputs, text, answers, *of = sys.argv[1:]
    kind, last, answer = ("Q", b"9F A1 0A 02 01 01 02 01 3D 30 02 81 00", trunks.answer_line) if of else ("R", b"A1 08 02 01 03 02 01 21 81 00", aoc.answer_line)
    rng = random.Random(seed)
    with open(inputs) as f:
        lines = [styled(rng, bytes.fromhex(line[2:])) for line in f if line[0] == kind]
    rng.shuffle(lines)
    whole = b"\n".join(lines + [last])
    with open(text, "wb") as f:
        f.write(whole)
    with open(answers, "w") as f:
        f.write(aoc.line_program(whole, answer))


main()
