"""The cases of lines.sh. Its arguments are the words that run the program."""

import os
import random
import subprocess
import sys
import time

sys.path.insert(0, "second")
import aoc

RUN = sys.argv[1:]
LONG = 120  # seconds after which a run counts as hanging
passed = failed = 0
beside = b""  # what went to standard error in runs where nothing fails: no proof says to which of the two streams an answer goes


def tell(name, ok, why=""):
    global passed, failed
    passed, failed = passed + ok, failed + (not ok)
    print(f"{'ok     ' if ok else 'DIFFERS'} {name}{why}", flush=True)


def say(text):
    """What the program writes to standard output for an input."""
    global beside
    p = subprocess.run(RUN, input=text, stdout=subprocess.PIPE, stderr=subprocess.PIPE, timeout=LONG)
    beside += p.stderr
    return p.stdout


def compare(name, got, expected):
    if got == expected:
        return tell(name, True)
    at = next((i for i, (a, b) in enumerate(zip(got, expected)) if a != b), min(len(got), len(expected)))
    tell(name, False, f": at octet {at} of the output, {got[at:at + 40]!r} for {expected[at:at + 40]!r}")


def fixed(name, text, expected):
    compare(name, say(text), expected)


def second(name, text):
    compare(name, say(text), aoc.line_program(text).encode())


def text_of(octets):
    return octets.hex(" ").upper().encode()


# ---- components

C1 = b"A1 1A 02 01 01 02 01 21 30 12 A1 0D 81 03 45 55 52 A2 06 81 01 32 82 01 01 82 01 00"
C3 = b"A1 09 02 01 05 02 01 1E 0A 01 01"
C7 = b"A1 0A 02 01 04 02 01 23 30 02 81 00"


def longest():
    """A component of 254 octets that is read: 32 units, their lengths in the longer forms."""
    entries = [bytes.fromhex("30 82 00 04 02 81 01 0C" if i < 11 else "30 81 04 02 81 01 0C") for i in range(32)]
    inner = b"".join(entries)
    inner = b"\xa1\x81" + bytes([len(inner)]) + inner
    inner = b"\x30\x81" + bytes([len(inner)]) + inner
    inner = b"\x30\x81" + bytes([len(inner)]) + inner
    inner = bytes.fromhex("02 01 02 02 01 24") + inner
    return b"\xa1\x82\x00" + bytes([len(inner)]) + inner


FULL = text_of(longest())
assert len(longest()) == 254

# ---- the inputs of document 01, and of its readings (docs/READINGS.md)

with open("crates/lines/stdin", "rb") as f, open("crates/lines/stdout", "rb") as g:
    EXAMPLE, EXPECTED = f.read(), g.read()
fixed("the example of document 01", EXAMPLE, EXPECTED)
fixed("no input", b"", b"")
fixed("a line end alone", b"\n", b"refused 1\n")
fixed("two line ends", b"\n\n", b"refused 1\nrefused 1\n")
fixed("a last line without its end", C3 + b"\n" + C7, C3 + b"\n" + C7 + b"\n")
fixed("a last line that is bad, without its end", C3 + b"\n" + C7 + b" ", C3 + b"\nbad line\n")
fixed("a carriage return", C3 + b"\r\n" + C7 + b"\r", b"bad line\nbad line\n")
fixed("a carriage return alone", b"\r\n", b"bad line\n")
fixed("tabs", b"A1\t09\n\t\nA1 09\t\n", b"bad line\n" * 3)
fixed("a space before, after, twice, alone", b" A1\nA1 \nA1  09\n \n" + C7 + b"\n", b"bad line\n" * 4 + C7 + b"\n")
fixed("one digit, three, no space between", b"A\nA1 0\nA1 009\nA109\n", b"bad line\n" * 4)
fixed("small letters, and both in one line", C1.lower() + b"\n" + C7[:9] + C7[9:].lower() + b"\n", C1 + b"\n" + C7 + b"\n")
fixed("a bad line ends nothing", b"zz\n" + C3 + b"\n\nzz\n" + C7, b"bad line\n" + C3 + b"\nrefused 1\nbad line\n" + C7 + b"\n")
second("every character in every place of an octet and after it",
       b"".join(b"%c1\nA%c\nA1%cA1\n" % (c, c, c) for c in range(256) if c != 10))
second("every octet value alone", b"".join(b"%02X\n%02x\n" % (x, x) for x in range(256)))
second("each refusal", b"\n".join(text_of(bytes.fromhex(x)) for x in (
    "A1", "A180", "A5", "A1090201050201 1E0A01 0100", "A1030201", "A109020105020125050000", "A3060201050201FF", "A109020106020120 02010B")))

fixed("lengths without a number", b"""\
A1 80 02 01 01 02 01 21 30 80 A1 80 81 03 45 55 52 A2 80 81 01 32 82 01 01 00 00 00 00 82 01 00 00 00 00 00
A1 0C 02 01 04 02 01 23 30 80 81 00 00 00
A1 80 02 01 04 02 01 23 30 02 81 00 00 00
A1 80 02 01 05 02 01 1E 0A 01 01
A1 80 02 01 05 02 01 1E 0A 80 01 00 00
""", C1 + b"\n" + C7 + b"\n" + C7 + b"\nrefused 1\nrefused 2\n")
fixed("127 elements in one another", b"A1 80" + b" 30 80" * 126 + b"\nA1 80" + b" 30 80" * 62 + b" 00 00" * 63 + b"\n", b"refused 1\nrefused 6\n")

# ---- long lines

fixed("254 octets that are read", FULL + b"\n", aoc.line_program(FULL).encode())
fixed("255 octets", FULL + b" 00\n", b"refused 3\n")
fixed("255 octets, the last a digit short", FULL + b" 0\n", b"bad line\n")
fixed("254 octets and a space", FULL + b" \n", b"bad line\n")
for n in (253, 254, 255, 256, 257):
    second(f"{n} octets, good and with each bad end", b"".join(b" ".join([b"A1"] * n) + e + b"\n" for e in (b"", b" ", b"  A1", b" A", b"x", b"0", b"\r")))
BIG = b"A1 " * 3_000_000
fixed("a line of 9 MB", BIG + b"A1\n" + EXAMPLE, b"refused 3\n" + EXPECTED)
fixed("a line of 9 MB with a space at its end", BIG + b"\n" + EXAMPLE, b"bad line\n" + EXPECTED)
fixed("a line of 9 MB that nothing ends", BIG + b"A1", b"refused 3\n")
second("answers past the buffer's room", (FULL + b"\n" + C3 + b"\n\nx\n") * 700)
fixed("many lines", EXAMPLE * 40_000, EXPECTED * 40_000)

# ---- random damage, as characters

rng = random.Random(1)
GOOD = [C1, C3, C7, FULL, b"A1 11 02 01 02 02 01 24 30 09 30 07 A1 05 30 03 02 01 0C", b"A3 06 02 01 05 02 01 1A",
        b"A1 80 02 01 05 02 01 1E 0A 01 01 00 00", b"A1 80 02 01 02 02 01 24 30 80 30 80 A1 80 30 80 02 01 0C 00 00 00 00 00 00 00 00 00 00", b""]


def damaged():
    line = bytearray(rng.choice(GOOD))
    for _ in range(rng.choice((0, 1, 1, 2, 5))):
        at = rng.randrange(len(line) + 1)
        kind = rng.randrange(3)
        if kind == 0:
            line[at:at] = bytes([rng.choice(b"0123456789ABCDEFabcdef  \r\tGg/:@`\xff\x00")])
        elif kind == 1:
            del line[at:at + rng.choice((1, 3))]
        else:
            line[at:at + 1] = bytes([rng.choice(b"0123456789ABCDEFabcdef ")])
    return bytes(line).replace(b"\n", b"") + b"\n"


MIXED = b"".join(damaged() for _ in range(8000))
second("8,000 damaged lines", MIXED)

# ---- how the input comes and where the output goes


def fed(pieces, rest):
    """What the program writes where its input comes in pieces, each after a short while."""
    p = subprocess.Popen(RUN, stdin=subprocess.PIPE, stdout=subprocess.PIPE)
    for piece in pieces:
        p.stdin.write(piece)
        p.stdin.flush()
        time.sleep(rest)
    return p.communicate(timeout=LONG)[0]


SMALL = C3 + b"\n\n" + C7.lower() + b"\nA1 \n" + C1
compare("an input that comes octet by octet", fed([SMALL[i:i + 1] for i in range(len(SMALL))], 0.002), aoc.line_program(SMALL).encode())
PIECES = MIXED[:60_000]
cuts = sorted(rng.randrange(len(PIECES)) for _ in range(60))
compare("an input that comes in pieces", fed([PIECES[i:j] for i, j in zip([0] + cuts, cuts + [len(PIECES)])], 0.005), aoc.line_program(PIECES).encode())

p = subprocess.Popen(RUN, stdin=subprocess.PIPE, stdout=subprocess.PIPE)
got = b""
for line in (C3, b"zz", C7):
    p.stdin.write(line + b"\n")
    p.stdin.flush()
    got += p.stdout.readline()
p.communicate(timeout=LONG)
compare("each answer before the next line is given", got, C3 + b"\nbad line\n" + C7 + b"\n")


NO_OUTPUT = b"lines: the output cannot be written\n"
NO_INPUT = b"lines: the input cannot be read\n"


def ends(name, out, says=NO_OUTPUT, **more):
    """The program ends by itself, though its input does not, and says why."""
    source = subprocess.Popen(["yes", C3.decode()], stdout=subprocess.PIPE)
    p = subprocess.Popen(RUN, stdin=source.stdout, stdout=out, stderr=subprocess.PIPE, **more)
    source.stdout.close()
    if out == subprocess.PIPE:
        p.stdout.read(10)
        p.stdout.close()
    try:
        p.wait(timeout=LONG)
        compare(name, p.stderr.read(), says)
    except subprocess.TimeoutExpired:
        p.kill()
        tell(name, False, ": it goes on")
    source.kill()
    source.wait()


if os.path.exists("/dev/full"):
    with open("/dev/full", "wb") as f:
        ends("a full disk ends it", f)
# a program of today's Rattle passes over the signal of a broken pipe, so the failed write ends it, and it says so
ends("a reader that goes away ends it", subprocess.PIPE)
# Python starts its children with that signal set to its default; here it is not.
ends("a reader that goes away ends it, without the signal", subprocess.PIPE, restore_signals=False)
ends("a closed output ends it", None, preexec_fn=lambda: os.close(1))


def unread(name, expected, **more):
    """A read fails: the program says so and ends, with this output."""
    p = subprocess.run(RUN, stdout=subprocess.PIPE, stderr=subprocess.PIPE, timeout=LONG, **more)
    compare(name, p.stdout, expected)
    compare(name + ", and it says so", p.stderr, NO_INPUT)


folder = os.open("tests", os.O_RDONLY)
unread("a folder as the input", b"", stdin=folder)
os.close(folder)
unread("a closed input", b"", preexec_fn=lambda: os.close(0))


# a pipe that does not wait: after what it holds a read fails, though it may go on later
reading, writing = os.pipe()
os.set_blocking(reading, False)
os.write(writing, C3 + b"\n" + C7)
unread("an input that breaks off in a line", C3 + b"\n", stdin=reading)
os.close(reading)
os.close(writing)
compare("where nothing fails, nothing goes to standard error", beside, b"")

print(f"{passed} passed, {failed} failed")
sys.exit(1 if failed else 0)
