"""The line program: document 01."""

from reading import read
from records import LONGEST
from writing import write

HEX = frozenset(b"0123456789abcdefABCDEF")


def octets_of_line(line):
    """The octets of a line; None for a line that is none."""
    pairs = line.split(b" ") if line else []
    if not all(len(pair) == 2 and HEX.issuperset(pair) for pair in pairs):
        return None
    return bytes(int(pair, 16) for pair in pairs)


def answer_line(line):
    """One line, without its LF, of the line program; octets in, text out."""
    octets = octets_of_line(line)
    if octets is None:
        return "bad line"
    number, record = read(octets)
    if number:
        return f"refused {number}"
    return write(record, LONGEST)[1].hex(" ").upper()


def line_program(text, answer=answer_line):
    lines = text.split(b"\n")
    # What follows the last LF is a line only if it has something on it.
    if lines[-1] == b"":
        lines.pop()
    return "".join(answer(line) + "\n" for line in lines)
