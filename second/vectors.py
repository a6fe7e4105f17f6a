"""Runs the vectors of documents 01 and 02 and self-checks against aoc.py.

python3 vectors.py [COUNT]: COUNT generated components for the self-checks.
"""

import os
import random
import re
import struct
import sys

import answer
import aoc
import fault
import inputs
import board
import make_calls
import make_elements
import make_records
import make_traces
import make_trees
import month
import plain
import price
import trace
import trunks
import why
from aoc import D, E, S

passed = failed = 0


def check(name, got, wanted):
    global passed, failed
    if got == wanted:
        passed += 1
    else:
        failed += 1
        print(f"FAILED {name}: got {got}, wanted {wanted}")


def octets(text):
    return bytes.fromhex(text)


C1 = octets("A1 1A 02 01 01 02 01 21 30 12 A1 0D 81 03 45 55 52 A2 06 81 01 32 82 01 01 82 01 00")
C2 = octets("A1 11 02 01 02 02 01 24 30 09 30 07 A1 05 30 03 02 01 0C")
C3 = octets("A1 09 02 01 05 02 01 1E 0A 01 01")
C3_LOOSE = octets("A1 81 09 02 01 05 02 01 1E 0A 01 01")
C4 = octets("A2 0A 02 01 05 30 05 02 01 1E 05 00")
C5 = octets("A3 06 02 01 05 02 01 1A")
C6 = octets("A1 08 02 01 03 02 01 21 81 00")
C7 = octets("A1 0A 02 01 04 02 01 23 30 02 81 00")
C8 = octets("A1 09 02 01 06 02 01 20 02 01 0A")
C2_THIRTEEN = C2[:-1] + b"\x0D"


def record(frame, id, operation=0, **figure):
    """A record with some fields of its figure; the rest is zero."""
    made = aoc.Record(frame=frame, id=id, operation=operation)
    for name, value in figure.items():
        setattr(made.charge.figure, name, value)
    return made


def units_in(entry):
    """C2 with another unit entry, lengths to match."""
    def wrap(tag, body):
        return bytes((tag, len(body))) + body
    argument = wrap(0x30, wrap(0x30, wrap(0xA1, wrap(0x30, octets(entry)))))
    return wrap(0xA1, octets("02 01 02 02 01 24") + argument)


def components():
    euro = aoc.Money(aoc.Currency(3, [0x45, 0x55, 0x52] + [0] * 7), 1, 50)
    subtotal = record(1, 1, 33, kind=aoc.AMOUNT, money=euro)
    twelve = record(1, 2, 36, kind=aoc.UNITS, count=1)
    twelve.charge.list.numbers[0] = 12
    twelve.charge.list.octets[0] = 1
    asked = record(1, 5, 30)
    asked.detail = D
    error = record(3, 5)
    error.error = 26
    for name, given, wanted in (
            ("C1", C1, subtotal), ("C2", C2, twelve), ("C3", C3, asked),
            ("C3 with 81 09", C3_LOOSE, asked), ("C4", C4, record(2, 5, 30)), ("C5", C5, error),
            ("C6", C6, record(1, 3, 33, kind=aoc.FREE)), ("C7", C7, record(1, 4, 35, kind=aoc.FREE)),
            ("C8", C8, record(1, 6, 32, kind=aoc.ARRANGEMENT, arrangement=10))):
        check(name, aoc.read(given), (0, wanted))
        check(name + " packed", aoc.unpack(aoc.pack(wanted)), wanted)
        # The vectors stand in shortest form, but for the one with 81 09.
        check(name + " written", aoc.write(wanted, 254), (0, C3 if given == C3_LOOSE else given))
        check(name + " in reply", aoc.reply(given, 0), (0, b""))
    check("C1 thousandths", aoc.thousandths(50, 1), 500)
    check("most thousandths", aoc.thousandths(16_777_215, 6), 16_777_215_000_000)

    number, most = aoc.read(units_in("02 04 00 FF FF FF"))
    check("16,777,215 units", (number, most and most.charge.list.numbers[0]), (0, 16_777_215))
    number, typed = aoc.read(units_in("05 00 02 01 07"))
    check("type after NULL", (number, typed and typed.charge.list.octets[:2]), (0, [0, 7]))

    check("empty", aoc.read(b""), (1, None))
    check("empty in reply", aoc.reply(b"", 254), (0, octets("A4 05 05 00 80 01 02")))
    unknown = octets("A1 06 02 01 07 02 01 25")
    check("operation 37", aoc.read(unknown), (7, None))
    check("operation 37 in reply", aoc.reply(unknown, 254), (0, octets("A4 06 02 01 07 81 01 01")))
    check("operation 37 in reply, 7 octets", aoc.reply(unknown, 7), (12, b""))

    check("identifiers", [aoc.next_identifier(i) for i in (1, 0x7FFF, 0xFFFF)], [2, 0x8000, 0])
    check("element", aoc.element(octets("1C 16 91") + C3 + C6), (0, [3, 14]))
    check("element, a length over", aoc.element(octets("1C 17 91") + C3 + C6), (15, []))
    check("element without component", aoc.element(octets("1C 01 91")), (15, []))


# Lengths without a number (request 3 of document 02): a component, and its shortest form or its refusal with the place of the
# octet that shows it, where one is told. Octets in round brackets are repeated.
UNNUMBERED = (
    ("A1 80 02 01 05 02 01 1E 0A 01 01 00 00", "A1 09 02 01 05 02 01 1E 0A 01 01"),
    ("A1 80 02 01 04 02 01 23 30 80 81 00 00 00 00 00", "A1 0A 02 01 04 02 01 23 30 02 81 00"),
    ("A1 0C 02 01 04 02 01 23 30 80 81 00 00 00", "A1 0A 02 01 04 02 01 23 30 02 81 00"),
    ("A1 80 02 01 04 02 01 23 30 02 81 00 00 00", "A1 0A 02 01 04 02 01 23 30 02 81 00"),
    ("A1 80 02 01 04 02 01 23 30 82 00 04 30 80 00 00 00 00", "40@14"),
    ("A1 80 02 01 01 02 01 21 30 80 A1 80 81 03 45 55 52 A2 80 81 01 32 82 01 01 00 00 00 00 82 01 00 00 00 00 00",
     "A1 1A 02 01 01 02 01 21 30 12 A1 0D 81 03 45 55 52 A2 06 81 01 32 82 01 01 82 01 00"),
    ("A2 80 02 01 05 30 80 02 01 1E 05 00 00 00 00 00", "A2 0A 02 01 05 30 05 02 01 1E 05 00"),
    ("A3 80 02 01 05 02 01 1A 00 00", "A3 06 02 01 05 02 01 1A"),
    ("A4 80 05 00 80 01 02 00 00", "A4 05 05 00 80 01 02"),
    ("A1 80 02 01 04 02 01 23 30 80 81 00 A0 80 A1 80 0A 01 00 12 01 37 00 00 00 00 00 00 00 00",
     "A1 14 02 01 04 02 01 23 30 0C 81 00 A0 08 A1 06 0A 01 00 12 01 37"),
    ("A1 80 02 01 01 02 01 21 30 80 A1 80 81 02 00 00 A2 06 81 01 00 82 01 00 00 00 82 01 00 00 00 00 00",
     "A1 19 02 01 01 02 01 21 30 11 A1 0C 81 02 00 00 A2 06 81 01 00 82 01 00 82 01 00"),
    ("A1 80", "1"),
    ("A1 80 00 00", "6"),
    ("A1 80 02 01 05 02 01 1E 0A 01 01", "1"),
    ("A1 80 02 01 05 02 01 1E 0A 01 01 00", "1"),
    ("A1 80 02 01 05 02 01 1E 0A 01 01 00 00 00 00", "5"),
    ("A1 80 02 01 04 02 01 23 30 80 81 00 00 00", "1"),
    ("A1 80 02 01 05 02 01 1E 0A 7F 01 00 00", "1"),
    ("A1 80 02 01 05 02 82 00", "1"),
    ("A1 80 02 01 05 02 01 1E 0A 80 01 00 00", "2"),
    ("A1 80 0A 01 05 02 01 1E 0A 83 00 00", "2"),
    ("A1 09 0A 01 05 02 01 1E 0A 83 00", "6"),
    ("A1 80 02 01 05 02 01 1E 0A 01 01 00 80 00 00", "2"),
    ("A1 80 02 01 04 02 01 23 30 02 83 FF 00 00", "41@10"),
    ("A1 80 02 01 07 06 00 00", "1"),
    ("A1 80 02 01 07 06 00 00 00", "7"),
    ("A1 80 02 01 05 02 01 1E 0A 01 01 00 01 55 00 00", "6"),
    ("A1 80 02 01 05 02 01 1E 0A 01 01 00 81 00", "1"),
    ("A1 80 02 01 05 02 01 1E 0A 01 01 00 81 00 00 00", "6"),
    ("A1 0B 02 01 05 02 01 1E 0A 01 01 00 00", "6"),
    ("A1 0C 02 01 04 02 01 23 30 04 81 00 00 00", "41@12"),
    ("A1 0A 02 01 05 02 80 1E 0A 01 01 00", "2"),
    ("A1 0B 02 01 04 02 01 23 30 80 81 00 00", "42@8"),
    ("A1 80 02 01 04 02 01 23 30 04 30 80 A1 00 00 00", "42@10"),
    ("A1 0E 02 01 04 02 01 23 30 80 30 83 00 00 00 00", "2"),
    ("A1 0D 02 01 01 02 01 21 30 80 A1 80 81 00 00", "42@8"),
    ("A2 0A 02 01 05 30 80 02 01 1E 05 00", "6"),
    ("A1 80 02 01 01 02 01 1F 30 80 00 00 00 00", "40@10"),
    ("A1 0E 02 01 01 02 01 1F 30 80 A1 02 00 00 00 00", "41@10"),
    ("A1 15 02 01 01 02 01 1F 30 80 30 80 0A 01 00 A5 80 00 00 00 00 00 00", "41@15"),
    ("24 80 00 00", "4"),
    ("A1 80 (30 80) × 126", "1"),
    ("A1 80 (30 80) × 62 (00 00) × 63", "6"),
    ("A1 80 02 01 05 (30 80) × 62 (00 00) × 63", "3"),
)
# Which field is refused (request 8 of document 02): a component, and its refusal with the offset of the octet that it names, if any.
FIELDS = (
    ("A1 06 02 01 01 02 01 21", "40@8"),
    ("A2 08 02 01 05 30 03 02 01 1E", "40@10"),
    ("A2 0A 02 01 05 30 03 02 01 1E 05 00", "40@10"),
    ("A1 08 02 01 01 02 01 21 30 00", "40@10"),
    ("A1 0D 02 01 01 02 01 21 30 05 A1 03 81 01 45", "40@15"),
    ("A1 0F 02 01 01 02 01 21 30 07 A1 02 81 00 82 01 00", "43@12"),
    ("A1 10 02 01 01 02 01 21 30 08 A1 03 81 01 45 82 01 00", "40@15"),
    ("A1 08 02 01 01 02 01 1F 30 00", "40@10"),
    ("A1 0A 02 01 01 02 01 22 30 02 A1 00", "40@12"),
    ("A1 08 02 01 03 02 01 23 81 00", "41@8"),
    ("A1 09 02 01 05 02 01 1E 02 01 01", "41@8"),
    ("A1 09 02 01 05 02 01 1E 02 80 01", "41@8"),
    ("A1 16 02 01 01 02 01 21 30 0E A1 0C 81 02 44 4D A2 06 82 01 01 81 01 32", "41@18"),
    ("A1 1A 02 01 01 02 01 21 30 12 A1 0D 81 03 45 55 52 A2 06 81 01 32 82 01 01 83 01 00", "41@25"),
    ("A1 1D 02 01 01 02 01 21 30 15 A1 0D 81 03 45 55 52 A2 06 81 01 32 82 01 01 82 01 00 82 01 00", "41@28"),
    ("A1 0C 02 01 04 02 01 23 30 04 81 00 05 00", "41@12"),
    ("A1 0C 02 01 04 02 01 23 30 02 81 00 05 00", "6"),
    ("A1 0E 02 01 04 02 01 23 30 06 81 00 A0 02 81 00", "41@14"),
    ("A1 07 02 01 05 02 01 1E 0A", "42@8"),
    ("A1 09 02 01 05 02 01 1E 0A 82 01", "42@8"),
    ("A1 09 02 01 05 02 01 1E 0A 02 01", "42@8"),
    ("A1 0A 02 01 04 02 01 23 30 02 81 01", "42@10"),
    ("A1 0A 02 01 04 02 01 23 30 03 81 00", "42@8"),
    ("A1 09 02 01 05 02 01 1E 0A 83 01", "2"),
    ("A1 08 02 01 06 02 01 20 02 00", "43@8"),
    ("A1 12 02 01 02 02 01 24 30 0A 30 08 A1 06 30 04 02 02 00 05", "43@16"),
    ("A1 13 02 01 02 02 01 24 30 0B 30 09 A1 07 30 05 02 03 FF FF FF", "43@16"),
    ("A1 11 02 01 02 02 01 24 30 09 30 07 A1 05 30 03 02 01 FF", "44@16"),
    ("A1 14 02 01 02 02 01 24 30 0C 30 0A A1 08 30 06 02 04 01 00 00 00", "44@16"),
    ("A1 0A 02 01 06 02 01 20 02 02 00 0B", "43@8"),
    ("A1 09 02 01 06 02 01 20 02 01 0B", "44@8"),
    ("A1 09 02 01 05 02 01 1E 05 01 00", "41@8"),
    ("A1 09 02 01 05 02 01 21 05 01 00", "44@8"),
    ("A1 0B 02 01 04 02 01 23 30 03 81 01 00", "44@10"),
    ("A1 1A 02 01 01 02 01 21 30 12 A1 0D 81 03 45 55 D2 A2 06 81 01 32 82 01 01 82 01 00", "44@12"),
    ("A1 10 02 01 04 02 01 23 30 08 81 00 A0 04 80 02 31 41", "44@14"),
    ("A1 0E 02 01 04 02 01 23 30 06 81 00 A0 02 80 00", "43@14"),
    ("A1 14 02 01 04 02 01 23 30 0C 81 00 A0 08 A1 06 0A 01 05 12 01 37", "44@16"),
    ("A1 55 02 01 01 02 01 1F 30 4D (30 05 0A 01 00 84 00) × 11", "45@80"),
    ("A1 50 02 01 01 02 01 1F 30 48 (30 05 0A 01 00 84 00) × 10 05 00", "41@80"),
    ("A1 50 02 01 01 02 01 1F 30 48 (30 05 0A 01 00 84 00) × 10 30 80", "45@80"),
    ("A1 52 02 01 01 02 01 1F 30 80 (30 05 0A 01 00 84 00) × 10 30 83 00 00", "2"),
    ("A1 81 93 02 01 01 02 01 22 30 81 8A A1 81 84 (30 02 05 00) × 33 82 01 00", "45@143"),
    ("A1 07 02 01 05 02 01 25 05", "7"),
    ("A1 81 08 02 01 03 02 01 23 81 00", "41@9"),
    ("A1 80 02 01 01 02 01 21 30 80 00 00 00 00", "40@10"),
)
# Facility elements, and their starts or the refusal.
TILINGS = (
    ("1C 0E 91 A1 80 02 01 05 02 01 1E 0A 01 01 00 00", (0, [3])),
    ("1C 14 91 A1 80 02 01 05 02 01 1E 0A 01 01 00 00 A1 04 02 01 07 06", (0, [3, 16])),
    ("1C 07 91 30 80 30 80 00 00", (15, [])),
    ("1C 05 91 A1 80 05 83", (15, [])),
    ("1C 05 91 81 80 00 00", (15, [])),
    ("1C 05 91 00 00 00 00", (0, [3, 5])),
    ("1C 07 91 FF 80 00 00 00 00", (0, [3, 7])),
)


def repeated(text):
    """The octets of a text in which some stand in round brackets before how often they come."""
    return octets(re.sub(r"\(([^)]*)\) × (\d+)", lambda m: (m[1] + " ") * int(m[2]), text))


def refusal(text):
    """A refusal's number, its offset (0 for none), and no record."""
    number, _, offset = text.partition("@")
    return int(number), int(offset or 0), None


def fields():
    for i, (given, wanted) in enumerate(FIELDS, 1):
        check(f"F{i}", aoc.locate(repeated(given)), refusal(wanted))
    # 01's cases with 9, and units at their tag.
    check("C6 with 23 for 21", aoc.locate(C6[:7] + b"\x23" + C6[8:]), (41, 8, None))
    check("C8 with 0B", aoc.locate(C8[:-1] + b"\x0B"), (44, 8, None))
    for entry, number in (("02 04 01 00 00 00", 44), ("02 03 FF FF FF", 43), ("02 02 00 05", 43)):
        check("units " + entry, aoc.locate(units_in(entry)), (number, 16, None))
    # Rejects sent remain the same.
    check("41 in reply", aoc.reply(C6[:7] + b"\x23" + C6[8:], 254), (0, octets("A4 06 02 01 03 81 01 02")))
    check("40 of a result in reply", aoc.reply(octets("A2 08 02 01 05 30 03 02 01 1E"), 254), (0, octets("A4 06 02 01 05 82 01 02")))


def unnumbered():
    for i, (given, wanted) in enumerate(UNNUMBERED, 1):
        number, offset, record = aoc.locate(repeated(given))
        if " " in wanted:
            check(f"L{i}", (number, aoc.write(record, 254)), (0, (0, octets(wanted))))
            check(f"L{i}, the same with numbers", record, aoc.read(octets(wanted))[1])
        else:
            check(f"L{i}", (number, offset, record), refusal(wanted))
    for given, wanted in TILINGS:
        check(given, aoc.element(octets(given)), wanted)
        # A component of an element that was cut rightly is whole: it has its end, and nothing after it.
        starts = wanted[1] + [len(octets(given))]
        for i, j in zip(starts, starts[1:]):
            check("a tile", aoc.read(octets(given)[i:j])[0] in (1, 3, 5), False)


def account(setup, *events):
    """An account after its Setup and events, and the outcomes of the events."""
    made = aoc.Account()
    check("setup", made.setup(*setup), 0)
    return made, [event(made) if callable(event) else made.component(event) for event in events]


CONNECT, CLEAR, RELEASED = aoc.Account.connect, aoc.Account.clear, aoc.Account.released
NO_REQUEST = (None, None, None)
REQUEST_D = (None, 5, None)


def lists():
    charge1, charge2 = aoc.read(C1)[1].charge, aoc.read(C2)[1].charge

    made, outcomes = account(NO_REQUEST, CONNECT, C1, CLEAR, RELEASED)
    check("C1, Clear, Released", outcomes, [0, 21, 0, 0])
    check("running 500", made.running, charge1)
    check("closing none", (made.closing, made.phase), (None, aoc.ENDED))

    made, outcomes = account(NO_REQUEST, CONNECT, C1, CLEAR, C2, C2, C2_THIRTEEN)
    check("Clear, C2, C2, 13 units", outcomes, [0, 21, 0, 22, 28, 29])
    check("conflict of E", (made.conflict, made.unavailable), ({E}, set()))
    check("closing before Released", made.closing, None)
    check("Released", made.released(), 0)
    check("closing 12", made.closing, charge2)

    made, outcomes = account(REQUEST_D, CONNECT, C1)
    check("pending", (outcomes, made.pending, made.running), ([0, 26], {D}, aoc.Charge()))
    check("C4", (made.component(C4), made.pending), (24, set()))
    check("C1 after C4", (made.component(C1), made.running), (21, charge1))

    made, outcomes = account(REQUEST_D, CONNECT, C1, C5, C1)
    check("C5 for C4", (outcomes, made.running), ([0, 26, 25, 21], charge1))

    # The mistakes that 01 names, and what its rules say beside the lists.
    check("a pending S request and D", account((5, None, None), CONNECT, C1)[1], [0, 21])
    check("C4 on an S request", account((5, None, None), C4, C4)[1], [31, 31])
    made, outcomes = account((5, None, None), octets("A2 0B 02 01 05 30 06 02 01 1E 02 01 0A"))
    check("S 24", (outcomes, made.rate.figure.arrangement, made.pending), ([24], 10, set()))
    made, outcomes = account(NO_REQUEST, octets("A1 08 02 01 01 02 01 1F 05 00"), C8, C6, C3)
    check("23, 20, 21, 32", (outcomes, made.unavailable), ([23, 20, 21, 32], {S}))
    check("free finals", account(NO_REQUEST, CLEAR, C7, C7, C6, C6, C2)[1], [0, 22, 28, 22, 28, 29])
    check("NULL reject", account(REQUEST_D, octets("A4 05 05 00 80 01 02"))[1], [30])

    made = aoc.Account()
    check("Component in Idle", made.component(b""), 14)
    check("Setup with one identifier twice", (made.setup(1, None, 1), made.phase), (13, aoc.IDLE))
    check("Setup after it", (made.setup(1, None, 2), made.phase), (0, aoc.ESTABLISHMENT))
    check("Setup again, 14 before 13", made.setup(1, 1, None), 14)


# Request 2: the first final, the second, and the second's outcome; an amount is currency, number, multiplier.
PADDED = (
    ("45 55 52", 50, 1, "45 55 52 20", 50, 1, 28),
    ("45 55 52 20 20", 50, 1, "45 55 52", 50, 1, 28),
    ("45 55 52 20", 50, 1, "45 55 52 20 20 20 20 20 20 20", 500, 0, 28),
    ("20", 50, 1, "20 20 20", 50, 1, 28),
    ("20 20 20 20 20 20 20 20 20 20", 0, 0, "20", 0, 6, 28),
    ("45 55 52 00", 50, 1, "45 55 52 00 20", 50, 1, 28),
    ("45 55 52", 50, 1, "45 55 52 20", 501, 0, 29),
    ("45 55 52", 50, 1, "20 45 55 52", 50, 1, 29),
    ("45 20 52", 50, 1, "45 52", 50, 1, 29),
    ("45 55 52", 50, 1, "65 75 72", 50, 1, 29),
    ("45 55 52", 50, 1, "45 55 52 00", 50, 1, 29),
    ("45 55 52", 50, 1, "45 55 52 20 00", 50, 1, 29),
    ("20", 50, 1, "00", 50, 1, 29),
    ("45 55 52", 50, 1, "45 55 52 09", 50, 1, 29))


def padded():
    for text1, number1, multiplier1, text2, number2, multiplier2, outcome in PADDED:
        first, second = (make_trees.lay(make_trees.tree(aoc.Record(frame=1, id=7, operation=35,
                                                                   charge=make_calls.amount(octets(text), number, multiplier))))
                         for text, number, multiplier in ((text1, number1, multiplier1), (text2, number2, multiplier2)))
        made, outcomes = account(NO_REQUEST, CLEAR, first, second, RELEASED)
        check(f"{text1} and {text2}", outcomes, [0, 22, outcome, 0])
        check("closing as received", bytes(made.closing.figure.money.currency.octets[:len(octets(text1))]), octets(text1))
        check("its count", made.closing.figure.money.currency.count, len(octets(text1)))


# Lists of events with the reason and the event: `sub`, `tot` a D subtotal and total in thousandths of EUR, `na` not available,
# `yes`, `no` a return result with NULL and a return error, `bad` a component that is no right one, `cut` one of no octets.
REASONS = (
    ("", (1, 0)),
    ("setup; connect; sub 500; clear; tot 500", (1, 0)),
    ("setup; connect; sub 500; suspend", (1, 0)),
    ("setup; connect; clear; tot 500; E units 12; released", (2, 5)),
    ("setup; connect; clear; E 700; tot 500; tot 600; released", (2, 4)),
    ("connect; setup; clear; D free; released; cut", (2, 4)),
    ("setup; connect; tot 500; E na; clear; sub 500; released", (3, 3)),
    ("setup - 5 -; sub 500; D na; connect; yes 5; sub 500; clear; released", (3, 2)),
    ("setup - 5 -; D na; connect; suspend; D na; sub 500; resume; clear; released", (3, 6)),
    ("setup - 5 -; D na; connect; suspend; E na; S rate; yes 5; resume; clear; released", (7, 0)),
    ("setup; connect; E free; clear; released", (3, 3)),
    ("setup; S na; connect; sub 500; E na; D na; clear; released", (4, 5)),
    ("setup; bad; connect; D free; sub 500; clear; released", (5, 4)),
    ("setup; connect; S na; request; clear; cut; bad; released", (6, 6)),
    ("bad; setup; clear; released; bad", (7, 0)),
    ("setup 1 1 -; setup 1 2 -; connect; S rate; clear; no 1; released", (7, 0)),
    ("setup; connect; suspend; sub 500; clear; E free; released", (2, 6)),
)
PLAIN = {"connect": 2, "clear": 3, "released": 4, "suspend": 6, "resume": 7}
OCTETS = {"D free": C6, "E free": C7, "D na": octets("A1 08 02 01 03 02 01 21 05 00"), "E na": octets("A1 08 02 01 04 02 01 23 05 00"),
          "S na": octets("A1 08 02 01 01 02 01 1F 05 00"), "S rate": octets("A1 09 02 01 06 02 01 20 02 01 04"), "E units 12": C2,
          "yes 5": C4, "no 1": octets("A3 06 02 01 01 02 01 1A"), "request": C3, "cut": b"",
          "bad": octets("A1 08 02 01 03 02 01 23 81 00")}


def said(event):
    """The octets of a component that is named."""
    if event in OCTETS:
        return OCTETS[event]
    word, *currency, value = event.split(" ")
    currency = currency[0] if currency else "EUR"
    if currency == "units":
        charge = make_calls.units(*((None if n == "na" else int(n), 0) for n in value.split(",")))
    else:
        charge = make_calls.amount(currency.replace("_", " ").encode(), int(value), 0)
    charge.figure.total = int(word == "tot")
    operation = (35 if word == "E" else 33) + (currency == "units")
    return aoc.write(aoc.Record(frame=1, id=1, operation=operation, charge=charge), 254)[1]


def row_of(event):
    word, *ids = event.split(" ")
    if word in PLAIN:
        return [PLAIN[word], 0, 0, 0, 0, 0], b""
    if word == "setup":
        ids = ids or ["-"] * 3
        return [1, sum(1 << i for i, x in enumerate(ids) if x != "-"), *(0 if x == "-" else int(x) for x in ids), 0], b""
    return [5, 0, 0, 0, 0, len(said(event))], said(event)


def list_of(text):
    rows = [row_of(event) for event in text.split("; ") if event]
    return [n for row, _ in rows for n in row], b"".join(part for _, part in rows)


def reasons():
    for text, wanted in REASONS:
        given = list_of(text)
        check(text, why.why(*given), (0, *wanted))
        check("an octet more", why.why(given[0], given[1] + b"\0"), (48, 0, 0))
        check("a number more", why.why(given[0] + [0], given[1]), (48, 0, 0))


# Operations on a switchboard (document 02, request 13), each after its reference; `1..64` stands for one for each. The answers: a number
# for each, and for a collection that is accepted what the call closed with.
BOARDS = (
    ("7 connect; 7 collect; 7 bad", "37 37 37"),
    ("7 setup; 7 setup; 7 setup 1 1 -; 8 setup", "0 35 35 0"),
    ("7 setup 1 1 -; 7 connect; 7 setup", "13 37 0"),
    ("7 setup; 7 collect; 7 clear; 7 collect; 7 released; 7 collect; 7 collect", "0 14 0 14 0 none 37"),
    ("7 setup; 7 clear; 7 E units 12; 7 released; 7 E units 12; 7 setup; 7 collect; 7 setup", "0 0 22 0 14 35 E12 0"),
    ("7 setup; 8 setup; 7 clear; 8 connect; 8 sub 5; 7 tot 9; 8 clear; 7 released; 8 released; 8 collect; 7 collect",
     "0 0 0 0 21 22 0 0 0 none D9"),
    ("0 setup; 65535 setup; 0 clear; 65535 clear; 0 released; 0 collect; 65535 released; 65535 collect", "0 0 0 0 0 none 0 none"),
    ("1..64 setup; 65 setup; 1 setup; 65 setup 1 1 -; 65 clear", "0*64 36 35 36 37"),
    ("1..64 setup; 5 clear; 5 released; 65 setup; 5 collect; 65 setup; 66 setup; 5 connect", "0*66 36 none 0 36 37"),
    ("1..64 setup; 5 clear; 5 released; 5 collect; 65 setup 1 1 -; 66 setup; 67 setup", "0*66 none 13 0 36"),
    ("7 setup - 5 -; 7 connect; 7 sub 5; 7 suspend; 7 sub 5; 7 resume; 7 yes 5; 7 sub 5", "0 0 26 0 27 0 24 21"),
    ("7 setup; 7 clear; 7 tot 5; 7 released; 7 collect; 7 setup; 7 clear; 7 tot 6; 7 released; 7 collect", "0 0 22 0 D5 0 0 22 0 D6"),
    ("7 setup; 7 bad; 7 cut; 7 released; 7 clear; 8 bad", "0 41 1 14 0 37"),
)


def operated(table, reference, what):
    if what == "collect":
        number, service, charge = table.collect(reference)
        if number:
            return str(number)
        if not service:
            return "none"
        value = charge.list.numbers[0] if charge.figure.kind == aoc.UNITS else charge.figure.money.number
        return "DE"[service - 2] + str(value)
    (kind, asked, *ids, _), octets = row_of(what)
    number, _ = table.event(reference, kind, [i if asked >> bit & 1 else None for bit, i in enumerate(ids)], octets)
    check("refused, nothing is held or lost", number in (35, 36, 37) and (reference in table.calls) != (number == 35), False)
    return str(number)


def boards():
    for text, wanted in BOARDS:
        table, answers = board.Board(), []
        for operation in text.split("; "):
            references, _, what = operation.partition(" ")
            first, _, last = references.partition("..")
            for reference in range(int(first), int(last or first) + 1):
                answers.append(operated(table, reference, what))
        expected = " ".join(" ".join([word.partition("*")[0]] * int(word.partition("*")[2] or 1)) for word in wanted.split(" "))
        check(text, " ".join(answers), expected)


# Whether the exchange kept the rules (document 02, request 11): the rule and the event, or 34 and the event. An amount of D has its
# type, then its currency (_ a space) and number, or units (na: an entry not available); the number in thousandths.
FAULTS = (
    ("", (0, 0, 0)),
    ("setup; connect; sub EUR 500; sub EUR_ 500; clear; tot EUR 700; tot EUR_ 700; E EUR 700; released", (0, 0, 0)),
    ("setup; connect; tot EUR 500; bad; clear", (34, 0, 4)),
    ("setup; connect; sub EUR 500; setup", (34, 0, 4)),
    ("setup 1 1 -", (34, 0, 1)),
    ("setup; sub EUR 0; connect", (0, 1, 2)),
    ("setup; connect; sub EUR 500; suspend; sub EUR 600; resume; clear; released", (0, 1, 5)),
    ("setup - 5 -; connect; sub EUR 500; tot EUR 500; yes 5", (0, 1, 4)),
    ("setup; connect; clear; sub units na", (0, 1, 4)),
    ("setup; D free; E EUR 5; D na; connect; clear; released", (0, 0, 0)),
    ("setup; connect; sub EUR 5; sub DM 3; sub EUR_ 4", (0, 2, 5)),
    ("setup; connect; sub EUR 5; sub DM 3; sub EUR 5; sub DM 4; clear; tot DM 3", (0, 2, 8)),
    ("setup; connect; sub units 12; sub units 5; clear; tot units 1; released", (0, 0, 0)),
    ("setup; connect; sub EUR 500; clear; tot EUR 600; tot EUR 400", (0, 4, 6)),
    ("setup; connect; sub EUR 500; D free; sub EUR 300", (0, 2, 5)),
    ("setup; D free; connect; sub EUR 0; sub units 0,na; sub units na; sub units 0,1", (0, 3, 7)),
    ("setup - 5 -; connect; D free; sub EUR 500; clear; tot EUR 500; released", (0, 0, 0)),
    ("setup; connect; clear; D free; tot EUR 500", (0, 3, 5)),
    ("setup; connect; clear; D free; tot EUR 0", (0, 4, 5)),
    ("setup; D free; connect; tot EUR 500", (0, 1, 4)),
    ("setup; connect; clear; E EUR 500; E EUR_ 500; E free; released", (0, 4, 6)),
    ("setup; connect; sub EUR 500; clear; tot EUR_ 499; released", (0, 2, 5)),
    ("setup - 5 -; connect; sub EUR 500; yes 5; sub EUR 300; sub EUR 299", (0, 2, 6)),
    ("setup; D free; connect; sub EUR 0; clear; D free; tot EUR 0; released", (0, 4, 7)),
)


def faults():
    for text, wanted in FAULTS:
        given = list_of(text)
        check(text, fault.fault(*given), wanted)
        check("an octet more", fault.fault(given[0], given[1] + b"\0"), (48, 0, 0))


# A call parked and taken up again (document 02, request 5): events, outcomes with their service, and what stands at the end.
PARKED_OCTETS = {
    "D-sub": C1, "D-sub2": octets("A1 1A 02 01 01 02 01 21 30 12 A1 0D 81 03 45 55 52 A2 06 81 01 51 82 01 01 82 01 00"),
    "D-tot": octets("A1 1A 02 01 01 02 01 21 30 12 A1 0D 81 03 45 55 52 A2 06 81 01 32 82 01 01 82 01 01"),
    "E-12": C2, "E-free": C7, "S-10": C8, "D-free": C6, "D-na": octets("A1 08 02 01 03 02 01 21 05 00"),
    "ask-D": C3, "res-5": C4, "err-5": C5, "rej-NULL": octets("A4 05 05 00 80 01 02"),
    "bad": octets("A1 08 02 01 03 02 01 23 81 00"), "empty": b"",
}
PARKED = (
    ("setup - - -; connect; suspend; resume; D-sub; clear; released", "0 0 0 0 21D 0 0", {"running": "D-sub", "phase": aoc.ENDED}),
    ("setup - - -; connect; D-sub; suspend; D-sub2; resume; clear; released", "0 0 21D 0 27D 0 0 0", {"running": "D-sub"}),
    ("setup - - -; connect; suspend; S-10; D-free; D-na; E-12; ask-D; rej-NULL; res-5", "0 0 0 27S 27D 27D 27E 27 27 27",
     {"rate": aoc.Charge(), "unavailable": set()}),
    ("setup - 5 -; connect; suspend; res-5; err-5; resume; D-sub; res-5; D-sub", "0 0 0 27 27 0 26D 24D 21D", {"running": "D-sub"}),
    ("setup - 5 -; connect; suspend; D-sub", "0 0 0 27D", {"pending": {D}}),
    ("setup - - -; connect; suspend; bad; empty", "0 0 0 BAD 1", {"phase": aoc.SUSPENDED}),
    ("setup - - -; connect; suspend; clear; D-tot; E-free; released", "0 0 0 0 22D 22E 0", {"closing": "E-free"}),
    ("setup - - -; connect; suspend; setup - - -; connect; suspend; released; D-sub", "0 0 0 14 14 14 14 27D", {"phase": aoc.SUSPENDED}),
    ("suspend; resume; setup - - -; suspend; resume; connect; resume; clear; suspend; resume; released; suspend; resume",
     "14 14 0 14 14 0 14 0 14 14 0 14 14", {"phase": aoc.ENDED}),
    ("setup - - -; connect; suspend; resume; suspend; resume; suspend; resume; connect; D-sub", "0 0 0 0 0 0 0 0 14 21D",
     {"running": "D-sub"}),
    ("setup - - -; connect; suspend; D-tot; clear; D-tot; D-tot; released", "0 0 0 27D 0 22D 28D 0", {"closing": "D-tot"}),
    ("setup 5 5 -; setup - - -; connect; suspend; E-12; clear; E-12; E-12; released", "13 0 0 0 27E 0 22E 28E 0", {"closing": "E-12"}),
)


def parked():
    refused = str(aoc.read(PARKED_OCTETS["bad"])[0])
    for number, (events, wanted, end) in enumerate(PARKED, 1):
        made, got = aoc.Account(), []
        for event in events.split("; "):
            word, *ids = event.split(" ")
            if word == "setup":
                outcome = made.setup(*(None if i == "-" else int(i) for i in ids))
            elif word in PARKED_OCTETS:
                outcome = made.component(PARKED_OCTETS[word])
            else:
                outcome = getattr(made, word)()
            got.append(f"{outcome}{'-SDE'[made.service]}".rstrip("-"))
        check(f"parked {number}", got, wanted.replace("BAD", refused).split(" "))
        for what, value in end.items():
            if isinstance(value, str):
                value = aoc.read(PARKED_OCTETS[value])[1].charge
            check(f"parked {number}: {what}", getattr(made, what), value)


# One pass over an element (document 02, request 7): an element, a place, and what stands there.
PASSED_WHOLE = "1C 26 91 A1 80 02 01 05 02 01 1E 0A 01 01 00 00 A1 08 02 01 03 02 01 23 81 00 A4 00 A1 0A 02 01 04 02 01 23 30 02 81 00"
PASSED_BROKEN = PASSED_WHOLE[:-2] + "7F"
PASSED_UNTILED = PASSED_WHOLE.replace("A1 0A 02 01 04", "A1 0B 02 01 04")
PASSED = (
    (PASSED_WHOLE, 3, "A1 09 02 01 05 02 01 1E 0A 01 01", 16), (PASSED_WHOLE, 16, "41@8", 26), (PASSED_WHOLE, 26, "6", 28),
    (PASSED_WHOLE, 28, "A1 0A 02 01 04 02 01 23 30 02 81 00", 40), (PASSED_WHOLE, 40, "end", 0), (PASSED_WHOLE, 0, "16", 0),
    (PASSED_WHOLE, 2, "16", 0), (PASSED_WHOLE, 5, "16", 0), (PASSED_WHOLE, 14, "16", 0), (PASSED_WHOLE, 41, "16", 0),
    (PASSED_WHOLE, 65535, "16", 0), (PASSED_BROKEN, 28, "42@10", 40), (PASSED_BROKEN, 3, "A1 09 02 01 05 02 01 1E 0A 01 01", 16),
    (PASSED_WHOLE.replace("91", "9F"), 3, "17", 16), (PASSED_WHOLE.replace("91", "9F"), 40, "end", 0), (PASSED_WHOLE.replace("91", "9F"), 4, "16", 0),
    (PASSED_WHOLE.replace("91", "9E"), 3, "15", 0), (PASSED_UNTILED, 3, "15", 0), (PASSED_UNTILED, 41, "15", 0), ("1C 01 91", 3, "15", 0), ("", 0, "15", 0),
)


def passes():
    for number, (given, place, wanted, after) in enumerate(PASSED, 1):
        got = aoc.step_through(octets(given), place)
        if wanted == "end":
            check(f"pass {number}", got, (0, 0, None, 0, True))
        elif " " in wanted:
            check(f"pass {number}", (got[0], aoc.write(got[2], 254)[1], got[3:]), (0, octets(wanted), (after, False)))
        else:
            check(f"pass {number}", got, (*refusal(wanted), after, False))
    # Going through an element gives what its starts give, one by one, and then the end.
    rng = random.Random(7)
    for _ in range(300):
        given = make_elements.facility(rng)
        number, starts = aoc.element(given)
        place, seen = 3, []
        while True:
            got = aoc.step_through(given, place)
            if not got[3]:
                break
            seen.append((place, got[:3]))
            place = got[3]
        parts = zip(starts, starts[1:] + [len(given)])
        check("going through", seen, [(a, aoc.locate(given[a:b]) if given[2] == 0x91 else (17, 0, None)) for a, b in parts])
        check("its end", got[0] if number else got, number or (0, 0, None, 0, True))


def dropped():
    """Without noise, whichever of it is left out, the other events have the outcomes they had and the end is the same."""
    rng = random.Random(12)
    for _ in range(300):
        events = make_calls.dropped_input(rng, 14)[2:].split(";")
        whole, part = aoc.Account(), aoc.Account()
        for event in events:
            outcome = answer.do(whole, event.lstrip("~"))
            if event[0] != "~":
                check("a remaining event", answer.do(part, event), outcome)
        for what in ("phase", "pending", "pending_identifiers", "unavailable", "conflict", "rate", "running", "closing"):
            check(f"{what} without noise", getattr(part, what), getattr(whole, what))


def held():
    """A list cut in two, its second part with the account's octets as the start, says what the whole list says."""
    check("a fresh account", aoc.Account().octets, bytes(1488))
    rng = random.Random(13)
    for _ in range(300):
        events = make_calls.account_input(rng, 12)[2:].split(";")
        whole, cut = aoc.Account(), rng.randrange(len(events))
        for number, event in enumerate(events):
            if number == cut:
                part = aoc.Account(aoc.start_of(whole.octets))
            outcome = answer.do(whole, event)
            if number >= cut:
                check("gone on with", (answer.do(part, event), part.service, part.octets, part.closing),
                      (outcome, whole.service, whole.octets, whole.closing))


# An account that no call has: what is written over a fresh one from which place, an event's octets or a component, then the
# outcome with its service, and what is written over that account afterwards.
NONSENSE = (
    # no event is allowed in a phase that is none, and no kind but 1 to 7 is an event's
    (((0, "06"),), "01 000000 0000 0000 0000", "14", ()),
    (((0, "FF"),), C1, "14", ()),
    ((), "00 000000 0000 0000 0000", "14", ()),
    (((0, "02"),), "08 000000 0000 0000 0000", "14", ()),
    (((0, "02"),), "85 000000 0000 0000 0000", "14", ()),
    # any mark but 0 asks, and is kept as 1; what else the account holds stays
    (((1, "FF FF FF 07 00"), (10, "80"), (16, "55")), "01 800002 0500 0500 FFFF", "0", ((0, "01 01 00 01 05 00 00 00 FF FF"),)),
    (((16, "55"),), "01 80FF00 0500 0500 0000", "13", ()),
    # any mark but 0 is a pending request; an identifier without one is none's
    (((0, "02 00 80 00 00 00 05 00"),), C1, "26D", ()),
    (((0, "02 00 80 00 00 00 05 00"),), C4, "24D", ((2, "00"), (6, "00"))),
    (((0, "02 00 00 00 00 00 05 00"),), C4, "30", ()),
    # one identifier twice: the first request's
    (((0, "02 01 02 03 05 00 05 00 05 00"),), C5, "25S", ((1, "00"), (4, "00"))),
    (((0, "02 00 02 03 05 00 05 00 05 00"),), C4, "24D", ((2, "00"), (6, "00"))),
    (((0, "02 01 02 03 05 00 05 00 05 00"),), C4, "31S", ()),
    # a mark that is set is 1, whatever it was
    (((0, "02"), (10, "80 80 80")), octets("A1 08 02 01 03 02 01 21 05 00"), "23D", ((11, "01"),)),
    (((0, "03"), (13, "80 80 80"), (1162, "09")), C2, "29E", ((15, "01"),)),
    # a figure of kind 0 is none, whatever else it holds
    (((0, "03"), (1120, "55" * 42), (1163, "55" * 325)), C7, "22E", ((1120, "00" * 368), (1162, "01"))),
    (((0, "03"), (1120, "55" * 42 + "01" + "55" * 325)), C7, "28E", ()),
    # a currency's count past its places, and a multiplier past 6
    (((0, "03"), (752, "FF 20 20 20 20 20 20 20 20 20 20 07 FF FF FF FF"), (794, "02")),
     octets("A1 1A 02 01 01 02 01 21 30 12 A1 0D 81 03 20 20 20 A2 06 81 01 00 82 01 06 82 01 01"), "28D", ()),
    (((0, "03"), (752, "FF 45 55 52 20 20 20 20 20 20 20 06 00 00 00 00"), (794, "02")),
     octets("A1 1A 02 01 01 02 01 21 30 12 A1 0D 81 03 45 55 52 A2 06 81 01 00 82 01 00 82 01 01"), "28D", ()),
    (((0, "03"), (752, "FF 45 55 52 20 20 20 20 20 20 53 06 00 00 00 00"), (794, "02")),
     octets("A1 1A 02 01 01 02 01 21 30 12 A1 0D 81 03 45 55 52 A2 06 81 01 00 82 01 00 82 01 01"), "29D", ((14, "01"),)),
    # a list of units longer than any
    (((0, "03"), (1162, "03 00 00 00 00 FF")), C2, "29E", ((15, "01"),)),
)


def written_over(account, places):
    account = bytearray(account)
    for place, text in places:
        account[place:place + len(octets(text))] = octets(text)
    return bytes(account)


def nonsense():
    for number, (before, event, wanted, after) in enumerate(NONSENSE, 1):
        account = written_over(bytes(1488), before)
        made = aoc.Account(aoc.start_of(account))
        check("read and laid out", made.octets, account)
        outcome = made.component(event) if isinstance(event, bytes) else made.event_of(octets(event), b"")
        check(f"nonsense {number}", f"{outcome}{'-SDE'[made.service]}".rstrip("-"), wanted)
        check(f"nonsense {number}: the account", made.octets.hex(), written_over(account, after).hex())


def closing(charge, service, **fields):
    """A closing figure of D or E, with some fields of its figure or of its money set otherwise."""
    figure = charge.figure
    if service == price.D and figure.kind != aoc.FREE:
        figure.total = 1
    for name, value in fields.items():
        setattr(figure if hasattr(figure, name) else figure.money, name, value)
    return service, charge


def euros(number, service, text=b"EUR", multiplier=0, **fields):
    return closing(make_calls.amount(text, number, multiplier), service, **fields)


def prices():
    D, E = price.D, price.E
    half, ZERO = ("407f400000000000", "3fe0000000000000"), "0" * 16
    identified = aoc.Association(kind=aoc.BY_IDENTIFIER, id=3)
    refused = lambda number: f"{number} 0 0 {'00' * 10} {ZERO} {ZERO}"
    free = f"0 1 0 {'00' * 10} {ZERO} {ZERO}"

    def costs(value, quotient, text=b"EUR"):
        return f"0 0 {len(text)} {text.ljust(10, bytes(1)).hex()} {value} {quotient}"

    for case, given, wanted in (
            ("a", euros(500, D), costs(*half)),
            ("b", euros(50, E, b"EUR ", 1), costs(*half, b"EUR ")),
            ("c", euros(1, D), costs("3ff0000000000000", "3f50624dd2f1a9fc")),
            ("d", euros(9, D), costs("4022000000000000", "3f826e978d4fdf3b")),
            ("e", euros(16777215, E, multiplier=6, billed=1, billing=7), costs("42ae847fe17b8000", "420f3fffe0c00000")),
            ("f", euros(0, D, multiplier=6), costs(ZERO, ZERO)),
            ("g", closing(make_calls.no_charge(), D), free),
            ("h", closing(make_calls.no_charge(), E, association=identified), free),
            ("i", closing(make_calls.units((12, 0)), E), refused(38)),
            ("j", closing(make_calls.units((12, 17)), E), refused(10)),
            ("k", (0, aoc.Charge()), refused(39)),
            ("l", (0, euros(16777216, D)[1]), refused(39)),
            ("m", (1, euros(500, D)[1]), refused(10)),
            ("n", (258, euros(500, D)[1]), refused(10)),
            ("o", euros(500, D, kind=0), refused(10)),
            ("p", euros(16777216, D), refused(10)),
            ("q", euros(500, D, billed=1, billing=3), refused(10)),
            ("r", closing(make_calls.no_charge(), D, number=1), refused(10)),
            ("s", euros(500, D, total=0), costs(*half))):
        check(f"price {case}", price.answer(*given), wanted)


def months():
    """The readings' cases: figures, and the numbers, then what of the month is not zero."""
    D, E = price.D, price.E
    identified = aoc.Association(kind=aoc.BY_IDENTIFIER, id=3)
    free = lambda service, **fields: closing(make_calls.no_charge(), service, **fields)
    counted = lambda service, *entries, **fields: closing(make_calls.units(*entries), service, **fields)
    letters = [bytes((c,)) for c in b"ABCDEFGHIJKLMNOP"]

    def holds(added, rows=(), units={}, absent=0, free=0, table={}):
        laid = [value for text, calls, total in rows for value in (len(text), text, 0, calls, total)]
        laid += [0, b"", 0, 0, 0] * (16 - len(rows))
        return struct.pack("<4I17Q" + "B10sBIQ" * 16 + "18I", added, len(rows), absent, free,
                           *(units.get(k, 0) for k in range(17)), *laid, *(table.get((s, b), 0) for s in (D, E) for b in range(9))).hex()

    large = dict(multiplier=6, billed=1, billing=0)
    for case, given, numbers, wanted in (
            ("a", (), "", holds(0)),
            ("b", (euros(500, D), euros(50, E, b"EUR ", 1), euros(1, D, b"EUR  ", 6)), "0*3",
             holds(3, [(b"EUR", 3, 1001000)], table={(D, 8): 2, (E, 8): 1})),
            ("c", (euros(5, E, b"EUR "), euros(7, D), euros(1, D, b"DM")), "0*3",
             holds(3, [(b"EUR ", 2, 12), (b"DM", 1, 1)], table={(D, 8): 2, (E, 8): 1})),
            ("d", (euros(5, D, b" "), euros(6, D, b"   "), euros(1, D), euros(2, D, b" EUR")), "0*4",
             holds(4, [(b" ", 2, 11), (b"EUR", 1, 1), (b" EUR", 1, 2)], table={(D, 8): 4})),
            ("e", (counted(E, (12, 0), (None, 0), (5, 3), (None, 3), (7, 3), billed=1, billing=7),), "0*1",
             holds(1, units={0: 12, 3: 12}, absent=2, table={(E, 7): 1})),
            ("f", (counted(D, (None, 0)), counted(D, (0, 16))), "0*2", holds(2, absent=1, table={(D, 8): 2})),
            ("g", (free(D), free(E), free(E, association=identified)), "0*3", holds(3, free=3, table={(D, 8): 1, (E, 8): 2})),
            ("h", (euros(500, D, billed=1, billing=2), euros(500, D, billed=1, billing=3), euros(500, E, billed=1, billing=3)),
             "0*1,10*1,0*1", holds(2, [(b"EUR", 2, 1000)], table={(D, 2): 1, (E, 3): 1})),
            ("i", (euros(16777215, D, multiplier=6), euros(16777216, D), euros(1, D, multiplier=7), euros(1, D, b"EUR\0")),
             "0*1,10*2,0*1", holds(2, [(b"EUR", 1, 16777215000000), (b"EUR\0", 1, 1)], table={(D, 8): 2})),
            ("j", ((0, aoc.Charge()), (1, euros(5, D)[1]), euros(5, D, kind=0), euros(5, D, kind=4), euros(5, D, total=2), euros(5, D, total=0)),
             "10*5,0*1", holds(1, [(b"EUR", 1, 5)], table={(D, 8): 1})),
            ("k", (euros(5, D, association=aoc.Association(kind=1)), euros(5, E, total=1), euros(5, E, billing=1), free(D, billed=1),
                   euros(5, E, count=1), euros(5, D, arrangement=1)), "10*6", holds(0)),
            ("l", (*(euros(1, D, text) for text in letters), euros(1, D, b"Q"), euros(1, D, b"A "), free(D), counted(E, (3, 0))),
             "0*16,47*1,0*3", holds(19, [(text, 1 + (text == b"A"), 1 + (text == b"A")) for text in letters], {0: 3}, 0, 1, {(D, 8): 18, (E, 8): 1})),
            ("m", (*[euros(1, D)] * 4097, euros(16777216, D), *(euros(1, D, text) for text in letters)),
             "0*4096,46*1,10*1,46*16", holds(4096, [(b"EUR", 4096, 4096)], table={(D, 8): 4096})),
            ("n", [euros(16777215, E, **large)] * 4096, "0*4096", holds(4096, [(b"EUR", 4096, 68719472640000000)], table={(E, 0): 4096})),
            ("o", [counted(E, *[(16777215, 1)] * 32)] * 4096, "0*4096", holds(4096, units={1: 2199023124480}, table={(E, 8): 4096}))):
        check(f"month {case}", month.answer(bytes(608), [(1, *figure) for figure in given]), f"{numbers} {wanted}")


def trace_of(text):
    """A trace as the cases of request 10 write it: pairs and octets."""
    found = re.match(r"lengths (.*); octets (.*)", text)
    if found:
        lengths = [] if found[1] == "none" else found[1].split()
        return [n for word in lengths for n in (int(word[:-1]), int(word[-1] == "n"))], octets("" if found[2] == "none" else found[2])
    pairs, all_octets = [], b""
    for line in text.splitlines():
        message = octets(line[2:])
        pairs += [len(message), {"u": 0, "n": 1}.get(line[0]) if line[0] in "un" else int(line[0])]
        all_octets += message
    return pairs, all_octets


def figure_in_words(charge):
    figure = charge.figure
    if figure.kind == aoc.AMOUNT:
        return str(aoc.thousandths(figure.money.number, figure.money.multiplier))
    if figure.kind == aoc.UNITS:
        return f"{charge.list.numbers[0]} units"
    return "free" if figure.kind == aoc.FREE else f"special {figure.arrangement}"


def told(events):
    """The events, their outcomes and the end of a call, in the words of the cases, a component without its place."""
    engine, letters = plain.Plain(events), "-SDE"
    kinds = {2: "connect", 3: "clear", 4: "released"}
    listed = [f"setup {' '.join('-' if i is None else str(i) for i in ids)}" if kind == 1 else
              f"component {len(part)}" if kind == 5 else kinds[kind] for kind, ids, part in events]
    outcomes = [f"{number}{letters[s] if s else ''}" for number, s in map(engine.outcome, range(engine.n))]
    phase = engine.phase(engine.n)
    end = ["phase " + ("Idle", "Establishment", "Active", "Clearing", "Ended", "Suspended")[phase]]
    end += [f"pending {s} {i}" for s, i in zip("SDE", engine.pending()) if i is not None]
    end += [f"rate {figure_in_words(engine.rate())}"] if engine.rate() else []
    service, charge = engine.closing()
    if phase == aoc.ENDED:
        end.append(f"closing {letters[service]} {figure_in_words(charge)}" if service else "closing none")
    end += [f"running D {figure_in_words(engine.running())}"] if engine.running() else []
    end += [f"conflict {s}" for s, mark in zip("SDE", engine.conflict()) if mark]
    return " / ".join(("; ".join(listed) or "none", " ".join(outcomes) or "none", ", ".join(end)))


def messages():
    """Request 10: the cases stand in tests/messages.c; and the engine's answers are the account's on generated traces and lists."""
    with open(os.path.join(os.path.dirname(os.path.abspath(__file__)), "../tests/messages.c"), encoding="utf-8") as file:
        table = file.read().split("} cases[] = {")[1].split("\n};")[0]
    cases = re.findall(r"\{((?:[^{}]|\n)*?)\},\n", table + "\n")
    check("cases", len(cases), 70)
    for case in cases:
        name, given, wanted = ("".join(re.findall(r'"([^"]*)"', part)).replace("\\n", "\n") for part in case.split(",\n     "))
        number, message, events = trace.read(*trace_of(given))
        got = told(events) if number == 0 else f"{number} {message}" if message else str(number)
        check(name, got, re.sub(r"component \d+ (\d+)", r"component \1", wanted))
    rng = random.Random(10)
    for i in range(1500):
        line = make_traces.trace_input(rng, rng.randint(0, 14)) if i % 2 else make_calls.why_input(rng, rng.randint(0, 14))
        if i % 2:
            _, _, pairs, given = line[2:].split(" ")
            events = trace.read([int(pairs[k:k + 8], 16) for k in range(0, len(pairs), 8)], octets(given))[2]
        else:
            rows, given = line[2:].split(" ")
            events = why.split([int(rows[k:k + 4], 16) for k in range(0, len(rows), 4)], octets(given)) or []
        call, engine = aoc.Account(), plain.Plain(events)
        for k, event in enumerate(events):
            check("an outcome", engine.outcome(k), (call.event(*event), call.service))
        nothing = aoc.Charge()
        check("the end", (engine.phase(engine.n), engine.rate() or nothing, engine.running() or nothing, engine.closing()),
              (call.phase, call.rate, call.running, (call.closing_service, call.closing)))
        check("marks and requests", ([s for s, i in enumerate(engine.pending()) if i is not None],
                                     [s for s in (S, D, E) if engine.absent()[s]], [s for s in (S, D, E) if engine.conflict()[s]]),
              (sorted(call.pending), sorted(call.unavailable), sorted(call.conflict)))


def line_program():
    given = (C3_LOOSE.hex(" ").upper() + "\nA1 80 02 01 05 02 01 1E 0A 01 01 00 00\n"
             + C7.hex(" ").lower() + "\n")
    wanted = ("A1 09 02 01 05 02 01 1E 0A 01 01\n"
              "A1 09 02 01 05 02 01 1E 0A 01 01\n"
              "A1 0A 02 01 04 02 01 23 30 02 81 00\n")
    check("three lines", aoc.line_program(given.encode()), wanted)
    check("no line", aoc.line_program(b""), "")
    check("an empty line", aoc.line_program(b"\n"), "refused 1\n")
    for bad in (b" A1", b"A1 ", b"A1  00", b"A", b"A1\t00", b"A1\r", b"0x1", b"+1"):
        check("bad line", aoc.line_program(bad), "bad line\n")
    check("255 octets", aoc.line_program(b" ".join([b"A1"] * 255)), "refused 3\n")


def trunk_cases():
    """The cases of the readings of 02's request 1; then what their octets become when they are damaged."""
    shown = lambda given: given.hex(" ").upper()
    taken = []
    with open(os.path.join(os.path.dirname(__file__), "trunk_cases.txt"), encoding="utf-8") as lines:
        rows = [line.rstrip("\n").split(" | ") for line in lines if not line.startswith("#")]
    for name, given, wanted, *reply in rows:
        given = octets(given)
        if name[0] == "E":
            number, profile, starts = trunks.element(given)
            check(name, str(number) if number else " ".join((f"{profile:02X}", *map(str, starts))), wanted)
            continue
        profile, given = given[0], given[1:]
        number, offset, found = trunks.locate(profile, given)
        if number:
            answer = f"{number}@{offset}" if "@" in wanted else str(9 if number in range(40, 46) else number)
        else:
            write = trunks.write if profile == trunks.PRIVATE else lambda record: aoc.write(record, 254)
            written = write(found)[1]
            answer = "same" if written == given else shown(written)
        check(name, answer, wanted)
        number, sent = trunks.reply(profile, given)
        check(name + " reply", ("-" if number else shown(sent) or "none",), tuple(reply))
        if profile == trunks.PRIVATE:
            taken.append(given)
    rng = random.Random(2025)
    for _ in range(20000):
        given = bytearray(rng.choice(taken))
        for _ in range(rng.randrange(3)):
            if given:
                given[rng.randrange(len(given))] = rng.choice((0, 1, 2, 5, 6, 0x0A, 0x30, 0x80, 0x81, 0xA1, 0xA2, 0xFF, rng.randrange(256)))
        if rng.random() < 0.2:
            del given[rng.randrange(len(given) + 1):]
        given = bytes(given)
        number, offset, found = trunks.locate(trunks.PRIVATE, given)
        if number:
            inside = 2 <= offset <= len(given) if number in range(40, 46) else number in range(1, 9) and offset == 0
            check("a trunk's refusal 1 to 8, or 40 to 45 with an offset", (inside, found), (True, None))
            continue
        number, written = trunks.write(found)
        check("a trunk's component written", (number, len(written) <= len(given)), (0, True))
        check("a trunk's component read back", trunks.locate(trunks.PRIVATE, written), (0, 0, found))
        check("a trunk's component in memory", len(trunks.pack(found)), 660)


def generated(count):
    """Records made, laid out and read back; and whatever is read, written and read back."""
    rng = random.Random(2024)
    for _ in range(count):
        made, root = make_records.fitting_record(rng)
        short, laid = make_trees.lay(root), make_records.loosely(rng, root)
        check("laid out", aoc.read(laid), (0, made))
        check("shortest", aoc.write(made, len(short)), (0, short))
        check("no room", aoc.write(made, len(short) - 1), (12, b""))
        check("unpacked", aoc.unpack(aoc.pack(made)), made)
    source = inputs.component_source(rng)
    for _ in range(count):
        given = next(source)
        number, offset, found = aoc.locate(given)
        if number:
            inside = 8 <= offset <= len(given) if number in range(40, 46) else number in range(1, 9) and offset == 0
            check("a refusal 1 to 8, or 40 to 45 with an offset", (inside, found), (True, None))
            continue
        written_number, written = aoc.write(found, 254)
        check("written", (written_number, len(written) <= len(given)), (0, True))
        check("read back", aoc.read(written), (0, found))
    for _ in range(count):
        given = make_elements.facility(rng)
        number, starts = aoc.element(given)
        for i, j in zip(starts, starts[1:] + [len(given)]):
            check("a tile", aoc.read(given[i:j])[0] in (1, 3, 5), False)


def main():
    count = int(sys.argv[1]) if len(sys.argv) > 1 else 3000
    components()
    unnumbered()
    fields()
    lists()
    padded()
    reasons()
    boards()
    faults()
    parked()
    dropped()
    held()
    nonsense()
    passes()
    prices()
    months()
    messages()
    line_program()
    trunk_cases()
    generated(count)
    print(f"{passed} passed, {failed} failed")
    sys.exit(1 if failed else 0)


if __name__ == "__main__":
    main()
