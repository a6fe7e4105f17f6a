"""Test inputs for the comparison, the same for the same seed.

python3 inputs.py SEED COUNT prints COUNT lines of the text protocol (see answer.py); with `trunks` behind it, lines of the trunks' family; with
`extensions`, lines of such as have a manufacturer's extension.

The files make_*.py make them; here is the mix.
"""

import random
import sys
from itertools import count as counting

import make_trunks
from make_accounts import held_input
from make_calls import account_input, board_input, dropped_input, fault_input, why_input
from make_damage import long_component, nested, noise, spoil, strange_code, sweep
from make_elements import facility, next_input, round_input
from make_fields import record_sweep, writer_input
from make_records import number, valid_component
from make_reports import closing_input, month_input
from make_traces import trace_input


def component_source(rng):
    """Octets for the reader without end: valid, damaged in order, damaged at random, noise."""
    orderly = sweep(rng)
    makers = (valid_component, lambda rng: next(orderly), spoil, strange_code, long_component, nested, noise)
    while True:
        yield rng.choices(makers, (25, 35, 24, 7, 2, 2, 5))[0](rng)


def lines(seed, count):
    rng = random.Random(seed)
    octets = component_source(rng)
    records, charges = record_sweep(rng), record_sweep(rng)
    turn = counting()
    for _ in range(count):
        kind = rng.choices("RWENJTADZYFPBMXGL", (38, 24, 4, 5, 8, 1, 22, 5, 14, 12, 8, 3, 5, 0.4, 18, 9, 3))[0]
        if kind == "R":
            yield "R " + next(octets).hex()
        elif kind == "W":
            yield writer_input(rng, records)
        elif kind == "E":
            yield "E " + facility(rng).hex()
        elif kind == "N":
            yield next_input(rng)
        elif kind == "L":
            yield round_input(rng)
        elif kind == "J":
            room = rng.choice((254, 254, rng.randint(0, 10), rng.randint(6, 9)))
            yield f"J {room} {next(octets).hex()}"
        elif kind == "P":
            yield closing_input(rng, charges)
        elif kind == "M":
            yield month_input(rng)
        elif kind == "T":
            yield f"T {number(rng)} {rng.choice((0, 1, 2, 3, 4, 5, 6, 6, 7, 8, 255))}"
        elif kind == "Y":
            yield why_input(rng, rng.randint(0, 12))
        elif kind == "B":
            yield board_input(rng)
        elif kind == "F":
            yield fault_input(rng, rng.randint(0, 12))
        elif kind == "G":
            yield "G" + why_input(rng, rng.randint(0, 14))[1:]
        elif kind == "X":
            yield trace_input(rng, rng.randint(0, 14))
        elif kind == "D":
            yield dropped_input(rng, rng.randint(4, 16))
        elif kind == "Z":
            yield held_input(rng)
        else:
            # Every length 0 to 12 in turn, the longer ones twice.
            yield account_input(rng, (0, 1, 2, 3, 4, 5, 6, 7, 8, 9, 10, 11, 12, 9, 10, 11, 12)[next(turn) % 17])


def trunk_lines(seed, count):
    rng = random.Random(seed)
    octets, records = make_trunks.octet_source(rng), make_trunks.fields_in_turn(rng)
    for _ in range(count):
        kind = rng.choices("QKUOV", (50, 10, 12, 40, 4))[0]
        if kind == "Q":
            yield f"Q {make_trunks.any_profile(rng):02x} {next(octets).hex()}"
        elif kind == "K":
            element = make_trunks.trunk_element(rng)
            yield f"K {make_trunks.place_in(rng, element)} {element.hex()}"
        elif kind == "U":
            yield f"U {make_trunks.any_profile(rng):02x} {rng.choice((254, 254, rng.randint(0, 10)))} {next(octets).hex()}"
        elif kind == "V":
            element = make_trunks.trunk_element(rng)
            yield f"V {make_trunks.any_profile(rng):02x} {rng.choice((257, 300, max(0, len(element) + rng.randint(-2, 4))))} {element[3:].hex()}"
        else:
            yield make_trunks.writer_input(rng, records)


def extension_lines(seed, count):
    rng = random.Random(seed)
    for _ in range(count):
        kind = rng.choices("QUO", (60, 6, 34))[0]
        if kind == "Q":
            yield f"Q {make_trunks.PRIVATE:02x} {make_trunks.extension_octets(rng).hex()}"
        elif kind == "U":
            yield f"U {make_trunks.PRIVATE:02x} 254 {make_trunks.extension_octets(rng).hex()}"
        else:
            yield make_trunks.extension_input(rng)


FAMILIES = {"": lines, "trunks": trunk_lines, "extensions": extension_lines}


def main():
    family = FAMILIES.get("".join(sys.argv[3:]))
    if len(sys.argv) not in (3, 4) or family is None:
        sys.exit("usage: python3 inputs.py SEED COUNT [trunks | extensions]")
    try:
        for line in family(int(sys.argv[1]), int(sys.argv[2])):
            sys.stdout.write(line + "\n")
    except BrokenPipeError:
        sys.stderr.close()


if __name__ == "__main__":
    main()
