"""Test inputs: records for the writer, with every field at every end of a range."""

import aoc
from make_records import long_record, make_record, variants
from make_trees import lay, tree

# Whole fields, as (place, size), of the packed record up to the list; then the telling ones.
FIELDS = ([(0, 1), (1, 1), (2, 2)] + [(i, 1) for i in range(4, 20)] + [(20, 4), (24, 2), (26, 2)]
          + [(i, 1) for i in range(28, 56)])
CHOICES = [(i, 1) for i in (0, 1, 4, 5, 6, 7, 8, 19, 28, 29, 50, 51, 52, 53, 54, 55)] + [(20, 4), (26, 2)]
NUMBERS, OCTETS = 56, 184  # where the list's two parts begin

# The ends of 01's ranges and one past them.
RANGE_ENDS = (0, 1, 2, 3, 4, 5, 6, 7, 8, 10, 11, 16, 17, 20, 21, 26, 29, 30, 33, 36, 37, 0x7F, 0x80, 0x84, 255)
NUMBER_ENDS = (0, 1, aoc.NUMBER_MAX, aoc.NUMBER_MAX + 1, 0xFFFFFFFF)
TEXT_ENDS = (0x00, 0x1F, 0x20, 0x21, 0x2F, 0x30, 0x39, 0x3A, 0x7F, 0x80, 0xFF)


def list_field(rng, record):
    """A field of the list, mostly of an entry in use or the next one."""
    figure = record.charge.figure
    i = rng.choice((0, figure.count - 1, figure.count, rng.randint(0, figure.count)))
    if figure.kind == aoc.RATES and 0 <= i < 10:
        return rng.choice(((OCTETS + 18 * i + rng.randrange(18), 1), (OCTETS + 18 * i + rng.randrange(8), 1),
                           (NUMBERS + 4 * (3 * i + rng.randrange(3)), 4)))
    if figure.kind == aoc.UNITS and 0 <= i < 32:
        return rng.choice(((OCTETS + 2 * i, 1), (OCTETS + 2 * i + 1, 1), (NUMBERS + 4 * i, 4)))
    return rng.choice(((OCTETS + rng.randrange(192), 1), (NUMBERS + 4 * rng.randrange(32), 4)))


def spoil_record(rng, record):
    packed = bytearray(aoc.pack(record))
    listed = record.charge.figure.kind in (aoc.UNITS, aoc.RATES)
    for _ in range(rng.choice((1, 1, 1, 1, 2, 4))):
        if rng.random() < (0.55 if listed else 0.1):
            place, size = list_field(rng, record) if rng.random() < 0.9 else (rng.randrange(56, 376), 1)
        else:
            place, size = rng.choice(CHOICES if rng.random() < 0.6 else FIELDS)
        top = 1 << 8 * size
        now = int.from_bytes(packed[place:place + size], "little")
        new = rng.choice((now + 1, now - 1, now ^ 1, rng.choice(RANGE_ENDS), rng.choice(RANGE_ENDS),
                          rng.choice(NUMBER_ENDS if size == 4 else RANGE_ENDS), rng.randrange(top)))
        packed[place:place + size] = (new % top).to_bytes(size, "little")
    return bytes(packed)


def record_sweep(rng):
    """Every telling field of every form at every end of a range, one at a time."""
    while True:
        for record in variants(rng):
            packed, figure = aoc.pack(record), record.charge.figure
            fields = CHOICES + [(NUMBERS, 4), (OCTETS, 1)]
            if figure.kind == aoc.RATES:
                fields = CHOICES + [(NUMBERS + 4 * i, 4) for i in range(3)] + [(OCTETS + i, 1) for i in range(8)]
            elif figure.kind == aoc.UNITS:
                fields = fields + [(OCTETS + 1, 1)]
            for place, size in fields:
                # A form without a figure has little to tell apart.
                for end in NUMBER_ENDS if size == 4 else RANGE_ENDS if figure.kind or place < 8 else (1, 255):
                    yield packed[:place] + end.to_bytes(size, "little") + packed[place + size:]
            for place in text_places(record):
                for end in TEXT_ENDS:
                    yield packed[:place] + bytes((end,)) + packed[place + 1:]
            if figure.kind in (aoc.RATES, aoc.UNITS):
                yield from odd_counts(record)


def text_places(record):
    """The first and last octet of each string in use, and the place after it."""
    strings = [(9, record.charge.figure.money.currency.count, 10),
               (30, record.charge.figure.association.count, 20)]
    if record.charge.figure.kind == aoc.RATES:
        strings.append((OCTETS + 8, record.charge.list.octets[7], 10))
    for start, size, most in strings:
        if size:
            yield from sorted({start, start + size - 1, start + min(size, most - 1)})


def odd_counts(record):
    """A list with nothing in it, and the fullest list with its count one under, at and over."""
    most = 10 if record.charge.figure.kind == aoc.RATES else 32
    twin = aoc.unpack(aoc.pack(record))
    twin.charge.list, twin.charge.figure.count = aoc.List(), 0
    yield aoc.pack(twin)
    entry = (0, aoc.RATE_FREE) + (0,) * 16 if most == 10 else (0, 1)
    twin.charge.list.octets[:len(entry) * most] = entry * most
    for twin.charge.figure.count in (most - 1, most, most + 1):
        yield aoc.pack(twin)


def writer_input(rng, orderly):
    chance = rng.random()
    if chance < 0.63:
        return f"W {rng.choice((254, 254, 255, 30))} {next(orderly).hex()}"
    record = long_record(rng) if chance < 0.66 else make_record(rng)
    size = len(lay(tree(record)))
    packed = spoil_record(rng, record) if rng.random() < 0.6 else aoc.pack(record)
    room = rng.choice((0, 1, size - 1, size, size, size + 1, 253, 254, 254, 255, rng.randint(0, size + 1)))
    return f"W {room} {packed.hex()}"
