"""Test inputs: closing figures, and months of them."""

import aoc
from make_fields import spoil_record
from make_records import currency_text, make_record

# ---------------------------------------------------------------- closing figures

def closing_input(rng, orderly):
    """A service and a charge: in range, damaged in order, damaged at random, of another operation."""
    operation = rng.choice((33, 34, 35, 36))
    record = make_record(rng, (1, operation, rng.choice((1, 2 + (operation % 2 == 0), 2 + (operation % 2 == 0)))))
    chance = rng.random()
    packed = next(orderly) if chance < 0.3 else spoil_record(rng, record) if chance < 0.5 else aoc.pack(record)
    service = 2 + (operation > 34) if rng.random() < 0.9 else rng.choice((0, 1, 2, 3, 4, 258, 0xFFFFFFFF))
    return f"P {service} {packed[8:].hex()}"


# ---------------------------------------------------------------- months

def month_currencies(rng):
    """Few, or more than a month has rows for; some equal but for spaces at their end."""
    texts = [bytes(currency_text(rng)) for _ in range(rng.choice((1, 2, 4, 17, 20)))]
    return texts + [bytes(t.rstrip(b" ") + b" " * rng.randint(1, 10))[:10] for t in texts if t.strip(b" ") and rng.random() < 0.4]


def month_figure(rng, texts):
    """A service and a charge: most in range, money in one of the currencies."""
    operation = rng.choice((33, 33, 34, 35, 35, 36))
    record = make_record(rng, (1, operation, rng.choice((1, 2 + (operation % 2 == 0), 2 + (operation % 2 == 0), 2 + (operation % 2 == 0)))))
    if record.charge.figure.kind == aoc.AMOUNT:
        given, money = rng.choice(texts), record.charge.figure.money
        money.currency = aoc.Currency(len(given), list(given.ljust(10, bytes(1))))
    packed = spoil_record(rng, record) if rng.random() < 0.1 else aoc.pack(record)
    service = 2 + (operation > 34) if rng.random() < 0.95 else rng.choice((0, 1, 2, 3, 258))
    return f"{service},{packed[8:].hex()}"


def month_input(rng):
    """From the empty month, up to its limit, or on any octets: with a count of figures and of rows that is near its limit, or is anything."""
    texts, start = month_currencies(rng), "-"
    figures = [f"1,{month_figure(rng, texts)}" for _ in range(rng.randint(0, 30))]
    chance = rng.random()
    if chance < 0.1:
        figures.insert(rng.randint(0, len(figures)), f"{rng.randint(4060, 4100)},{month_figure(rng, texts)}")
    elif chance < 0.4:
        octets = bytearray(rng.randbytes(608) if rng.random() < 0.7 else rng.choice((b"\xff", bytes(1))) * 608)
        octets[:4] = rng.choice((rng.randrange(4096), rng.randint(4070, 4100), rng.randrange(1 << 32))).to_bytes(4, "little")
        octets[4:8] = rng.choice((rng.randrange(18), rng.randrange(1 << 32))).to_bytes(4, "little")
        for at in range(152, 536, 24):
            given = rng.choice(texts)
            if rng.random() < 0.3:
                octets[at:at + 11] = bytes((len(given),)) + given.ljust(10, bytes(1))
        start = octets.hex()
    return f"M {start} {';'.join(figures)}"
