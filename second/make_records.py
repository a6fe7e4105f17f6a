"""Test inputs: valid records of every form, and components made of them."""

import aoc
from make_trees import lay, lay_some, tree

EDGES = (0, 1, 127, 128, 255, 256, 32767, 32768, 65535, 65536, 8388607, 8388608, 16777214, 16777215)
IDS = (0, 1, 127, 128, 255, 256, 32767, 32768, 32895, 32896, 65407, 65408, 65534, 65535)

# Every frame, operation (in a reject: problem) and kind of figure: (frame, operation, kind).
LISTS = ((1, 31, 4), (2, 30, 4), (1, 34, 3), (1, 36, 3))
RICH = LISTS + ((1, 32, 5), (2, 30, 5), (1, 33, 2), (1, 35, 2))
REJECTS = ((4, 0x80, 0), (4, 0x81, 0), (4, 0x82, 0), (4, 0x83, 0))
FORMS = (RICH + REJECTS + ((1, 30, 0), (2, 30, 0), (3, 0, 0), (1, 31, 0), (1, 32, 0))
         + tuple((1, operation, kind) for operation in (33, 34, 35, 36) for kind in (0, 1)))


def number(rng):
    return rng.choice(EDGES) if rng.random() < 0.6 else rng.randrange(1 << rng.randrange(1, 25))


def any_id(rng):
    return rng.choice(IDS) if rng.random() < 0.5 else rng.randrange(65536)


def text(rng, most, alphabet):
    size = rng.choice((1, 3, 3, most, rng.randint(1, most)))
    return [alphabet[rng.randrange(len(alphabet))] for _ in range(size)]


CURRENCY_OCTETS = bytes(range(128))
DIGIT_OCTETS = b"0123456789 "
# Equal but for trailing spaces, and near to that: other white octets, and spaces elsewhere.
PADDED = (b"EUR", b"EUR ", b"EUR       ", b" EUR", b"E R", b"ER", b"EUR\0", b"EUR\0 ", b"EUR \0", b"EUR\t",
          b" ", b"   ", b"          ", b"\0", b"\0 ")


def currency_text(rng):
    chance = rng.random()
    if chance < 0.35:
        return list(b"EUR")
    if chance < 0.5:
        return list(rng.choice(PADDED))
    return text(rng, 10, CURRENCY_OCTETS)


def make_record(rng, form=None, sizes=None):
    """A valid record of a form; `sizes` bounds the entries of its list."""
    frame, operation, kind = form or rng.choice(RICH if rng.random() < 0.4 else FORMS)
    record = aoc.Record(frame=frame, id=any_id(rng))
    f = record.charge.figure
    f.kind = kind
    if frame == 1 and operation == 30:
        record.detail = rng.randrange(3)
    elif frame == 3:
        record.error = rng.choice(aoc.ERRORS)
    elif frame == 4:
        if rng.random() < 0.3:
            record.unnamed, record.id = 1, 0
        record.problem = operation
        record.detail = rng.randint(0, aoc.PROBLEMS[record.problem])
        return record
    record.operation = operation
    if kind == 2:
        letters = currency_text(rng)
        f.money.currency.count = len(letters)
        f.money.currency.octets[:len(letters)] = letters
        f.money.number, f.money.multiplier = number(rng), rng.randrange(7)
    elif kind == 3:
        fill_units(rng, record.charge, size_of_list(rng, 32, sizes))
    elif kind == 4:
        fill_rates(rng, record.charge, size_of_list(rng, 10, sizes))
    elif kind == 5:
        f.arrangement = rng.randint(1, 10)
    if kind in (2, 3):
        if operation < 35:
            f.total = rng.randrange(2)
        f.billed = rng.randrange(2)
        if f.billed:
            f.billing = rng.randrange(3 if operation < 35 else 8)
    if operation >= 35 and kind:
        fill_association(rng, f.association)
    return record


def size_of_list(rng, limit, sizes):
    if sizes is not None:
        return rng.randint(*sizes)
    most = limit if rng.random() < 0.3 else 4
    return most if rng.random() < 0.1 else rng.randint(1, most)


def fill_units(rng, charge, size):
    charge.figure.count = size
    small = rng.random() < 0.5  # so that long lists often stay under 254 octets
    for i in range(size):
        known = rng.random() < 0.8
        if known:
            charge.list.numbers[i] = rng.randrange(128) if small else number(rng)
            charge.list.octets[2 * i] = 1
        if rng.random() < (0.1 if small else 0.5):
            charge.list.octets[2 * i + 1] = rng.choice((1, 16, rng.randint(1, 16)))


def fill_rates(rng, charge, size):
    charge.figure.count = size
    kinds = (1, 2, 3, 4, 5, 6) if size < 6 else rng.choice(((2, 4, 5, 6), (4, 5, 6), (1, 2, 3)))
    for i in range(size):
        kind = rng.choice(kinds)
        o = [rng.randrange(5), kind] + [0] * 16
        if kind <= 3:
            letters = currency_text(rng)
            charge.list.numbers[3 * i] = number(rng)
            o[6], o[7], o[8:8 + len(letters)] = rng.randrange(7), len(letters), letters
        if kind == 1:
            o[2], o[3], o[4] = rng.randrange(2), rng.randrange(2), rng.randrange(7)
            charge.list.numbers[3 * i + 1] = number(rng)
            if o[3]:
                o[5] = rng.randrange(7)
                charge.list.numbers[3 * i + 2] = number(rng)
        elif kind == 3:
            o[2] = rng.randrange(3)
        elif kind == 4:
            o[2] = rng.randint(1, 10)
        charge.list.octets[18 * i:18 * i + 18] = o


def fill_association(rng, a):
    a.kind = rng.randrange(4)
    if a.kind == 1:
        a.id = any_id(rng)
    elif a.kind:
        letters = text(rng, 20, DIGIT_OCTETS)
        a.count = len(letters)
        a.digits[:len(letters)] = letters
        if a.kind == 3:
            a.plan = rng.choice(aoc.PLANS)


def fitting_record(rng, form=None, sizes=None):
    """A valid record whose shortest form has at most 254 octets, and its tree."""
    while True:
        record = make_record(rng, form, sizes)
        root = tree(record)
        if len(lay(root)) <= 254:
            return record, root


def long_record(rng):
    """A valid record whose shortest form has about 254 octets, often more."""
    while True:
        form = rng.choice(LISTS)
        record = make_record(rng, form, (16, 32) if form[2] == aoc.UNITS else (4, 10))
        if len(lay(tree(record))) > 200:
            return record


def variants(rng):
    """Small valid records of every form, every kind of rate and every association."""
    for form in FORMS:
        if form[2] == aoc.RATES:
            turns = [lambda r, k=k: r.charge.list.octets[1] == k for k in range(1, 7)]
        elif form[1] in (35, 36) and form[2]:
            turns = [lambda r, k=k: r.charge.figure.association.kind == k for k in range(4)]
        else:
            turns = [lambda r: True]
        for fits in turns:
            while not fits(record := make_record(rng, form, (1, 2))):
                pass
            yield record


def loosely(rng, root):
    """Octets with random length forms, if that leaves at most 254; else the shortest."""
    laid = lay_some(rng, root, (0.0, 0.15, 0.6, 1.0))
    return laid if len(laid) <= 254 else lay(root)


def valid_component(rng, form=None):
    return loosely(rng, fitting_record(rng, form)[1])
