"""Test inputs: accounts that hold anything, and one event."""

import answer
import aoc
from make_calls import NEAR, PADDED_NEAR, ZERO_NEAR, account_input, call_component
from make_fields import spoil_record
from make_records import any_id, number

ACCOUNT, FIGURE = 1488, 368
D_FINAL, E_FINAL = 752, 1120
KIND_PLACE = 42  # in a figure
MARKS = (0, 0, 1, 1, 2, 128, 255)
FEW_IDS = (0, 1, 2, 3, 5)  # so that one is often held twice


def any_marks(rng):
    return bytes(rng.choice(MARKS) if rng.random() < 0.9 else rng.randrange(256) for _ in range(3))


def three_ids(rng):
    return [rng.choice(FEW_IDS) if rng.random() < 0.9 else any_id(rng) for _ in range(3)]


def laid_ids(ids):
    return b"".join(i.to_bytes(2, "little") for i in ids)


def held_by_call(rng):
    """The octets of an account after some events."""
    account = aoc.Account()
    for event in account_input(rng, rng.randint(3, 9))[2:].split(";"):
        answer.do(account, event)
    return bytearray(account.octets)


def past_places(rng, record):
    """A charge whose currency has spaces up to a count past its places, or which has a multiplier past 6."""
    twin = aoc.unpack(aoc.pack(record))
    money = twin.charge.figure.money
    if rng.random() < 0.6:
        money.currency.octets[money.currency.count:] = bytes((0x20,)) * (10 - money.currency.count)
        money.currency.count = rng.choice((10, 11, 13, 255))
    if rng.random() < 0.5:
        money.number, money.multiplier = number(rng), rng.choice((7, 8, 16, 255))
    return aoc.pack(twin)


def held_finals(rng, octets):
    """The finals are a component's own charge, often with a field of it out of its range, or a bit changed; at times one is none."""
    account = bytearray(ACCOUNT)
    account[0] = aoc.CLEARING
    record = aoc.read(octets)[1] or aoc.Record()
    for place in (D_FINAL, E_FINAL):
        laid = rng.choices((spoil_record, past_places, lambda rng, record: aoc.pack(record)), (3, 2, 5))[0]
        account[place:place + FIGURE] = laid(rng, record)[8:]
        if rng.random() < 0.4:
            account[place + rng.randrange(48)] ^= 1 << rng.randrange(8)
        if rng.random() < 0.15:
            account[place + KIND_PLACE] = aoc.NOTHING
    return account


def held_status(rng, account, ids):
    """The requests, which decide before any figure does: as they are, none, or some with these identifiers; at times the marks."""
    chance = rng.random()
    if chance < 0.3:
        account[1:4] = bytes(3)
    elif chance < 0.75:
        account[1:10] = any_marks(rng) + laid_ids(ids)
    if rng.random() < 0.3:
        account[10:16] = any_marks(rng) + any_marks(rng)


def held_phase(rng, account, kind, phase):
    """Any phase, one in which the event is allowed (a component: this one), or as it is."""
    chance = rng.random()
    if chance < 0.3:
        account[0] = rng.randrange(7)
    elif chance < 0.9:
        account[0] = phase if kind == 5 else rng.choice(aoc.ALLOWED.get(aoc.KIND.get(kind), (phase,)))


def held_input(rng):
    """An account that no call need have left, and an event of any kind."""
    near = rng.sample(rng.choice((NEAR, NEAR, PADDED_NEAR, ZERO_NEAR)), rng.choice((1, 1, 2, 3)))
    ids = three_ids(rng)
    phase = rng.choice((aoc.ACTIVE, aoc.CLEARING, aoc.CLEARING))
    octets = call_component(rng, phase, near, ids)
    chance = rng.random()
    if chance < 0.25:
        account = bytearray(rng.randbytes(ACCOUNT))
    else:
        account = held_finals(rng, octets) if chance < 0.75 else held_by_call(rng)
        for _ in range(rng.randrange(4)):
            account[rng.randrange(ACCOUNT)] = rng.randrange(256)
        if rng.random() < 0.5:
            octets = call_component(rng, phase, near, ids)
    kind = 5
    if rng.random() < 0.25:
        kind = rng.choice((rng.randrange(9), rng.randrange(9), rng.randrange(9), rng.randrange(256)))
    held_status(rng, account, ids)
    held_phase(rng, account, kind, phase)
    # What the kind does not use is not looked at: the octets of all but a component, all but the kind of all but a Setup.
    event = bytes((kind,)) + (bytes(9) if rng.random() < 0.3 else any_marks(rng) + laid_ids(three_ids(rng)))
    return f"Z {account.hex()} {event.hex()} {octets.hex()}"
