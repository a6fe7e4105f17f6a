"""A record as a component's octets, the shortest: document 01."""

from coding import BAD_RECORD, LONG_RECORD, NO_ROOM, BadRecord, need, put, put_integer, put_range, put_text
from records import (AMOUNT, ARRANGEMENT, BY_IDENTIFIER, BY_NUMBER, BY_PUBLIC_NUMBER, CODE, DIGITS, DURATION, ERROR, ERRORS,
                     FLAT, FREE, INVOKE, LONGEST, NOTHING, NUMBER_MAX, PLANS, PROBLEMS, RATES, RATES_MAX, RATE_FREE,
                     RATE_UNKNOWN, REJECT, RESULT, UNITS, UNITS_MAX, VOLUME, Association, Charge, Figure, signed)


def put_identifier(pattern):
    return put_integer(0x02, signed(pattern))


def put_currency(count, places):
    return put_text(0x81, count, places, lambda octet: octet < 0x80)


def put_digits(tag, a):
    return put_text(tag, a.count, a.digits, DIGITS.__contains__)


def put_scaled(tag, number, scale):
    return put(tag, put_range(0x81, number, 0, NUMBER_MAX) + put_range(0x82, scale, 0, 6))


def put_money(money):
    return put(0xA1, put_currency(money.currency.count, money.currency.octets)
               + put_scaled(0xA2, money.number, money.multiplier))


def put_units(count, entry_list):
    need(1 <= count <= UNITS_MAX)
    # Nothing may stand past the last entry.
    need(not any(entry_list.numbers[count:]) and not any(entry_list.octets[2 * count:]))
    body = b""
    for i in range(count):
        number, (known, kind) = entry_list.numbers[i], entry_list.octets[2 * i:2 * i + 2]
        need(known in (0, 1) and 0 <= kind <= 16)
        need(known or number == 0)
        entry = put_range(0x02, number, 0, NUMBER_MAX) if known else put(0x05, b"")
        if kind:
            entry += put_integer(0x02, kind)
        body += put(0x30, entry)
    return put(0xA1, body)


def put_rates(count, entry_list):
    need(1 <= count <= RATES_MAX)
    need(not any(entry_list.numbers[3 * count:]) and not any(entry_list.octets[18 * count:]))
    return put(0x30, b"".join(
        put_rate(entry_list.numbers[3 * i:3 * i + 3], entry_list.octets[18 * i:18 * i + 18])
        for i in range(count)))


def put_rate(numbers, octets):
    number, time, step = numbers
    item, kind, detail, stepped, scale, step_scale, multiplier, count = octets[:8]
    need(DURATION <= kind <= RATE_UNKNOWN)
    if kind != DURATION:
        need(not (stepped or scale or step_scale or time or step))
    if kind in (DURATION, FLAT, VOLUME):
        body = put_currency(count, octets[8:]) + put_scaled(0xA2, number, multiplier)
    else:
        need(not (number or multiplier or any(octets[7:])))
    if kind == DURATION:
        body += put_range(0x83, detail, 0, 1) + put_scaled(0xA4, time, scale)
        need(stepped in (0, 1))
        if stepped:
            body += put_scaled(0xA5, step, step_scale)
        else:
            need(step == 0 and step_scale == 0)
        choice = put(0xA1, body)
    elif kind == FLAT:
        need(detail == 0)
        choice = put(0xA2, body)
    elif kind == VOLUME:
        choice = put(0xA3, body + put_range(0x83, detail, 0, 2))
    elif kind == CODE:
        choice = put_range(0x02, detail, 1, 10)
    else:
        need(detail == 0)
        choice = put(0x84 if kind == RATE_FREE else 0x85, b"")
    return put(0x30, put_range(0x0A, item, 0, 4) + choice)


def put_association(a):
    if a.kind == 0:
        need(a == Association())
        return b""
    if a.kind == BY_IDENTIFIER:
        need(a == Association(kind=a.kind, id=a.id))
        return put_identifier(a.id)
    need(a.id == 0)
    if a.kind == BY_NUMBER:
        need(a.plan == 0)
        return put(0xA0, put_digits(0x80, a))
    need(a.kind == BY_PUBLIC_NUMBER and a.plan in PLANS)
    return put(0xA0, put(0xA1, put_integer(0x0A, a.plan) + put_digits(0x12, a)))


# The kinds of figure that an argument or result can have.
KINDS = {
    (INVOKE, 31): (NOTHING, RATES),
    (INVOKE, 32): (NOTHING, ARRANGEMENT),
    (INVOKE, 33): (NOTHING, FREE, AMOUNT),
    (INVOKE, 34): (NOTHING, FREE, UNITS),
    (INVOKE, 35): (NOTHING, FREE, AMOUNT),
    (INVOKE, 36): (NOTHING, FREE, UNITS),
    (RESULT, 30): (NOTHING, RATES, ARRANGEMENT),
}


def put_charge(charge, frame, operation):
    f = charge.figure
    need(f.kind in KINDS[frame, operation])
    during, at_end = operation in (33, 34), operation in (35, 36)

    # What the kind uses is copied beside it; the given charge may hold nothing else.
    used = Charge(Figure(kind=f.kind))
    if f.kind == AMOUNT:
        used.figure.money = f.money
    if f.kind in (UNITS, RATES):
        used.figure.count, used.list = f.count, charge.list
    if f.kind == ARRANGEMENT:
        used.figure.arrangement = f.arrangement
    if f.kind in (AMOUNT, UNITS):
        used.figure.billed = f.billed
        if f.billed:
            used.figure.billing = f.billing
        if during:
            used.figure.total = f.total
    if at_end and f.kind != NOTHING:
        used.figure.association = f.association
    need(used == charge)

    if f.kind == NOTHING:
        return put(0x05, b"")
    if f.kind == RATES:
        return put_rates(f.count, charge.list)
    if f.kind == ARRANGEMENT:
        return put_range(0x02, f.arrangement, 1, 10)
    if f.kind == FREE:
        body = put(0x81, b"")
    else:
        body = put_money(f.money) if f.kind == AMOUNT else put_units(f.count, charge.list)
        if during:
            body += put_range(0x82, f.total, 0, 1)
        need(f.billed in (0, 1))
        if f.billed:
            body += put_range(0x83, f.billing, 0, 2) if during else put_range(0x82, f.billing, 0, 7)
        body = put(0x30, body)
    if at_end:
        body = put(0x30, body + put_association(f.association))
    return body


def shortest(record):
    """The record's shortest form; BadRecord where a field is out of range."""
    r = record
    bare = r.charge == Charge()
    if r.frame == INVOKE:
        need(30 <= r.operation <= 36)
        need(r.unnamed == 0 and r.error == 0 and r.problem == 0)
        if r.operation == 30:
            need(bare)
            argument = put_range(0x0A, r.detail, 0, 2)
        else:
            need(r.detail == 0)
            argument = put_charge(r.charge, INVOKE, r.operation)
        body = put_identifier(r.id) + put_integer(0x02, r.operation) + argument
        return put(0xA1, body)
    if r.frame == RESULT:
        need(r.operation == 30)
        need(r.unnamed == 0 and r.error == 0 and r.problem == 0 and r.detail == 0)
        result = put_charge(r.charge, RESULT, r.operation)
        return put(0xA2, put_identifier(r.id) + put(0x30, put_integer(0x02, r.operation) + result))
    if r.frame == ERROR:
        need(r.error in ERRORS)
        need(r.unnamed == 0 and r.operation == 0 and r.problem == 0 and r.detail == 0 and bare)
        return put(0xA3, put_identifier(r.id) + put_integer(0x02, r.error))
    need(r.frame == REJECT)
    need(r.unnamed in (0, 1) and r.operation == 0 and r.error == 0 and bare)
    need(r.unnamed == 0 or r.id == 0)
    need(r.problem in PROBLEMS)
    named = put(0x05, b"") if r.unnamed else put_identifier(r.id)
    return put(0xA4, named + put_range(r.problem, r.detail, 0, PROBLEMS[r.problem]))


def write(record, room):
    """(0, octets) or (10, 11 or 12, in that order, b"")."""
    try:
        octets = shortest(record)
    except BadRecord:
        return BAD_RECORD, b""
    if len(octets) > LONGEST:
        return LONG_RECORD, b""
    if len(octets) > room:
        return NO_ROOM, b""
    return 0, octets
