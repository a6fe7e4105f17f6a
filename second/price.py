"""Request 14 of document 02: a closing figure as doubles."""

import struct

import aoc

NO_CLOSING, OUT_OF_RANGE, UNIT_LIST = 39, 10, 38
D, E = 2, 3  # services as a closing figure has them; 0 is none


def in_range(service, charge):
    """A charge that is there, and that may be written as the argument of its service's operation for its form."""
    kind = charge.figure.kind
    if service not in (D, E) or kind not in (aoc.FREE, aoc.AMOUNT, aoc.UNITS):
        return False
    try:
        aoc.put_charge(charge, aoc.INVOKE, {D: 33, E: 35}[service] + (kind == aoc.UNITS))
    except aoc.BadRecord:
        return False
    return True


def price(service, charge):
    """(number, free mark, currency, thousandths, quotient); the last two are doubles."""
    number = 0
    if service == 0:
        number = NO_CLOSING
    elif not in_range(service, charge):
        number = OUT_OF_RANGE
    elif charge.figure.kind == aoc.UNITS:
        number = UNIT_LIST
    if number or charge.figure.kind == aoc.FREE:
        return number, int(not number), aoc.Currency(), 0.0, 0.0
    money = charge.figure.money
    value = aoc.thousandths(money.number, money.multiplier)
    # The quotient of two whole numbers is their exact quotient, rounded once.
    return 0, 0, money.currency, float(value), value / 1000


def bits(double):
    return struct.pack(">d", double).hex()


def answer(service, charge):
    """The price as one line, its doubles by their bits."""
    number, free, currency, value, quotient = price(service, charge)
    return f"{number} {free} {currency.count} {bytes(currency.octets).hex()} {bits(value)} {bits(quotient)}"
