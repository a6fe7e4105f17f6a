"""The record, its numbers and limits, and its octets in memory: document 01."""

import struct
from dataclasses import dataclass, field

LONGEST = 254
NUMBER_MAX = 16_777_215
RATES_MAX, UNITS_MAX = 10, 32
CURRENCY_MAX, DIGITS_MAX = 10, 20
POWERS = (1, 10, 100, 1_000, 10_000, 100_000, 1_000_000)
ERRORS = (0, 3, 4, 7, 26)
PROBLEMS = {0x80: 2, 0x81: 7, 0x82: 2, 0x83: 4}  # problem's tag: its highest value
PLANS = (0, 1, 2, 3, 4, 6)
DIGITS = frozenset(b"0123456789 ")
CURRENCY_OCTETS = frozenset(range(0x80))

INVOKE, RESULT, ERROR, REJECT = 1, 2, 3, 4
NOTHING, FREE, AMOUNT, UNITS, RATES, ARRANGEMENT = 0, 1, 2, 3, 4, 5
DURATION, FLAT, VOLUME, CODE, RATE_FREE, RATE_UNKNOWN = 1, 2, 3, 4, 5, 6
BY_IDENTIFIER, BY_NUMBER, BY_PUBLIC_NUMBER = 1, 2, 3


def _zeros(count):
    return field(default_factory=lambda: [0] * count)


@dataclass(slots=True)
class Currency:
    count: int = 0
    octets: list = _zeros(10)


@dataclass(slots=True)
class Money:
    currency: Currency = field(default_factory=Currency)
    multiplier: int = 0
    number: int = 0


@dataclass(slots=True)
class Association:
    id: int = 0
    count: int = 0
    kind: int = 0
    plan: int = 0
    digits: list = _zeros(20)


@dataclass(slots=True)
class Figure:
    money: Money = field(default_factory=Money)
    association: Association = field(default_factory=Association)
    kind: int = 0
    total: int = 0
    billed: int = 0
    billing: int = 0
    arrangement: int = 0
    count: int = 0


@dataclass(slots=True)
class List:
    numbers: list = _zeros(32)
    octets: list = _zeros(192)


@dataclass(slots=True)
class Charge:
    figure: Figure = field(default_factory=Figure)
    list: List = field(default_factory=List)


@dataclass(slots=True)
class Record:
    frame: int = 0
    unnamed: int = 0
    id: int = 0
    operation: int = 0
    error: int = 0
    problem: int = 0
    detail: int = 0
    charge: Charge = field(default_factory=Charge)


_CHARGE = "B10sBIHHBB20s6B32I192s"
_charge_layout = struct.Struct("<" + _CHARGE)
_record_layout = struct.Struct("<BBHBBBB" + _CHARGE)
assert _charge_layout.size == 368 and _record_layout.size == 376


def _charge_values(charge):
    f, m, a = charge.figure, charge.figure.money, charge.figure.association
    return (m.currency.count, bytes(m.currency.octets), m.multiplier, m.number,
            a.id, a.count, a.kind, a.plan, bytes(a.digits),
            f.kind, f.total, f.billed, f.billing, f.arrangement, f.count,
            *charge.list.numbers, bytes(charge.list.octets))


def _charge_of(v):
    money = Money(Currency(v[0], list(v[1])), v[2], v[3])
    association = Association(v[4], v[5], v[6], v[7], list(v[8]))
    return Charge(Figure(money, association, *v[9:15]), List(list(v[15:47]), list(v[47])))


def pack_charge(charge):
    return _charge_layout.pack(*_charge_values(charge))


def unpack_charge(octets):
    return _charge_of(_charge_layout.unpack(octets))


def pack(record):
    return _record_layout.pack(
        record.frame, record.unnamed, record.id, record.operation,
        record.error, record.problem, record.detail, *_charge_values(record.charge))


def unpack(octets):
    v = _record_layout.unpack(octets)
    return Record(*v[:7], _charge_of(v[7:]))


def thousandths(number, multiplier):
    return number * POWERS[multiplier] if multiplier < len(POWERS) else 0


def signed(pattern):
    return pattern - 0x10000 if pattern >= 0x8000 else pattern


def next_identifier(i):
    """The next identifier as a 16-bit pattern: after 7FFF (32,767) comes 8000 (-32,768)."""
    return (i + 1) & 0xFFFF
