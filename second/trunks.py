"""Components of trunks between private exchanges (document 02, request 1; source document 001): read, written, replied to.

Written from document 02, source document 001 and their readings (docs/READINGS.md) and from nothing else. How elements,
lengths and numbers are coded is document 01's, and so is taken from aoc.py.
"""

import struct
from dataclasses import dataclass, field

import aoc
from aoc import (AMOUNT, BAD_CONTENTS, BAD_FRAME, CUT, DIGITS, DIGITS_MAX, FREE, LONGEST, MISSING, NO_ROOM, NOTHING, NOT_SHORTEST, PAST_LIMIT, PLANS, RATES,
                 TOO_LONG, TRAILING, UNEXPECTED, UNKNOWN_COMPONENT, UNKNOWN_ERROR, UNKNOWN_OPERATION, Association, Charge, Figure, Refused,
                 contents, empty, expect, finish, integer, need, no_tag, of_argument, of_component, of_frame, peek, put, put_integer, put_range)

PUBLIC, PRIVATE = aoc.PROFILES
INVOKE, RESULT, ERROR, REJECT, EXTENSION = 1, 2, 3, 4, 10
CHARGE_REQUEST, GET_FINAL, FINAL, INTERIM, RATE, COMPLETE, DIVERSION = range(59, 66)
ERRORS = (3, 10, 1008, 1016)
UNSPECIFIED = 1008
BY_NUMBER, BY_PUBLIC, BY_PRIVATE = 2, 3, 4
FROM_BEGINNING = 7  # a rate: 86
MODES_MAX, KEPT_MAX = 7, 242
BILLINGS = {FINAL: (0, 2, 3, 4, 5, 6, 7), INTERIM: (0, 2)}


@dataclass(slots=True)
class Trunk:
    """extended: 0 no extension, 1 one, 2 a list; extension: its contents, as they are written."""
    frame: int = 0
    unnamed: int = 0
    id: int = 0
    error: int = 0
    operation: int = 0
    problem: int = 0
    modes: bytes = b""
    user: Association = field(default_factory=Association)
    detail: int = 0
    entity: int = 0
    extended: int = 0
    extension: bytes = b""
    charge: Charge = field(default_factory=Charge)


def pack(t):
    """The component in memory: lead, modes, user, detail, entity, four zeros; the extension; the charge."""
    a = t.user
    return (struct.pack("<BBHHBB", t.frame, t.unnamed, t.id, t.error, t.operation, t.problem)
            + bytes((len(t.modes),)) + t.modes.ljust(MODES_MAX, b"\0")
            + struct.pack("<HHBB20s", a.id, a.count, a.kind, a.plan, bytes(a.digits))
            + bytes((t.detail, t.entity)) + bytes(4)
            + bytes((t.extended, len(t.extension))) + t.extension.ljust(KEPT_MAX, b"\0")
            + aoc.pack_charge(t.charge))


def unpack(octets):
    """The component of its octets in memory; None where it has something in a place that is not used.

    Four octets are no field's: all that is not used is zero.
    """
    if any(octets[44:48]):
        return None
    v = struct.unpack("<BBHHBB8sHHBB20sBB4xBB242s", octets[:292])
    modes, count, kept = v[6], v[15], v[16]
    if modes[0] > MODES_MAX or any(modes[1 + modes[0]:]) or count > KEPT_MAX or any(kept[count:]):
        return None
    user = Association(*v[7:11], list(v[11]))
    return Trunk(*v[:6], modes[1:1 + modes[0]], user, v[12], v[13], v[14], kept[:count], aoc.unpack_charge(octets[292:]))


# ---------------------------------------------------------------- reading

def digits(octets, place, end, tag, into):
    start, stop, after = expect(octets, place, end, tag, of_argument)
    text = octets[start:stop]
    if not text:
        raise of_argument(NOT_SHORTEST, place)
    if len(text) > DIGITS_MAX or not DIGITS.issuperset(text):
        raise of_argument(BAD_CONTENTS, place)
    into.count = len(text)
    into.digits[:len(text)] = text
    return after


def number(octets, place, end, into):
    """80 digits; A1 public or A5 private, each with a kind and digits."""
    tag = peek(octets, place, end)
    if tag not in (0x80, 0xA1, 0xA5):
        raise no_tag(place, end, of_argument)
    if tag == 0x80:
        into.kind = BY_NUMBER
        return digits(octets, place, end, tag, into)
    into.kind = BY_PUBLIC if tag == 0xA1 else BY_PRIVATE
    inner, stop, after = contents(octets, place, end, of_argument)
    kind_at = inner
    into.plan, inner = integer(octets, inner, stop, 0x0A, 0, 6)
    if into.plan not in PLANS:
        raise of_argument(BAD_CONTENTS, kind_at)
    finish(digits(octets, inner, stop, 0x12, into), stop)
    return after


def association(octets, place, end, into):
    """02 identifier, A0 with a number, or none."""
    tag = peek(octets, place, end)
    if tag == 0x02:
        into.kind = 1
        value, place = integer(octets, place, end, 0x02, -32768, 32767)
        into.id = value & 0xFFFF
    elif tag == 0xA0:
        place = address(octets, place, end, 0xA0, into)
    return place


def address(octets, place, end, tag, into):
    """An element with this tag that holds a number, or none."""
    if peek(octets, place, end) != tag:
        return place
    inner, stop, after = contents(octets, place, end, of_argument)
    finish(number(octets, inner, stop, into), stop)
    return after


def currency(octets, place, end):
    """0 to 10 octets, each below 80."""
    start, stop, after = expect(octets, place, end, 0x81, of_argument)
    text = octets[start:stop]
    if len(text) > aoc.CURRENCY_MAX or any(octet >= 0x80 for octet in text):
        raise of_argument(BAD_CONTENTS, place)
    return text, after


# ---- extensions. "coding and shortest form stay those of 01" (02, 1): any length form is read and the shortest is written, inside them too;
# "Accept it there, nested or mixed" (02, 3): 80 on what is constructed, at any depth. So an extension is read as elements to the bottom, and the
# record has the octets that are written of them.

def any_element(octets, place, end):
    """One element of any tag: what is written of it, and the place after it. 00 is the end marker's and no tag."""
    if place >= end:
        raise of_argument(MISSING, end)
    tag = octets[place]
    if tag == 0:
        raise of_argument(UNEXPECTED, place)
    start, stop, after = contents(octets, place, end, of_argument)
    if not tag & aoc.CONSTRUCTED:
        return put(tag, octets[start:stop]), after
    body = b""
    while start < stop:
        part, start = any_element(octets, start, stop)
        body += part
    return put(tag, body), after


def object_identifier(octets, place, end):
    """06: numbers in octets of seven bits, the last octet of each below 80, each in the fewest octets (X.209)."""
    start, stop, after = expect(octets, place, end, 0x06, of_argument)
    body = octets[start:stop]
    if not body or any(octet == 0x80 and (i == 0 or body[i - 1] < 0x80) for i, octet in enumerate(body)):
        raise of_argument(NOT_SHORTEST, place)
    if body[-1] >= 0x80:
        raise of_argument(BAD_CONTENTS, place)
    return put(0x06, body), after


def one_extension(octets, place, end):
    """06 identifier, then one element of any tag: what is written of it, and the place after it."""
    named, place = object_identifier(octets, place, end)
    argument, place = any_element(octets, place, end)
    return named + argument, place


def extension_list(octets, place, end):
    """30 with one, any number of times."""
    body = b""
    while place < end:
        start, stop, place = expect(octets, place, end, 0x30, of_argument)
        part, last = one_extension(octets, start, stop)
        finish(last, stop)
        body += put(0x30, part)
    return body, place


def in_extension(octets, start, stop, kind):
    """The contents of an extension of this kind: what is written of them."""
    body, last = (one_extension if kind == 1 else extension_list)(octets, start, stop)
    if len(body) > KEPT_MAX:
        raise of_argument(BAD_CONTENTS, start)
    finish(last, stop)
    return body


def kept(octets, place, end, t, kind):
    """The element at place holds one extension, or a list of them."""
    start, stop, after = contents(octets, place, end, of_argument)
    t.extended, t.extension = kind, in_extension(octets, start, stop, kind)
    return after


def extension(octets, place, end, t):
    tag = peek(octets, place, end)
    if tag in (0xA1, 0xA2):
        return kept(octets, place, end, t, tag - 0xA0)
    return place


# ---- arguments and results

def in_sequence(inside):
    """30 {inside; optional extension}."""
    def read_it(octets, place, end, t):
        inner, stop, after = expect(octets, place, end, 0x30, of_argument)
        inner = inside(octets, inner, stop, t)
        finish(extension(octets, inner, stop, t), stop)
        return after
    return read_it


def modes(octets, place, end, t):
    place, stop, after = expect(octets, place, end, 0x30, of_argument)
    found = []
    while place < stop:
        if len(found) == MODES_MAX:
            raise of_argument(PAST_LIMIT if octets[place] == 0x0A else UNEXPECTED, place)
        mode, place = integer(octets, place, stop, 0x0A, 0, 6)
        found.append(mode)
    t.modes = bytes(found)
    return after


def detail(high):
    def read_it(octets, place, end, t):
        t.detail, place = integer(octets, place, end, 0x0A, 0, high)
        return place
    return read_it


def get_final(octets, place, end, t):
    """05 00, or the extension itself."""
    tag = peek(octets, place, end)
    if tag == 0x05:
        return empty(octets, place, end, 0x05)
    if tag not in (0xA1, 0xA2):
        raise no_tag(place, end, of_argument)
    return extension(octets, place, end, t)


def charged(octets, place, end, t):
    """61 and 62: 80 00, 81 00, or 30 {A1 {currency, amount}; optional 82 billing}."""
    f = t.charge.figure
    tag = peek(octets, place, end)
    if tag == 0x80:
        return empty(octets, place, end, 0x80)
    if tag == 0x81:
        f.kind = FREE
        return empty(octets, place, end, 0x81)
    outer, outer_stop, after = expect(octets, place, end, 0x30, of_argument)
    inner, stop, outer = expect(octets, outer, outer_stop, 0xA1, of_argument)
    f.kind = AMOUNT
    text, inner = currency(octets, inner, stop)
    f.money.currency.count = len(text)
    f.money.currency.octets[:len(text)] = text
    f.money.number, f.money.multiplier, inner = aoc.scaled(octets, inner, stop, 0xA2)
    finish(inner, stop)
    if peek(octets, outer, outer_stop) == 0x82:
        billing_at = outer
        allowed = BILLINGS[t.operation]
        f.billing, outer = integer(octets, outer, outer_stop, 0x82, 0, allowed[-1])
        if f.billing not in allowed:
            raise of_argument(BAD_CONTENTS, billing_at)
        f.billed = 1
    finish(outer, outer_stop)
    return after


def final(octets, place, end, t):
    return association(octets, charged(octets, place, end, t), end, t.charge.figure.association)


def tariff(octets, place, end, t):
    """05 00, or 30 with 1 to 10 rates."""
    if peek(octets, place, end) == 0x05:
        return empty(octets, place, end, 0x05)
    place, stop, after = expect(octets, place, end, 0x30, of_argument)
    t.charge.figure.kind = RATES
    t.charge.figure.count = aoc.entries(octets, place, stop, aoc.RATES_MAX, rate, t.charge.list)
    return after


def rate(octets, place, end, into, i):
    item, place = integer(octets, place, end, 0x0A, 0, 4)
    row = dict.fromkeys(("detail", "stepped", "scale", "step_scale", "multiplier", "number", "time", "step"), 0)
    text = b""
    tag = peek(octets, place, end)
    if tag in (0xA1, 0xA2, 0xA3):
        kind = tag - 0xA0
        inner, stop, place = contents(octets, place, end, of_argument)
        text, inner = currency(octets, inner, stop)
        row["number"], row["multiplier"], inner = aoc.scaled(octets, inner, stop, 0xA2)
        if kind == aoc.DURATION:
            row["detail"], inner = integer(octets, inner, stop, 0x83, 0, 1)
            row["time"], row["scale"], inner = aoc.scaled(octets, inner, stop, 0xA4)
            if peek(octets, inner, stop) == 0xA5:
                row["stepped"] = 1
                row["step"], row["step_scale"], inner = aoc.scaled(octets, inner, stop, 0xA5)
        elif kind == aoc.VOLUME:
            row["detail"], inner = integer(octets, inner, stop, 0x83, 0, 2)
        finish(inner, stop)
    elif tag == 0x02:
        kind = aoc.CODE
        row["detail"], place = integer(octets, place, end, 0x02, 1, 10)
    elif tag in (0x84, 0x85, 0x86):
        kind = tag - 0x7F
        place = empty(octets, place, end, tag)
    else:
        raise no_tag(place, end, of_argument)
    into.numbers[3 * i:3 * i + 3] = (row["number"], row["time"], row["step"])
    into.octets[18 * i:18 * i + 18] = (
        item, kind, row["detail"], row["stepped"], row["scale"], row["step_scale"], row["multiplier"], len(text), *text.ljust(aoc.CURRENCY_MAX, b"\0"))
    return place


def complete(octets, place, end, t):
    return association(octets, number(octets, place, end, t.user), end, t.charge.figure.association)


def diversion(octets, place, end, t):
    t.detail, place = integer(octets, complete(octets, place, end, t), end, 0x0A, 0, 3)
    return place


ARGUMENTS = {
    CHARGE_REQUEST: in_sequence(modes),
    GET_FINAL: get_final,
    FINAL: in_sequence(final),
    INTERIM: in_sequence(charged),
    RATE: in_sequence(tariff),
    COMPLETE: in_sequence(complete),
    DIVERSION: in_sequence(diversion),
}
RESULTS = {CHARGE_REQUEST: in_sequence(detail(6)), COMPLETE: in_sequence(detail(2))}


# ---- frames

def invoke(octets, place, end):
    t = Trunk(frame=INVOKE)
    t.id, place = aoc.identifier(octets, place, end)
    t.operation, place = aoc.code(octets, place, end, ARGUMENTS, UNKNOWN_OPERATION)
    finish(ARGUMENTS[t.operation](octets, place, end, t), end, of_frame)
    return t


def return_result(octets, place, end):
    t = Trunk(frame=RESULT)
    t.id, place = aoc.identifier(octets, place, end)
    inner, stop, after = expect(octets, place, end, 0x30, of_frame)
    t.operation, inner = aoc.code(octets, inner, stop, RESULTS, UNKNOWN_OPERATION)
    finish(RESULTS[t.operation](octets, inner, stop, t), stop, of_frame)
    finish(after, end, of_frame)
    return t


def return_error(octets, place, end):
    t = Trunk(frame=ERROR)
    t.id, place = aoc.identifier(octets, place, end)
    t.error, place = aoc.code(octets, place, end, ERRORS, UNKNOWN_ERROR)
    if t.error == UNSPECIFIED and peek(octets, place, end) == 0x30:
        try:
            place = kept(octets, place, end, t, 1)
        except Refused as refusal:
            raise refusal if refusal.number < MISSING else Refused(BAD_FRAME)
    finish(place, end, of_frame)
    return t


def reject(octets, place, end):
    r = aoc.reject(octets, place, end)
    return Trunk(frame=REJECT, unnamed=r.unnamed, id=r.id, problem=r.problem, detail=r.detail)


def network(octets, place, end):
    """The network facility extension: every failure inside is 6."""
    t = Trunk(frame=EXTENSION)
    try:
        t.detail, place = integer(octets, place, end, 0x80, 0, 1)
        place = address(octets, place, end, 0xA1, t.user)
        t.entity, place = integer(octets, place, end, 0x82, 0, 1)
        finish(address(octets, place, end, 0xA3, t.charge.figure.association), end)
    except Refused:
        raise Refused(BAD_FRAME) from None
    return t


FRAMES = {0xA1: invoke, 0xA2: return_result, 0xA3: return_error, 0xA4: reject, 0xAA: network}


def component(octets):
    if len(octets) > LONGEST:
        raise Refused(TOO_LONG)
    if not octets:
        raise Refused(CUT)
    if octets[0] not in FRAMES:
        raise Refused(UNKNOWN_COMPONENT)
    start, stop, after = contents(octets, 0, len(octets), of_component)
    if after != len(octets):
        raise Refused(TRAILING)
    return FRAMES[octets[0]](octets, start, stop)


def locate(profile, octets):
    """(0, 0, a record of the family that the profile octet names), or the refusal, its offset, and None."""
    if profile == PUBLIC:
        return aoc.locate(octets)
    if profile != PRIVATE:
        return aoc.OTHER_PROFILE, 0, None
    try:
        return 0, 0, component(octets)
    except Refused as refusal:
        return refusal.number, refusal.offset, None


# ---------------------------------------------------------------- writing

def put_number(a):
    need(a.id == 0)
    if a.kind == BY_NUMBER:
        need(a.plan == 0)
        return aoc.put_digits(0x80, a)
    need(a.kind in (BY_PUBLIC, BY_PRIVATE) and a.plan in PLANS)
    return put(0xA1 if a.kind == BY_PUBLIC else 0xA5, put_integer(0x0A, a.plan) + aoc.put_digits(0x12, a))


def put_address(tag, a):
    if a.kind == 0:
        need(a == Association())
        return b""
    return put(tag, put_number(a))


def put_association(a):
    if a.kind == 1:
        need(a == Association(kind=1, id=a.id))
        return aoc.put_identifier(a.id)
    return put_address(0xA0, a)


def put_currency(count, places):
    need(count <= len(places) and all(octet < 0x80 for octet in places[:count]) and not any(places[count:]))
    return put(0x81, bytes(places[:count]))


def put_kept(tag, t):
    """The writer takes what the reader would leave in the record, and nothing else: the shortest form of what it is."""
    need(len(t.extension) <= KEPT_MAX)
    try:
        need(in_extension(t.extension, 0, len(t.extension), t.extended) == t.extension)
    except Refused:
        need(False)
    return put(tag, t.extension)


def put_extension(t):
    need(t.extended in (0, 1, 2))
    if t.extended == 0:
        need(not t.extension)
        return b""
    return put_kept(0xA0 + t.extended, t)


def put_figure(t):
    f = t.charge.figure
    need(f.kind in (NOTHING, FREE, AMOUNT))
    used = Figure(kind=f.kind, association=f.association)
    if f.kind == AMOUNT:
        used.money, used.billed, used.billing = f.money, f.billed, f.billing if f.billed else 0
    need(f == used and f.billed in (0, 1))
    if f.kind != AMOUNT:
        return put(0x80 if f.kind == NOTHING else 0x81, b"")
    m = f.money
    body = put(0xA1, put_currency(m.currency.count, m.currency.octets) + aoc.put_scaled(0xA2, m.number, m.multiplier))
    if f.billed:
        need(f.billing in BILLINGS[t.operation])
        body += put_integer(0x82, f.billing)
    return put(0x30, body)


def put_rate(numbers, octets):
    """As document 01's, but for a currency of no octets and for 86."""
    kind, count = octets[1], octets[7]
    if kind == FROM_BEGINNING:
        need(not any(numbers) and not any(octets[2:]))
        return put(0x30, put_range(0x0A, octets[0], 0, 4) + put(0x86, b""))
    if count or kind not in (aoc.DURATION, aoc.FLAT, aoc.VOLUME):
        return aoc.put_rate(numbers, octets)
    # The empty currency: written with one octet, which is then taken out, its lengths one less.
    need(not any(octets[8:]))
    whole = aoc.put_rate(numbers, (*octets[:7], 1, 0x41, *octets[9:]))
    body = whole[2:]
    item, choice = body[:3], body[3:]
    inner = choice[2:]
    return put(0x30, item + put(choice[0], put(0x81, b"") + inner[3:]))


def put_tariff(t):
    charge = t.charge
    f = charge.figure
    if f.kind == NOTHING:
        need(charge == Charge())
        return put(0x05, b"")
    need(f == Figure(kind=RATES, count=f.count) and 1 <= f.count <= aoc.RATES_MAX)
    rows = charge.list
    need(not any(rows.numbers[3 * f.count:]) and not any(rows.octets[18 * f.count:]))
    return put(0x30, b"".join(put_rate(rows.numbers[3 * i:3 * i + 3], rows.octets[18 * i:18 * i + 18]) for i in range(f.count)))


def put_body(t):
    """What a body may use is copied beside it; nothing else may be in it."""
    used = Trunk(t.frame, t.unnamed, t.id, t.error, t.operation, t.problem, extended=t.extended, extension=t.extension)
    other = t.charge.figure.association
    if t.frame == INVOKE and t.operation == GET_FINAL:
        need(t == used)
        return put_extension(t) or put(0x05, b"")
    if t.frame == RESULT:
        used.detail = t.detail
        body = put_range(0x0A, t.detail, 0, 6 if t.operation == CHARGE_REQUEST else 2)
    elif t.operation == CHARGE_REQUEST:
        used.modes = t.modes
        need(len(t.modes) <= MODES_MAX)
        body = put(0x30, b"".join(put_range(0x0A, mode, 0, 6) for mode in t.modes))
    elif t.operation in (FINAL, INTERIM):
        used.charge = t.charge
        need(t.charge.list == aoc.List())
        body = put_figure(t)
        if t.operation == FINAL:
            body += put_association(other)
        else:
            need(other == Association())
    elif t.operation == RATE:
        used.charge = t.charge
        body = put_tariff(t)
    else:
        used.user = t.user
        used.charge.figure.association = other
        body = put_number(t.user) + put_association(other)
        if t.operation == DIVERSION:
            used.detail = t.detail
            body += put_range(0x0A, t.detail, 0, 3)
    need(t == used)
    return put(0x30, body + put_extension(t))


def octets_of(t):
    if t.frame == INVOKE:
        need(t.operation in ARGUMENTS and not (t.unnamed or t.error or t.problem))
        return put(0xA1, aoc.put_identifier(t.id) + put_integer(0x02, t.operation) + put_body(t))
    if t.frame == RESULT:
        need(t.operation in RESULTS and not (t.unnamed or t.error or t.problem))
        return put(0xA2, aoc.put_identifier(t.id) + put(0x30, put_integer(0x02, t.operation) + put_body(t)))
    if t.frame == ERROR:
        need(t == Trunk(ERROR, 0, t.id, t.error, extended=t.extended, extension=t.extension) and t.error in ERRORS)
        need(t.extended == 0 and not t.extension or t.extended == 1 and t.error == UNSPECIFIED)
        return put(0xA3, aoc.put_identifier(t.id) + put_integer(0x02, t.error) + (put_kept(0x30, t) if t.extended else b""))
    if t.frame == REJECT:
        need(t == Trunk(REJECT, t.unnamed, t.id, problem=t.problem, detail=t.detail))
        need(t.unnamed in (0, 1) and t.problem in aoc.PROBLEMS and not (t.unnamed and t.id))
        named = put(0x05, b"") if t.unnamed else aoc.put_identifier(t.id)
        return put(0xA4, named + put_range(t.problem, t.detail, 0, aoc.PROBLEMS[t.problem]))
    need(t.frame == EXTENSION)
    used = Trunk(EXTENSION, user=t.user, detail=t.detail, entity=t.entity)
    used.charge.figure.association = t.charge.figure.association
    need(t == used)
    return put(0xAA, put_range(0x80, t.detail, 0, 1) + put_address(0xA1, t.user) + put_range(0x82, t.entity, 0, 1)
               + put_address(0xA3, t.charge.figure.association))


def write(t, room=LONGEST):
    """(0, octets), or 10, 11 or 12 and none."""
    try:
        need(t is not None)
        octets = octets_of(t)
    except aoc.BadRecord:
        return aoc.BAD_RECORD, b""
    if len(octets) > LONGEST:
        return aoc.LONG_RECORD, b""
    if len(octets) > room:
        return NO_ROOM, b""
    return 0, octets


def write_by(profile, packed, room):
    """A record in memory, of the family that the profile octet names: 17 for another octet, before all else."""
    if profile == PUBLIC:
        return aoc.write(aoc.unpack(packed), room)
    return write(unpack(packed), room) if profile == PRIVATE else (aoc.OTHER_PROFILE, b"")


# ---------------------------------------------------------------- element and reply

def element(octets):
    """(0, the profile octet, the components' starts), or (15, 0, [])."""
    number, starts = aoc.element(octets)
    return number, 0 if number else octets[2], starts


def step_through(octets, place):
    """What stands at a place of an element: (number, offset, the profile octet, record or None, the place after it, whether it is the end)."""
    number, profile, starts = element(octets)
    if number:
        return number, 0, 0, None, 0, False
    if place == len(octets):
        return 0, 0, profile, None, 0, True
    if place not in starts:
        return aoc.BAD_PLACE, 0, 0, None, 0, False
    after = (starts + [len(octets)])[starts.index(place) + 1]
    number, offset, found = locate(profile, octets[place:after])
    return number, offset, profile, found, after, False


def reply(profile, octets, room=LONGEST):
    """The reject due for a component: 0 and its octets, none where none is due; or 17, or 12."""
    number, _, _ = locate(profile, octets)
    if number == aoc.OTHER_PROFILE:
        return aoc.OTHER_PROFILE, b""
    if profile == PUBLIC:
        return aoc.reply(octets, room)
    first = octets[:1]
    if number == 0 or first == b"\xA4" or first == b"\xAA" and number == BAD_FRAME:
        return 0, b""
    answer = Trunk(REJECT)
    if number in (UNKNOWN_OPERATION, UNKNOWN_ERROR) or number >= MISSING:
        # These come after the identifier, which is good.
        start, stop, _ = contents(octets, 0, len(octets), of_component)
        answer.id, _ = aoc.identifier(octets, start, stop)
        if number == UNKNOWN_ERROR:
            answer.problem, answer.detail = 0x83, 2
        elif first == b"\xA2":
            answer.problem, answer.detail = 0x82, 2
        else:
            answer.problem, answer.detail = 0x81, 1 if number == UNKNOWN_OPERATION else 2
    else:
        answer.unnamed, answer.problem = 1, 0x80
        answer.detail = {UNKNOWN_COMPONENT: 0, BAD_FRAME: 1}.get(number, 2)
    return write(answer, room)


# ---------------------------------------------------------------- lines

def answer_line(line):
    """One line of the line program for both families: the profile octet, then the component."""
    octets = aoc.octets_of_line(line)
    if not octets:
        return "bad line"
    profile, octets = octets[0], octets[1:]
    number, _, record = locate(profile, octets)
    if number:
        return f"refused {number}"
    return (write if profile == PRIVATE else aoc.write)(record, LONGEST)[1].hex(" ").upper()
