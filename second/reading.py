"""A component's octets as a record: document 01, with the refusals of document 02's request 8.

A recursive descent over (octets, place, end).
"""

from coding import (BAD_CONTENTS, BAD_FRAME, CUT, PAST_LIMIT, TOO_LONG, TRAILING, UNEXPECTED, UNKNOWN_COMPONENT,
                    UNKNOWN_ERROR, UNKNOWN_OPERATION, Refused, contents, empty, expect, finish, integer, no_tag,
                    of_argument, of_component, of_frame, peek, string, whole)
from records import (AMOUNT, ARRANGEMENT, BY_IDENTIFIER, BY_NUMBER, BY_PUBLIC_NUMBER, CODE, CURRENCY_MAX, CURRENCY_OCTETS,
                     DIGITS, DIGITS_MAX, DURATION, ERROR, ERRORS, FREE, INVOKE, LONGEST, NUMBER_MAX, PLANS, PROBLEMS, RATES,
                     RATES_MAX, RATE_FREE, RATE_UNKNOWN, REJECT, RESULT, UNITS, UNITS_MAX, VOLUME, Record)


def component(octets):
    if len(octets) > LONGEST:
        raise Refused(TOO_LONG)
    if not octets:
        raise Refused(CUT)
    if not 0xA1 <= octets[0] <= 0xA4:
        raise Refused(UNKNOWN_COMPONENT)
    start, stop, after = contents(octets, 0, len(octets), of_component)
    if after != len(octets):
        raise Refused(TRAILING)
    return FRAMES[octets[0]](octets, start, stop)


def identifier(octets, place, end):
    value, place = integer(octets, place, end, 0x02, -32768, 32767, of_frame)
    return value & 0xFFFF, place


def code(octets, place, end, known, unknown):
    """An operation or error value. Unknown is said at once, before what follows."""
    if peek(octets, place, end) == 0x06:
        raise Refused(unknown)
    start, stop, after = expect(octets, place, end, 0x02, of_frame)
    value = whole(octets, start, stop, of_frame, place)
    if stop - start > 4:
        raise Refused(BAD_FRAME)
    if value not in known:
        raise Refused(unknown)
    return value, after


def invoke(octets, place, end):
    record = Record(frame=INVOKE)
    record.id, place = identifier(octets, place, end)
    record.operation, place = code(octets, place, end, range(30, 37), UNKNOWN_OPERATION)
    if record.operation == 30:
        record.detail, place = integer(octets, place, end, 0x0A, 0, 2)
    elif peek(octets, place, end) == 0x05:
        place = empty(octets, place, end, 0x05)
    else:
        place = ARGUMENTS[record.operation](octets, place, end, record.charge)
    finish(place, end, of_frame)
    return record


def return_result(octets, place, end):
    record = Record(frame=RESULT)
    record.id, place = identifier(octets, place, end)
    inner, stop, after = expect(octets, place, end, 0x30, of_frame)
    record.operation, inner = code(octets, inner, stop, (30,), UNKNOWN_OPERATION)
    tag = peek(octets, inner, stop)
    if tag == 0x30:
        inner = rate_list(octets, inner, stop, record.charge)
    elif tag == 0x02:
        inner = special_arrangement(octets, inner, stop, record.charge)
    else:
        inner = empty(octets, inner, stop, 0x05)
    finish(inner, stop, of_frame)
    finish(after, end, of_frame)
    return record


def return_error(octets, place, end):
    record = Record(frame=ERROR)
    record.id, place = identifier(octets, place, end)
    record.error, place = code(octets, place, end, ERRORS, UNKNOWN_ERROR)
    finish(place, end, of_frame)
    return record


def reject(octets, place, end):
    record = Record(frame=REJECT)
    if peek(octets, place, end) == 0x05:
        place = empty(octets, place, end, 0x05, of_frame)
        record.unnamed = 1
    else:
        record.id, place = identifier(octets, place, end)
    tag = peek(octets, place, end)
    if tag not in PROBLEMS:
        raise Refused(BAD_FRAME)
    record.problem = tag
    record.detail, place = integer(octets, place, end, tag, 0, PROBLEMS[tag], of_frame)
    finish(place, end, of_frame)
    return record


FRAMES = {0xA1: invoke, 0xA2: return_result, 0xA3: return_error, 0xA4: reject}


def scaled(octets, place, end, tag):
    """An amount or a time: 81 number, 82 multiplier or scale."""
    inner, stop, after = expect(octets, place, end, tag, of_argument)
    number, inner = integer(octets, inner, stop, 0x81, 0, NUMBER_MAX)
    scale, inner = integer(octets, inner, stop, 0x82, 0, 6)
    finish(inner, stop)
    return number, scale, after


def currency(octets, place, end):
    return string(octets, place, end, 0x81, CURRENCY_MAX, CURRENCY_OCTETS)


def rate_list(octets, place, end, charge):
    """31's list: 30 with 1 to 10 entries."""
    place, stop, after = expect(octets, place, end, 0x30, of_argument)
    charge.figure.kind = RATES
    charge.figure.count = entries(octets, place, stop, RATES_MAX, rate, charge.list)
    return after


def entries(octets, place, end, limit, entry, into):
    """1 to limit of 30 {entry}, up to the enclosing end."""
    count = 0
    while True:
        if place == end and count > 0:
            return count
        if count == limit:
            raise of_argument(PAST_LIMIT if octets[place] == 0x30 else UNEXPECTED, place)
        start, stop, after = expect(octets, place, end, 0x30, of_argument)
        finish(entry(octets, start, stop, into, count), stop)
        place, count = after, count + 1


def rate(octets, place, end, into, i):
    item, place = integer(octets, place, end, 0x0A, 0, 4)
    kind = detail = stepped = scale = step_scale = multiplier = 0
    number = time = step = 0
    text = b""
    tag = peek(octets, place, end)
    if tag in (0xA1, 0xA2, 0xA3):
        kind = tag - 0xA0
        inner, stop, place = contents(octets, place, end, of_argument)
        text, inner = currency(octets, inner, stop)
        number, multiplier, inner = scaled(octets, inner, stop, 0xA2)
        if kind == DURATION:
            detail, inner = integer(octets, inner, stop, 0x83, 0, 1)
            time, scale, inner = scaled(octets, inner, stop, 0xA4)
            if peek(octets, inner, stop) == 0xA5:
                stepped = 1
                step, step_scale, inner = scaled(octets, inner, stop, 0xA5)
        elif kind == VOLUME:
            detail, inner = integer(octets, inner, stop, 0x83, 0, 2)
        finish(inner, stop)
    elif tag == 0x02:
        kind = CODE
        detail, place = integer(octets, place, end, 0x02, 1, 10)
    elif tag == 0x84 or tag == 0x85:
        kind = RATE_FREE if tag == 0x84 else RATE_UNKNOWN
        place = empty(octets, place, end, tag)
    else:
        raise no_tag(place, end, of_argument)
    into.numbers[3 * i:3 * i + 3] = (number, time, step)
    into.octets[18 * i:18 * i + 18] = (
        item, kind, detail, stepped, scale, step_scale, multiplier, len(text),
        *text, *bytes(CURRENCY_MAX - len(text)))
    return place


def special_arrangement(octets, place, end, charge):
    charge.figure.kind = ARRANGEMENT
    charge.figure.arrangement, place = integer(octets, place, end, 0x02, 1, 10)
    return place


def amount_figure(octets, place, end, charge):
    """The A1 of 33 and 35."""
    inner, stop, after = expect(octets, place, end, 0xA1, of_argument)
    charge.figure.kind = AMOUNT
    money = charge.figure.money
    text, inner = currency(octets, inner, stop)
    money.currency.count = len(text)
    money.currency.octets[:len(text)] = text
    money.number, money.multiplier, inner = scaled(octets, inner, stop, 0xA2)
    finish(inner, stop)
    return after


def units_figure(octets, place, end, charge):
    """The A1 of 34 and 36."""
    place, stop, after = expect(octets, place, end, 0xA1, of_argument)
    charge.figure.kind = UNITS
    charge.figure.count = entries(octets, place, stop, UNITS_MAX, unit, charge.list)
    return after


def unit(octets, place, end, into, i):
    if peek(octets, place, end) == 0x05:
        place = empty(octets, place, end, 0x05)
    else:
        into.numbers[i], place = integer(octets, place, end, 0x02, 0, NUMBER_MAX)
        into.octets[2 * i] = 1
    # The second 02 is always the type, also after NULL.
    if peek(octets, place, end) == 0x02:
        into.octets[2 * i + 1], place = integer(octets, place, end, 0x02, 1, 16)
    return place


def billing(octets, place, end, tag, high, figure):
    if peek(octets, place, end) == tag:
        figure.billing, place = integer(octets, place, end, tag, 0, high)
        figure.billed = 1
    return place


def during_call(figure_of):
    """33 and 34."""
    def read_it(octets, place, end, charge):
        if peek(octets, place, end) == 0x81:
            charge.figure.kind = FREE
            return empty(octets, place, end, 0x81)
        inner, stop, after = expect(octets, place, end, 0x30, of_argument)
        inner = figure_of(octets, inner, stop, charge)
        charge.figure.total, inner = integer(octets, inner, stop, 0x82, 0, 1)
        inner = billing(octets, inner, stop, 0x83, 2, charge.figure)
        finish(inner, stop)
        return after
    return read_it


def end_of_call(figure_of):
    """35 and 36: one level deeper than 33 and 34, and an association may follow."""
    def read_it(octets, place, end, charge):
        place, stop, after = expect(octets, place, end, 0x30, of_argument)
        if peek(octets, place, stop) == 0x81:
            charge.figure.kind = FREE
            place = empty(octets, place, stop, 0x81)
        else:
            inner, inner_stop, place = expect(octets, place, stop, 0x30, of_argument)
            inner = figure_of(octets, inner, inner_stop, charge)
            inner = billing(octets, inner, inner_stop, 0x82, 7, charge.figure)
            finish(inner, inner_stop)
        if peek(octets, place, stop) in (0x02, 0xA0):
            place = association(octets, place, stop, charge.figure.association)
        finish(place, stop)
        return after
    return read_it


def association(octets, place, end, into):
    if peek(octets, place, end) == 0x02:
        into.kind = BY_IDENTIFIER
        value, place = integer(octets, place, end, 0x02, -32768, 32767)
        into.id = value & 0xFFFF
        return place
    inner, stop, after = expect(octets, place, end, 0xA0, of_argument)
    if peek(octets, inner, stop) == 0x80:
        into.kind = BY_NUMBER
        inner = digits(octets, inner, stop, 0x80, into)
    else:
        into.kind = BY_PUBLIC_NUMBER
        start, inner_stop, inner = expect(octets, inner, stop, 0xA1, of_argument)
        plan = start
        into.plan, start = integer(octets, start, inner_stop, 0x0A, 0, 6)
        if into.plan not in PLANS:
            raise of_argument(BAD_CONTENTS, plan)
        finish(digits(octets, start, inner_stop, 0x12, into), inner_stop)
    finish(inner, stop)
    return after


def digits(octets, place, end, tag, into):
    text, after = string(octets, place, end, tag, DIGITS_MAX, DIGITS)
    into.count = len(text)
    into.digits[:len(text)] = text
    return after


ARGUMENTS = {
    31: rate_list,
    32: special_arrangement,
    33: during_call(amount_figure),
    34: during_call(units_figure),
    35: end_of_call(amount_figure),
    36: end_of_call(units_figure),
}


def locate(octets):
    """(0, 0, record), or the refusal 1 to 8 or 40 to 45, its offset, and None."""
    try:
        return 0, 0, component(octets)
    except Refused as refusal:
        return refusal.number, refusal.offset, None


def read(octets):
    """The same without the offset."""
    number, _, record = locate(octets)
    return number, record
