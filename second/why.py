"""Why has this call no price? Document 02, request 6, over the account of aoc.py.

An event list is rows of six numbers (kind; services asked for, 1 S, 2 D, 4 E added up; the
identifiers of S, D, E; how many octets) and the octets of all events end to end.
"""

import aoc

BAD_LENGTHS = 48
OPEN, PRICED, PASSED_OVER, NOT_AVAILABLE, RUNNING, REFUSED, NOTHING = range(1, 8)


def split(rows, octets):
    """The events as (kind, asked, identifiers, octets), or None where the slices do not add up."""
    if len(rows) % 6 or sum(rows[5::6]) != len(octets):
        return None
    events, place = [], 0
    for at in range(0, len(rows), 6):
        kind, asked, s, d, e, count = rows[at:at + 6]
        ids = tuple(i if asked >> bit & 1 else None for bit, i in enumerate((s, d, e)))
        events.append((kind, ids, octets[place:place + count]))
        place += count
    return events


def judged(events):
    """(outcome, record) of each event, and the account after them."""
    account = aoc.Account()
    seen = [(account.event(*event), account.events[-1][2]) for event in events]
    return account, seen


def service(record):
    """D or E where the record is an invoke of one of them, else None."""
    if record is None or record.frame != aoc.INVOKE or record.operation == 30:
        return None
    found = aoc.SERVICE[record.operation]
    return None if found == aoc.S else found


def explain(events):
    """(reason, event), the event counted from 1; 0 for none."""
    account, seen = judged(events)
    if account.phase != aoc.ENDED:
        return OPEN, 0

    def earliest(test):
        return next((i for i, (outcome, record) in enumerate(seen, 1) if test(outcome, record)), 0)

    def of_service(number, which):
        return earliest(lambda outcome, record: outcome == number and service(record) == which)

    def is_figure(record):
        return service(record) is not None and record.charge.figure.kind != aoc.NOTHING

    tests = (
        (PRICED, of_service(22, aoc.E) or of_service(22, aoc.D)),
        (PASSED_OVER, earliest(lambda outcome, record: outcome in (26, 27) and is_figure(record))),
        (NOT_AVAILABLE, earliest(lambda outcome, record: outcome == 23 and service(record) is not None)),
        (RUNNING, earliest(lambda outcome, record: outcome == 21)),
        (REFUSED, earliest(lambda outcome, record: 1 <= outcome <= 9 or 40 <= outcome <= 45)),
    )
    return next(((reason, event) for reason, event in tests if event), (NOTHING, 0))


def why(rows, octets):
    """(number, reason, event)."""
    events = split(rows, octets)
    return (BAD_LENGTHS, 0, 0) if events is None else (0, *explain(events))
