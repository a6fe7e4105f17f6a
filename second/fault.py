"""Is the exchange at fault? Document 02, request 11, over the account of aoc.py.

The event list is that of why.py. Events are numbered from 1.
"""

import aoc
import why

BAD_LENGTHS, EVENT_REFUSED = 48, 34


def refused(outcome):
    return 1 <= outcome <= 9 or 40 <= outcome <= 45 or outcome in (13, 14)


def zero(charge):
    """Currency: the number is 0. Units: every number is 0; an entry that is not available has none."""
    if charge.figure.kind == aoc.AMOUNT:
        return charge.figure.money.number == 0
    known = charge.list.octets[0:2 * charge.figure.count:2]
    return not any(number for number, given in zip(charge.list.numbers, known) if given)


class Rules:
    """What is known of the events before one."""

    def __init__(self):
        self.counted = []       # the amounts of D in currency that were counted, in order
        self.free = False       # a free mark of D was counted

    def broken(self, phase, outcome, record):
        """The first rule that an event breaks, or 0; and it is counted."""
        of_d = record is not None and record.frame == aoc.INVOKE and record.operation in (33, 34)
        charge = record.charge if of_d else None
        amount = of_d and charge.figure.kind in (aoc.AMOUNT, aoc.UNITS)
        counted = of_d and outcome in (21, 22)
        money = amount and charge.figure.kind == aoc.AMOUNT
        rule = 0
        if amount and (phase, charge.figure.total) not in ((aoc.ACTIVE, 0), (aoc.CLEARING, 1)):
            rule = 1
        elif money and counted and self.falls(charge.figure.money):
            rule = 2
        elif amount and self.free and not zero(charge):
            rule = 3
        elif outcome == 29:
            rule = 4
        if money and counted:
            self.counted.append(charge.figure.money)
        self.free = self.free or counted and charge.figure.kind == aoc.FREE
        return rule

    def falls(self, money):
        before = [m for m in self.counted if aoc.same_currency(m.currency, money.currency)]
        return bool(before) and worth(money) < worth(before[-1])


def worth(money):
    return aoc.thousandths(money.number, money.multiplier)


def judge(events):
    """(number, rule, event)."""
    account, rules, first = aoc.Account(), Rules(), (0, 0, 0)
    for number, event in enumerate(events, 1):
        phase = account.phase
        outcome = account.event(*event)
        if refused(outcome):
            return EVENT_REFUSED, 0, number
        rule = rules.broken(phase, outcome, account.events[-1][2] if event[0] == 5 else None)
        if rule and not first[1]:
            first = 0, rule, number
    return first


def fault(rows, octets):
    events = why.split(rows, octets)
    return (BAD_LENGTHS, 0, 0) if events is None else judge(events)
