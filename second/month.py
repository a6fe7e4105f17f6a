"""Request 9 of document 02: a month's figures per currency.

What was added is kept as a list, and every total is picked out of it at the end: those that count, then their sum. A month may begin
with any 608 octets: then the totals are added to what they hold, and wrap as numbers of their width do.
"""

import struct

import aoc
import price

OUT_OF_RANGE, FULL, TOO_MANY_CURRENCIES = 10, 46, 47
MOST_FIGURES, MOST_CURRENCIES = 4096, 16
NO_BILLING = 8
ROW = "B10sBIQ"
_layout = struct.Struct("<4I17Q" + ROW * 16 + "18I")
assert _layout.size == 608


class Row:
    def __init__(self, count, octets, unused, calls, total):
        self.currency = aoc.Currency(count, list(octets))
        self.unused, self.calls, self.sum = unused, calls, total


class Month:
    def __init__(self, octets=bytes(608)):
        values = _layout.unpack(octets)
        self.added, self.count, self.absent, self.free = values[:4]
        self.units = list(values[4:21])
        self.rows = [Row(*values[at:at + 5]) for at in range(21, 101, 5)]
        self.table = list(values[101:])
        self.seen = [row.currency for row in self.rows[:self.count]]   # the currencies that have a row
        self.kept = []
        self.judged = {}

    def in_range(self, service, charge):
        """The same object is judged once: months of thousands of figures repeat a few."""
        key = service, id(charge)
        if key not in self.judged:
            self.judged[key] = price.in_range(service, charge), charge
        return self.judged[key][0]

    def add(self, service, charge):
        money = charge.figure.money
        if not self.in_range(service, charge):
            return OUT_OF_RANGE
        if self.added + len(self.kept) >= MOST_FIGURES:
            return FULL
        if charge.figure.kind == aoc.AMOUNT and not any(aoc.same_currency(c, money.currency) for c in self.seen):
            if len(self.seen) == MOST_CURRENCIES:
                return TOO_MANY_CURRENCIES
            self.rows[len(self.seen)] = Row(money.currency.count, money.currency.octets, 0, 0, 0)
            self.seen.append(money.currency)
            self.count = len(self.seen)
        self.kept.append((service, charge))
        return 0

    def octets(self):
        """The totals of all that were added."""
        figures = [charge for _, charge in self.kept]
        amounts = [charge.figure.money for charge in figures if charge.figure.kind == aoc.AMOUNT]
        entries = [(charge.list.octets[2 * i], charge.list.octets[2 * i + 1], charge.list.numbers[i])
                   for charge in figures if charge.figure.kind == aoc.UNITS for i in range(charge.figure.count)]
        rows, left = [], amounts
        for i, row in enumerate(self.rows):
            # of rows in memory that are equal, the first has all
            own = [m for m in left if i < len(self.seen) and aoc.same_currency(m.currency, row.currency)]
            left = [m for m in left if i >= len(self.seen) or not aoc.same_currency(m.currency, row.currency)]
            rows += (row.currency.count, bytes(row.currency.octets), row.unused, (row.calls + len(own)) % 2**32,
                     (row.sum + sum(aoc.thousandths(m.number, m.multiplier) for m in own)) % 2**64)
        units = [(start + sum(number for known, kind, number in entries if known and kind == k)) % 2**64
                 for k, start in enumerate(self.units)]
        table = [(start + sum(1 for service, charge in self.kept
                              if (service, charge.figure.billing if charge.figure.billed else NO_BILLING) == (2 + k // 9, k % 9))) % 2**32
                 for k, start in enumerate(self.table)]
        free = sum(1 for charge in figures if charge.figure.kind == aoc.FREE)
        absent = sum(1 for known, _, _ in entries if not known)
        return _layout.pack((self.added + len(self.kept)) % 2**32, self.count, (self.absent + absent) % 2**32,
                            (self.free + free) % 2**32, *units, *rows, *table)


def answer(octets, figures):
    """The numbers of (times, service, charge), each run of one number as `number*times`; and the month's octets."""
    month, runs = Month(octets), []
    for times, service, charge in figures:
        for _ in range(times):
            number = month.add(service, charge)
            if runs and runs[-1][0] == number:
                runs[-1][1] += 1
            else:
                runs.append([number, 1])
    return ",".join(f"{number}*{times}" for number, times in runs) + " " + month.octets().hex()
