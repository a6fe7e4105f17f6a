"""The plain engine of document 02, request 10: each answer is found in the event list by the places of a few events.

No account is kept. An event is (kind, identifiers, octets) with the kind's number; places count from 0, and the list's
length stands for none.
"""

import aoc
from aoc import D, E, S

SETUP, CONNECT, CLEAR, RELEASED, COMPONENT, SUSPEND, RESUME = range(1, 8)


class Plain:
    def __init__(self, events):
        self.events = events
        self.n = len(events)
        self.setup = self.first(0, lambda i: events[i][0] == SETUP and not self.clashes(i))
        self.cleared = self.first(self.setup + 1, lambda i: events[i][0] == CLEAR)
        self.connected = self.first(self.setup + 1, lambda i: events[i][0] == CONNECT and i < self.cleared)
        self.released = self.first(self.cleared + 1, lambda i: events[i][0] == RELEASED)
        self.records = [aoc.read(octets) if kind == COMPONENT else (0, None) for kind, _, octets in events]
        self.answered = [self.first(0, lambda i: self.answers(s, i)) for s in (S, D, E)]
        self.finals = {s: self.first(0, lambda i: self.sort(i) == ("final", s) and self.is_open(s, i)) for s in (D, E)}

    def first(self, start, test):
        return next((i for i in range(start, self.n) if test(i)), self.n)

    def clashes(self, i):
        named = [x for x in self.events[i][1] if x is not None]
        return len(set(named)) < len(named)

    def asked(self, s):
        return self.events[self.setup][1][s] if self.setup < self.n else None

    def phase(self, j):
        """The phase that event j meets, or that the list leaves where j is its length."""
        if j <= self.setup:
            return aoc.IDLE
        if j > self.released:
            return aoc.ENDED
        if j > self.cleared:
            return aoc.CLEARING
        if j <= self.connected:
            return aoc.ESTABLISHMENT
        turns = [kind for kind, _, _ in self.events[self.connected + 1:j] if kind in (SUSPEND, RESUME)]
        return aoc.SUSPENDED if turns and turns[-1] == SUSPEND else aoc.ACTIVE

    def heard(self, j):
        return self.events[j][0] == COMPONENT and self.phase(j) in (aoc.ESTABLISHMENT, aoc.ACTIVE, aoc.CLEARING)

    def fits(self, s, record):
        """A return error, a reject, or a return result that has a charge exactly for S."""
        return record.frame != aoc.RESULT or (record.charge.figure.kind != aoc.NOTHING) == (s == S)

    def answers(self, s, j):
        number, record = self.records[j]
        return (self.heard(j) and number == 0 and record.frame != aoc.INVOKE and not record.unnamed
                and self.asked(s) is not None and record.id == self.asked(s) and self.fits(s, record))

    def is_open(self, s, j):
        return self.asked(s) is None or self.answered[s] < j

    def sort(self, j):
        """What an accepted charge invoke is by phase, service and argument alone."""
        number, record = self.records[j]
        if not self.heard(j) or number or record.frame != aoc.INVOKE or record.operation == 30:
            return None, None
        s, figure, phase = aoc.SERVICE[record.operation], record.charge.figure, self.phase(j)
        if figure.kind == aoc.NOTHING:
            return "absent", s
        if s == S:
            return "rate", s
        free = figure.kind == aoc.FREE
        if s == D and phase != aoc.CLEARING:
            runs = free or not figure.total and phase == aoc.ACTIVE
            return ("running" if runs else "out"), s
        if phase == aoc.CLEARING and (s == E or free or figure.total):
            return "final", s
        return "out", s

    def outcome(self, k):
        """(number, service: 1 S, 2 D, 3 E, 0 none) of event k."""
        kind, ids, _ = self.events[k]
        phase = self.phase(k)
        name = aoc.KIND.get(kind)
        if name is None or phase not in aoc.ALLOWED[name]:
            return aoc.WRONG_PHASE, 0
        if kind != COMPONENT:
            return (aoc.BAD_SETUP if kind == SETUP and self.clashes(k) else 0), 0
        number, record = self.records[k]
        if number:
            return number, 0
        if record.frame == aoc.INVOKE:
            if record.operation == 30:
                return (27 if phase == aoc.SUSPENDED else 32), 0
            s = aoc.SERVICE[record.operation]
            if phase == aoc.SUSPENDED:
                return 27, 1 + s
            return self.invoked(k, s), 1 + s
        if phase == aoc.SUSPENDED:
            return 27, 0
        for s in (S, D, E):
            if not record.unnamed and self.asked(s) == record.id and self.asked(s) is not None:
                if self.answered[s] < k:
                    return 30, 0
                if self.answered[s] == k:
                    return (24 if record.frame == aoc.RESULT else 25), 1 + s
                return 31, 1 + s
        return 30, 0

    def invoked(self, k, s):
        if not self.is_open(s, k):
            return 26
        sort = self.sort(k)[0]
        if sort != "final":
            return {"absent": 23, "rate": 20, "running": 21, "out": 27}[sort]
        if self.finals[s] == k:
            return 22
        return 28 if aoc.same_final(self.charge(self.finals[s]), self.charge(k)) else 29

    def charge(self, j):
        return self.records[j][1].charge

    # ---- after the list

    def last(self, test):
        found = [j for j in range(self.n) if test(j)]
        return self.charge(found[-1]) if found else None

    def rate(self):
        granted = lambda j: j == self.answered[S] and self.records[j][1].frame == aoc.RESULT
        return self.last(lambda j: self.sort(j) == ("rate", S) and self.is_open(S, j) or granted(j))

    def running(self):
        return self.last(lambda j: self.sort(j) == ("running", D) and self.is_open(D, j))

    def closing(self):
        """(service, charge): 3 E, 2 D, 0 none."""
        for s in (E, D):
            if self.released < self.n and self.finals[s] < self.n:
                return 1 + s, self.charge(self.finals[s])
        return 0, None

    def pending(self):
        return [self.asked(s) if self.answered[s] == self.n else None for s in (S, D, E)]

    def absent(self):
        return [any(self.sort(j) == ("absent", s) and self.is_open(s, j) for j in range(self.n)) for s in (S, D, E)]

    def conflict(self):
        def differs(s, j):
            return self.sort(j) == ("final", s) and self.is_open(s, j) and not aoc.same_final(self.charge(self.finals[s]), self.charge(j))
        return [s != S and any(differs(s, j) for j in range(self.finals[s] + 1, self.n)) for s in (S, D, E)]
