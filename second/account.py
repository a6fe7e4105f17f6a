"""One call's account, read off the list of its events: documents 01 and 02."""

import struct
from dataclasses import dataclass

from coding import BAD_SETUP, WRONG_PHASE
from reading import read
from records import AMOUNT, FREE, INVOKE, NOTHING, RESULT, Charge, pack_charge, thousandths, unpack_charge

S, D, E = 0, 1, 2
SERVICE = {31: S, 32: S, 33: D, 34: D, 35: E, 36: E}
IDLE, ESTABLISHMENT, ACTIVE, CLEARING, ENDED, SUSPENDED = range(6)
SETUP, CONNECT, CLEAR, RELEASED, COMPONENT = "setup", "connect", "clear", "released", "component"
SUSPEND, RESUME = "suspend", "resume"
ALLOWED = {
    SETUP: (IDLE,),
    CONNECT: (ESTABLISHMENT,),
    CLEAR: (ESTABLISHMENT, ACTIVE, SUSPENDED),
    RELEASED: (CLEARING,),
    COMPONENT: (ESTABLISHMENT, ACTIVE, SUSPENDED, CLEARING),
    SUSPEND: (ACTIVE,),
    RESUME: (SUSPENDED,),
}
AFTER = {SETUP: ESTABLISHMENT, CONNECT: ACTIVE, CLEAR: CLEARING, RELEASED: ENDED, SUSPEND: SUSPENDED, RESUME: ACTIVE}
KIND = {1: SETUP, 2: CONNECT, 3: CLEAR, 4: RELEASED, 5: COMPONENT, 6: SUSPEND, 7: RESUME}
NO_REQUEST = (0, 0)  # a mark and an identifier

# Phase; S, D and E: marks of the requests, their identifiers, marks of "not available" and of conflict; then the figures.
_account_layout = struct.Struct("<B 3B 3H 3B 3B 368s 368s 368s 368s")
_event_layout = struct.Struct("<B 3B 3H")
assert _account_layout.size == 1488 and _event_layout.size == 10


@dataclass(slots=True)
class Start:
    """What an account's octets say, whatever they hold. Any mark but 0 is one; a figure of kind NOTHING is none."""

    phase: int
    requests: list      # of S, D, E: (mark, identifier)
    unavailable: tuple  # marks of S, D, E
    conflict: tuple
    rate: Charge
    running: Charge
    finals: dict        # of D and E


def start_of(octets):
    v = _account_layout.unpack(octets)
    rate, running, d, e = map(unpack_charge, v[13:])
    return Start(v[0], list(zip(v[1:4], v[4:7])), v[7:10], v[10:13], rate, running, {D: d, E: e})


FRESH = start_of(bytes(1488))


def holder(requests, record):
    """The service whose pending request has the record's identifier: the first, where memory holds one identifier twice."""
    if not record.unnamed:
        for service, (mark, i) in enumerate(requests):
            if mark and i == record.id:
                return service
    return None


def same_currency(a, b):
    """Trailing spaces are ignored; every other octet within the count matters."""
    return bytes(a.octets[:a.count]).rstrip(b"\x20") == bytes(b.octets[:b.count]).rstrip(b"\x20")


def is_noise(outcome):
    """Refused, or an outcome with no effect: an archive may leave such an event out (02, request 12)."""
    return 0 < outcome < 20 or outcome in (26, 27, 28, 30, 31, 32) or outcome >= 40


def same_final(a, b):
    """Billing and association are not compared."""
    if a.figure.kind != b.figure.kind:
        return False
    if a.figure.kind == FREE:
        return True
    if a.figure.kind == AMOUNT:
        m, n = a.figure.money, b.figure.money
        return (same_currency(m.currency, n.currency)
                and thousandths(m.number, m.multiplier) == thousandths(n.number, n.multiplier))
    count = a.figure.count
    return (count == b.figure.count
            and a.list.numbers[:count] == b.list.numbers[:count]
            and a.list.octets[:2 * count] == b.list.octets[:2 * count])


class Account:
    """A reading over the list of events: nothing is kept but (event, outcome, record), and what stood at the start.

    What the list says nothing of yet is as the start has it.
    """

    def __init__(self, start=FRESH):
        self.start, self.events = start, []

    # The events; each gives its outcome.

    def setup(self, s, d, e):
        """Identifiers as 16-bit patterns, or None where a service is not asked for."""
        named = [i for i in (s, d, e) if i is not None]
        if self.phase not in ALLOWED[SETUP]:
            outcome = WRONG_PHASE
        elif len(set(named)) < len(named):
            outcome = BAD_SETUP
        else:
            outcome = 0
        return self._keep((SETUP, s, d, e), outcome)

    def connect(self):
        return self._phase_event(CONNECT)

    def clear(self):
        return self._phase_event(CLEAR)

    def released(self):
        return self._phase_event(RELEASED)

    def suspend(self):
        return self._phase_event(SUSPEND)

    def resume(self):
        return self._phase_event(RESUME)

    def component(self, octets):
        record = None
        if self.phase not in ALLOWED[COMPONENT]:
            outcome = WRONG_PHASE
        else:
            outcome, record = read(octets)
            if record is not None:
                outcome = self._outcome(record)
        return self._keep((COMPONENT, octets), outcome, record)

    def event(self, kind, ids, octets):
        """An event by its number, which may be none's, with a Setup's identifiers and a component's octets."""
        name = KIND.get(kind)
        if name == SETUP:
            return self.setup(*ids)
        if name == COMPONENT:
            return self.component(octets)
        return self._phase_event(name)

    def event_of(self, packed, octets):
        """The same of an event's ten octets; any mark but 0 asks for a service."""
        kind, *rest = _event_layout.unpack(packed)
        return self.event(kind, [i if mark else None for mark, i in zip(rest[:3], rest[3:])], octets)

    def _phase_event(self, event):
        return self._keep((event,), 0 if self.phase in ALLOWED.get(event, ()) else WRONG_PHASE)

    def _keep(self, event, outcome, record=None):
        self.events.append((event, outcome, record))
        return outcome

    # The outcome of a component, first that fits.

    def _outcome(self, record):
        if self.phase == SUSPENDED:
            return 27
        if record.frame == INVOKE:
            return self._invoke(record)
        service = holder(self.requests, record)
        if service is None:
            return 30
        if record.frame == RESULT:
            given = record.charge.figure.kind != NOTHING
            return 24 if given == (service == S) else 31
        return 25

    def _invoke(self, record):
        if record.operation == 30:
            return 32
        service, figure, phase = SERVICE[record.operation], record.charge.figure, self.phase
        if service in self.pending:
            return 26
        if figure.kind == NOTHING:
            return 23
        if service == S:
            return 20
        if service == D:
            subtotal = figure.kind != FREE and not figure.total
            if subtotal and phase == ACTIVE:
                return 21
            if figure.kind == FREE and phase in (ESTABLISHMENT, ACTIVE):
                return 21
            if subtotal or phase != CLEARING:
                return 27
        elif phase != CLEARING:
            return 27
        first = self.final(service)
        if first.figure.kind == NOTHING:
            return 22
        return 28 if same_final(first, record.charge) else 29

    # What the list says, or else the start.

    def _requests_after(self, events):
        """Of S, D and E: as the accepted Setup named it, and none after its 24 or 25."""
        found = list(self.start.requests)
        for event, outcome, record in events:
            if event[0] == SETUP and outcome == 0:
                found = [NO_REQUEST if i is None else (1, i) for i in event[1:]]
            elif outcome in (24, 25):
                found[holder(found, record)] = NO_REQUEST
        return found

    def _marks(self, number, before):
        """Of S, D and E: 1 where a component of the service had that outcome."""
        services = {SERVICE[record.operation] for _, outcome, record in self.events if outcome == number}
        return [1 if service in services else mark for service, mark in enumerate(before)]

    def _last(self, fits, before):
        """The figure of the last component whose outcome and record fit."""
        for _, outcome, record in reversed(self.events):
            if fits(outcome, record):
                return record.charge
        return before

    @property
    def phase(self):
        for event, outcome, _ in reversed(self.events):
            if outcome == 0:
                return AFTER[event[0]]
        return self.start.phase

    @property
    def requests(self):
        """Of S, D and E: (mark, identifier)."""
        return self._requests_after(self.events)

    @property
    def pending(self):
        """The services whose request has had no 24 or 25."""
        return {service for service, (mark, _) in enumerate(self.requests) if mark}

    @property
    def pending_identifiers(self):
        """Of S, D and E; 0 where the list named no request, or ended it."""
        return [i for _, i in self.requests]

    @property
    def service(self):
        """The service of the last event's outcome, 1 S, 2 D, 3 E; 0 where it has none."""
        _, outcome, record = self.events[-1]
        if record is None or outcome in (30, 32):
            return 0
        if record.frame == INVOKE:
            return 0 if record.operation == 30 else 1 + SERVICE[record.operation]
        # A result, an error or a reject has its request's service, but in Suspended no request is looked for.
        return 0 if outcome == 27 else 1 + holder(self._requests_after(self.events[:-1]), record)

    @property
    def unavailable_marks(self):
        return self._marks(23, self.start.unavailable)

    @property
    def conflict_marks(self):
        return self._marks(29, self.start.conflict)

    @property
    def unavailable(self):
        return {service for service, mark in enumerate(self.unavailable_marks) if mark}

    @property
    def conflict(self):
        return {service for service, mark in enumerate(self.conflict_marks) if mark}

    # Figures; where there is none, one of kind NOTHING.

    @property
    def rate(self):
        # A 24 that has a charge is S's: only there does it fit.
        return self._last(lambda outcome, record: outcome == 20 or outcome == 24 and record.charge.figure.kind != NOTHING,
                          self.start.rate)

    @property
    def running(self):
        return self._last(lambda outcome, record: outcome == 21, self.start.running)

    def final(self, service):
        """The first of D or E. Where the start has one, the list has no 22 of the service."""
        for _, outcome, record in self.events:
            if outcome == 22 and SERVICE[record.operation] == service:
                return record.charge
        return self.start.finals[service]

    @property
    def closing_service(self):
        """3 E, 2 D; 0 where there is no closing figure."""
        if self.phase == ENDED:
            for service in (E, D):
                if self.final(service).figure.kind != NOTHING:
                    return 1 + service
        return 0

    @property
    def closing(self):
        return self.final(self.closing_service - 1) if self.closing_service else None

    @property
    def octets(self):
        """All of it, as the library keeps it."""
        marks, ids = zip(*self.requests)
        return _account_layout.pack(self.phase, *marks, *ids, *self.unavailable_marks, *self.conflict_marks, *map(
            pack_charge, (self.rate, self.running, self.final(D), self.final(E))))
