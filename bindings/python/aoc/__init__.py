"""Advice of Charge (ETS 300 182-1) for a host in Python, over the library libaoc.

    call = aoc.Call()
    call.setup()
    call.connect()
    call.clear()
    call.component(octets)          # of the network's DISCONNECT
    call.released()
    print(aoc.text(call.closing().charge))

Numbers and structs have the names of aoc.h, which says what each means: aoc.AOC_PHASE_ENDED, aoc.aoc_charge. Octets are bytes, or
anything that bytes() takes. A function that is refused raises Refused; an event that is refused has an outcome that says so, as in
C, and has changed nothing. aoc.raw has the functions as they are, and aoc.library the library.

The library is the one that was put into the package when it was built, or the one that AOC_LIBRARY names."""
import os
from typing import NamedTuple

from . import raw
from .raw import *  # noqa: F403

library = raw.load(os.environ.get("AOC_LIBRARY") or os.path.join(os.path.dirname(os.path.abspath(__file__)), "libaoc.so"))


class Refused(ValueError):
    """A refusal: its number, and with 40 to 45 the offset of the octet."""

    def __init__(self, number, offset=0):
        self.number, self.offset = number, offset
        super().__init__(library.aoc_refusal_text(number).decode())


class Outcome(NamedTuple):
    number: int
    service: int

    @property
    def refused(self):
        return library.aoc_is_refusal(self.number)

    def __str__(self):
        return library.aoc_outcome_text(self.number).decode()


class Component(NamedTuple):
    """A component of a Facility element: its octets, its family, and its record, or the refusal; and whether it is for the exchange,
    which a client passes over and sends no reject for."""
    octets: bytes
    family: int
    record: object
    refused: object
    for_exchange: bool


class Taken(NamedTuple):
    """An event of a message, its octets, and what came of it."""
    event: object
    octets: bytes
    outcome: Outcome


class Why(NamedTuple):
    reason: int
    event: int

    def __str__(self):
        return library.aoc_reason_text(self.reason).decode()


class Fault(NamedTuple):
    rule: int
    event: int

    def __str__(self):
        return library.aoc_rule_text(self.rule).decode()


class Price(NamedTuple):
    """A price as doubles; None of all three for a call that is free."""
    currency: object
    thousandths: object
    quotient: object


def _accept(refusal, offset=0):
    if refusal:
        raise Refused(refusal, offset)


def _within(bits, number):
    """A number that is handed over with so many bits. ctypes would cut a larger one down."""
    if not 0 <= number < 1 << bits:
        raise OverflowError(f"{number} is no number of {bits} bits")
    return number


def _identifier(number):
    """An identifier, -32,768 to 32,767, as its 16 bits in two's complement; or these bits."""
    return _within(16, number + 0x10000 if -0x8000 <= number < 0 else number)


def version():
    number = library.aoc_version()
    return f"{number // 10000}.{number // 100 % 100}.{number % 100}"


# ---- components


def _record(answer):
    return answer.trunk if answer.family == AOC_FAMILY_TRUNK else answer.record


def read(octets):
    """The record of a component of a public line."""
    octets, answer = bytes(octets), aoc_answer()
    _accept(library.aoc_read(octets, len(octets), answer), answer.offset)
    return answer.record


def read_by(profile, octets):
    """The record of a component, an aoc_record or an aoc_trunk, by the profile octet of its element."""
    octets, answer = bytes(octets), aoc_either()
    _accept(library.aoc_read_by(_within(8, profile), octets, len(octets), answer), answer.offset)
    return _record(answer)


def _written(room, function, *arguments):
    buffer = (raw.U8 * room)()
    answer = function(*arguments, buffer, room)
    _accept(answer.refusal)
    return bytes(buffer[:answer.count])


def write(record):
    return _written(AOC_LIMIT_COMPONENT_OCTETS, library.aoc_write, record)


def write_by(profile, record):
    either = aoc_either()
    if isinstance(record, aoc_trunk):
        either.trunk = record
    else:
        either.record = record
    return _written(AOC_LIMIT_COMPONENT_OCTETS, library.aoc_write_by, _within(8, profile), either)


def reply(octets):
    """The reject to send for a component; no octets where none is due."""
    octets = bytes(octets)
    return _written(AOC_LIMIT_REPLY_OCTETS, library.aoc_reply, octets, len(octets))


def reply_by(profile, octets):
    octets = bytes(octets)
    return _written(AOC_LIMIT_REPLY_OCTETS, library.aoc_reply_by, _within(8, profile), octets, len(octets))


def request(service, identifier):
    return _written(AOC_LIMIT_COMPONENT_OCTETS, library.aoc_request, _within(8, service), _identifier(identifier))


def element(octets, profile=AOC_PROFILE_LINE):
    """The Facility element that holds components, which are laid end to end, of a public line or with AOC_PROFILE_TRUNK of a trunk."""
    octets = bytes(octets)
    return _written(AOC_LIMIT_ELEMENT_OCTETS, library.aoc_write_element_by, _within(8, profile), octets, len(octets))


def trunk_element(octets, interpretation=AOC_INTERPRETATION_NONE):
    """A trunk's Facility element, with the network facility extension and the interpretation in front."""
    octets = bytes(octets)
    return _written(AOC_LIMIT_ELEMENT_OCTETS, library.aoc_write_trunk_element, _within(8, interpretation), octets, len(octets))


def charge_request(identifier, modes):
    """A trunk's chargeRequest: AOC_MODE_FINAL and its like."""
    modes = bytes(modes)
    return _written(AOC_LIMIT_COMPONENT_OCTETS, library.aoc_charge_request, _identifier(identifier), modes, len(modes))


def final_charge_request(identifier):
    return _written(AOC_LIMIT_COMPONENT_OCTETS, library.aoc_final_charge_request, _identifier(identifier))


def complete_request(identifier, user):
    return _written(AOC_LIMIT_COMPONENT_OCTETS, library.aoc_complete_request, _identifier(identifier), user)


def diversion_request(identifier, user, diversion):
    return _written(AOC_LIMIT_COMPONENT_OCTETS, library.aoc_diversion_request, _identifier(identifier), user, _within(8, diversion))


def interpretation_of(operation):
    return library.aoc_interpretation_of(_within(8, operation))


def interpretation_in(octets):
    """What the sender of a trunk's Facility element wants done with an invoke that nobody knows."""
    octets = bytes(octets)
    return library.aoc_interpretation_in(octets, len(octets))


def components(octets):
    """Each Component of a Facility element of either family, from its first octet, 1C. A malformed element is Refused."""
    octets, place, answer = bytes(octets), raw.SIZE(AOC_FIRST_PLACE), aoc_either()
    start = place.value
    while library.aoc_next_by(octets, len(octets), place, answer):
        refused = Refused(answer.refusal, answer.offset) if answer.refusal else None
        part = octets[start:place.value]
        yield Component(part, answer.family, None if refused else _record(answer), refused, library.aoc_is_for_exchange(answer, part, len(part)))
        start, answer = place.value, aoc_either()
    _accept(answer.refusal)


# ---- messages


def facilities(octets):
    """The octets of each Facility element of a layer 3 message."""
    octets, place, start = bytes(octets), raw.SIZE(0), raw.SIZE(0)
    while library.aoc_next_facility(octets, len(octets), place, start):
        yield octets[start.value:place.value]


def call_key(direction, octets):
    """The key of a message's call for a Board, or None for a message of no call."""
    octets, key = bytes(octets), raw.U16()
    return key.value if library.aoc_call_key(direction, octets, len(octets), key) else None


def _list(room, function, *arguments):
    """Rows and octets of the event list that a function lays in lent memory: six numbers and an octet for each of so many."""
    rows, out = (raw.U16 * (AOC_ROW_NUMBERS * room))(), (raw.U8 * room)()
    found = function(*arguments, rows, len(rows), out, len(out))
    _accept(found.refusal, found.message)
    return rows[:AOC_ROW_NUMBERS * found.events], bytes(out[:found.octets])


def message_events(direction, octets):
    """The events of one message as it goes out or comes in, in their order, each with its octets."""
    octets = bytes(octets)
    rows, out = _list(len(octets), library.aoc_message_events, direction, octets, len(octets))
    events = []
    for i in range(0, len(rows), AOC_ROW_NUMBERS):
        row = (raw.U16 * AOC_ROW_NUMBERS)(*rows[i:i + AOC_ROW_NUMBERS])
        count = row[AOC_ROW_NUMBERS - 1]
        events.append((library.aoc_event_at(row), out[:count]))
        out = out[count:]
    return events


# ---- values


def text(charge):
    """A charge as a person reads it; a currency or an amount of money too."""
    function = {aoc_money: library.aoc_print_money, aoc_currency: library.aoc_print_currency}.get(type(charge), library.aoc_print_charge)
    buffer = raw.ctypes.create_string_buffer(function(None, 0, charge) + 1)
    function(buffer, len(buffer), charge)
    return buffer.value.decode("ascii")


def thousandths(money):
    return library.aoc_thousandths(money.number, money.multiplier)


def units(charge):
    return [library.aoc_unit_at(charge, i) for i in range(charge.count if charge.kind == AOC_CHARGE_UNITS else 0)]


def rates(charge):
    return [library.aoc_rate_at(charge, i) for i in range(charge.count if charge.kind == AOC_CHARGE_RATES else 0)]


def services(names):
    """A set of services: of "", "E", "SDE" and the like."""
    found = library.aoc_no_services()
    for name in names:
        found = library.aoc_with_service(found, "SDE".index(name) + 1)
    return found


def identifiers(last):
    """The three identifiers after this one."""
    return library.aoc_three_identifiers(_identifier(last))


def event(kind):
    return library.aoc_event_of(_within(8, kind))


def event_of_setup(asked="", ids=None):
    return library.aoc_event_of_setup(services(asked), ids or identifiers(0))


def price(closing):
    found = library.aoc_price(closing)
    _accept(found.refusal)
    if found.is_free:
        return Price(None, None, None)
    return Price(bytes(found.currency.octets[:found.currency.count]), found.thousandths, found.quotient)


# ---- one call


class Account:
    """One call's account, which is read; a Call changes it."""

    def __init__(self, memory):
        self.memory = memory

    def _charge(self, function):
        charge = function(self.memory)
        return charge if charge.kind else None

    def phase(self):
        return library.aoc_phase_of(self.memory)

    def rate(self):
        return self._charge(library.aoc_rate_of)

    def running(self):
        return self._charge(library.aoc_running_of)

    def closing(self):
        """The figure to post, an aoc_closing, or None."""
        found = library.aoc_closing_of(self.memory)
        return found if found.service else None

    def marks(self):
        return library.aoc_marks_of(self.memory)

    def pending(self):
        return library.aoc_pending_of(self.memory)


class Call(Account):
    """One call: its account, and the list of its events, `rows` and `octets`, which is what is stored over a restart. With a stored
    list the call goes on from there."""

    def __init__(self, rows=(), octets=b""):
        super().__init__(aoc_account())
        self.rows, self.octets = list(rows), bytes(octets)
        _accept(library.aoc_replay(*self._list(), self.memory))

    def _list(self):
        return (raw.U16 * len(self.rows))(*self.rows), len(self.rows), self.octets, len(self.octets)

    def take(self, event, octets=b""):
        """Any event; the octets are those of a component."""
        octets, row = bytes(octets), (raw.U16 * AOC_ROW_NUMBERS)()
        outcome = library.aoc_take(self.memory, event, octets, len(octets), row)
        self.rows.extend(row)
        self.octets += octets[:row[AOC_ROW_NUMBERS - 1]]
        return Outcome(outcome.number, outcome.service)

    def setup(self, asked="", ids=None):
        return self.take(event_of_setup(asked, ids))

    def connect(self):
        return self.take(event(AOC_EVENT_CONNECT))

    def clear(self):
        return self.take(event(AOC_EVENT_CLEAR))

    def released(self):
        return self.take(event(AOC_EVENT_RELEASED))

    def suspend(self):
        return self.take(event(AOC_EVENT_SUSPEND))

    def resume(self):
        return self.take(event(AOC_EVENT_RESUME))

    def component(self, octets):
        return self.take(event(AOC_EVENT_COMPONENT), octets)

    def facility(self, octets):
        """The components of a Facility element, each with its outcome; those of a trunk, which no account takes, are passed over."""
        return [(one, self.component(one.octets)) for one in components(octets) if one.family == AOC_FAMILY_LINE]

    def message(self, direction, octets):
        """The events of one message of the call, each with its outcome. A second clearing message is refused, which changes nothing."""
        return [Taken(event, part, self.take(event, part)) for event, part in message_events(direction, octets)]

    def why(self):
        """Why the call has no price."""
        found = library.aoc_why(*self._list())
        _accept(found.refusal)
        return Why(found.reason, found.event)

    def fault(self):
        """Whether the exchange kept the rules, by the events that were not refused."""
        rows, out = (raw.U16 * len(self.rows))(), (raw.U8 * len(self.octets))()
        found = library.aoc_fault_of_accepted(*self._list(), rows, len(rows), out, len(out))
        _accept(found.refusal)
        return Fault(found.rule, found.event)

    def accepted(self):
        """The call of the events that were not refused."""
        rows, out = (raw.U16 * len(self.rows))(), (raw.U8 * len(self.octets))()
        found = library.aoc_accepted_events(*self._list(), rows, len(rows), out, len(out))
        _accept(found.refusal)
        return Call(rows[:AOC_ROW_NUMBERS * found.events], bytes(out[:found.octets]))


def call_of_trace(messages):
    """The Call of a trace: (AOC_FROM_USER or AOC_FROM_NETWORK, octets) of each layer 3 message."""
    messages = [(direction, bytes(octets)) for direction, octets in messages]
    octets = b"".join(message for _, message in messages)
    pairs = [number for direction, message in messages for number in (len(message), direction)]
    return Call(*_list(len(octets), library.aoc_trace_events, (raw.U32 * len(pairs))(*pairs), len(pairs), octets, len(octets)))


# ---- many calls


class Board:
    """A table of up to 64 calls by their references."""

    def __init__(self):
        self.memory = aoc_board()

    def event(self, reference, event, octets=b""):
        octets = bytes(octets)
        outcome = library.aoc_board_event(self.memory, _within(16, reference), event, octets, len(octets))
        return Outcome(outcome.number, outcome.service)

    def message(self, direction, octets):
        """The events of one message, each with its outcome, under the key of its call; none for a message of no call."""
        key = call_key(direction, octets)
        return [] if key is None else [Taken(event, part, self.event(key, event, part)) for event, part in message_events(direction, octets)]

    def replay(self, reference, call):
        """Puts the list of a call on the table, under a reference."""
        _accept(library.aoc_board_replay(self.memory, _within(16, reference), *call._list()))

    def collect(self, reference):
        """The figure that an ended call closed with, or None; its reference is then free."""
        found = library.aoc_board_collect(self.memory, _within(16, reference))
        _accept(found.refusal)
        return found.closing if found.closing.service else None

    def view(self, reference):
        found = library.aoc_board_view(self.memory, _within(16, reference))
        _accept(found.refusal)
        return Account(found.account)


class Month:
    """A month's totals."""

    def __init__(self):
        self.memory = library.aoc_month_empty()

    def post(self, closing):
        _accept(library.aoc_month_post(self.memory, closing))

    def rows(self):
        return [library.aoc_month_row(self.memory, i) for i in range(library.aoc_month_rows(self.memory))]

    def units(self, kind):
        return library.aoc_month_units(self.memory, kind)

    def place(self, service, billing):
        return library.aoc_month_place(self.memory, service, billing)
