"""Whole messages from the line log. Document 02, request 10: a trace of layer 3 messages becomes 01's events.

A trace is octets and, for each message, a pair of length and direction (0 the user, any other the network).
"""

import aoc

BAD_LENGTHS, BAD_FRAMING, NO_ROOM = 48, 49, 12
SETUP, CONNECT, DISCONNECT, RELEASE, RELEASE_COMPLETE = 0x05, 0x07, 0x45, 0x4D, 0x5A
CLEARING = (DISCONNECT, RELEASE, RELEASE_COMPLETE)


class Unframed(Exception):
    pass


class Message:
    """08; 00, or 01 or 02 with that many reference octets; a type octet; elements to the exact end."""

    def __init__(self, octets):
        if len(octets) < 2 or octets[0] != 0x08 or octets[1] > 2 or len(octets) < 3 + octets[1]:
            raise Unframed
        given = octets[2:2 + octets[1]]
        # without its flag, the top bit of the first octet, a reference is a number of one octet or two; none has no number
        self.reference = int.from_bytes(given, "big") & (1 << 8 * len(given) - 1) - 1 if given else None
        self.type = octets[2 + len(given)]
        self.elements, place = [], 3 + len(given)
        while place < len(octets):
            if octets[place] >= 0x80:
                after = place + 1
            else:
                if place + 1 == len(octets):
                    raise Unframed
                after = place + 2 + octets[place + 1]
            if after > len(octets):
                raise Unframed
            self.elements.append(octets[place:after])
            place = after

    def shown(self):
        """The elements that are under no shift."""
        locked = skip = False
        for element in self.elements:
            if 0x90 <= element[0] <= 0x97:
                locked = True
            elif 0x98 <= element[0] <= 0x9F:
                skip = True
            elif locked or skip:
                skip = False
            else:
                yield element

    def components(self):
        """Those of its Facility elements; a malformed one and one with another third octet than 91 give none."""
        for element in self.shown():
            if element[0] != 0x1C or element[2:3] != b"\x91":
                continue
            number, starts = aoc.element(element)
            if number == 0:
                yield from (element[start:stop] for start, stop in zip(starts, [*starts[1:], len(element)]))

    def requests(self):
        """The identifier of the first ChargingRequest for each of S, D, E, or None."""
        ids = [None, None, None]
        for octets in self.components():
            number, record = aoc.read(octets)
            if number == 0 and record.frame == aoc.INVOKE and record.operation == 30 and ids[record.detail] is None:
                ids[record.detail] = record.id
        return tuple(ids)


def parts(pairs, octets):
    """The messages' octets with their directions, or None where the lengths do not add up."""
    if len(pairs) % 2 or sum(pairs[::2]) != len(octets):
        return None
    found, place = [], 0
    for count, direction in zip(pairs[::2], pairs[1::2]):
        found.append((octets[place:place + count], direction != 0))
        place += count
    return found


def read(pairs, octets):
    """(number, message, events); an event is (kind, identifiers, octets)."""
    pieces = parts(pairs, octets)
    if pieces is None:
        return BAD_LENGTHS, 0, []
    messages = []
    for number, (piece, network) in enumerate(pieces, 1):
        try:
            messages.append((Message(piece), network))
        except Unframed:
            return BAD_FRAMING, number, []
    none, events, cleared = (None, None, None), [], False
    for message, network in messages:
        if message.reference != messages[0][0].reference:
            continue
        if message.type == SETUP and not network:
            events.append((1, message.requests(), b""))
        if message.type in CLEARING and not cleared:
            cleared = True
            events.append((3, none, b""))
        if network:
            events.extend((5, none, component) for component in message.components())
        if message.type == CONNECT and network:
            events.append((2, none, b""))
        if message.type == RELEASE_COMPLETE:
            events.append((4, none, b""))
    return 0, 0, events


def rows(events):
    """The event list in slices."""
    numbers = []
    for kind, ids, octets in events:
        numbers += [kind, sum(1 << bit for bit, i in enumerate(ids) if i is not None), *(i or 0 for i in ids), len(octets)]
    return numbers, b"".join(octets for _, _, octets in events)


def lay(pairs, octets, row_room, out_room):
    """(number, message, rows, octets): both empty where it is refused."""
    number, message, events = read(pairs, octets)
    if number:
        return number, message, [], b""
    numbers, out = rows(events)
    return (NO_ROOM, 0, [], b"") if row_room < 6 * len(octets) or out_room < len(octets) else (0, 0, numbers, out)
