"""The Facility element, read, gone through and written, and the reject in reply to a component: documents 01 and 02."""

from coding import (BAD_ELEMENT, BAD_FRAME, BAD_PLACE, MISSING, NO_ROOM, OTHER_PROFILE, UNKNOWN_COMPONENT, UNKNOWN_ERROR,
                    UNKNOWN_OPERATION, Refused, contents, of_component)
from reading import identifier, locate, read
from records import REJECT, Record
from writing import write


PROFILES = LINE, TRUNK = 0x91, 0x9F


def element(octets):
    """(0, the components' starts) or (15, [])."""
    end = len(octets)
    if end < 4 or octets[0] != 0x1C or octets[1] != end - 2 or octets[2] not in PROFILES:
        return BAD_ELEMENT, []
    starts, place = [], 3
    while place < end:
        starts.append(place)
        try:
            # A tile's tag may be any; its length has the component's forms.
            _, _, place = contents(octets, place, end, of_component)
        except Refused:
            return BAD_ELEMENT, []
    return 0, starts


def step_through(octets, place):
    """What stands at a place of an element: (number, offset, record or None, the place after it, whether it is the end).

    A component of a trunk's element is 17: only document 01's family is read here.
    """
    number, starts = element(octets)
    if number:
        return number, 0, None, 0, False
    if place == len(octets):
        return 0, 0, None, 0, True
    if place not in starts:
        return BAD_PLACE, 0, None, 0, False
    after = (starts + [len(octets)])[starts.index(place) + 1]
    found = locate(octets[place:after]) if octets[2] == LINE else (OTHER_PROFILE, 0, None)
    return (*found, after, False)


def write_element(octets, room, profile=LINE):
    """The element that holds components, laid end to end: (0, octets), (17, b"") for another profile octet, (15, b"") or (12, b"")."""
    if profile not in PROFILES:
        return OTHER_PROFILE, b""
    whole = bytes((0x1C, (len(octets) + 1) & 0xFF, profile)) + octets
    if len(octets) > 254 or element(whole)[0]:
        return BAD_ELEMENT, b""
    if len(whole) > room:
        return NO_ROOM, b""
    return 0, whole


def reply(octets, room):
    """The reject due for a component: (0, octets), (0, b"") for none, (12, b"")."""
    number, _ = read(octets)
    if number == 0 or octets[:1] == b"\xA4":
        return 0, b""
    answer = Record(frame=REJECT)
    if number in (UNKNOWN_OPERATION, UNKNOWN_ERROR) or number >= MISSING:
        # These come after the identifier, so it was read without failure.
        start, stop, _ = contents(octets, 0, len(octets), of_component)
        answer.id, _ = identifier(octets, start, stop)
        if number == UNKNOWN_ERROR:
            answer.problem, answer.detail = 0x83, 2
        elif octets[0] == 0xA2:
            answer.problem, answer.detail = 0x82, 2
        else:
            answer.problem, answer.detail = 0x81, 1 if number == UNKNOWN_OPERATION else 2
    else:
        answer.unnamed, answer.problem = 1, 0x80
        answer.detail = {UNKNOWN_COMPONENT: 0, BAD_FRAME: 1}.get(number, 2)
    return write(answer, room)
