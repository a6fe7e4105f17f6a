"""How elements, lengths, numbers and strings are coded, read and written: document 01."""

# The numbers of 01's table.
CUT, LENGTH_FORM, TOO_LONG, UNKNOWN_COMPONENT, TRAILING = 1, 2, 3, 4, 5
BAD_FRAME, UNKNOWN_OPERATION, UNKNOWN_ERROR = 6, 7, 8
BAD_RECORD, LONG_RECORD, NO_ROOM = 10, 11, 12
BAD_SETUP, WRONG_PHASE, BAD_ELEMENT, BAD_PLACE, OTHER_PROFILE = 13, 14, 15, 16, 17
# Those of 02's request 8, in place of 01's 9.
MISSING, UNEXPECTED, LACKING, NOT_SHORTEST, BAD_CONTENTS, PAST_LIMIT = range(40, 46)

CONSTRUCTED = 0x20  # the bit of a tag that tells elements made of elements
END_MARKER = b"\0\0"


# ---------------------------------------------------------------- reading

class Refused(Exception):
    """A refusal, and with 40 to 45 the offset of the octet that it names."""

    def __init__(self, number, offset=0):
        self.number, self.offset = number, offset


# What a failure in a part is called: 1 in the component's own element, 6 in its frame, in the argument or result by its kind.
def of_component(kind, place):
    return Refused(CUT)


def of_frame(kind, place):
    return Refused(BAD_FRAME)


def of_argument(kind, place):
    return Refused(kind, place)


def peek(octets, place, end):
    """The tag that comes next, or None at the end of the enclosing element."""
    return octets[place] if place < end else None


def length(octets, place, end, part, tag):
    """The length octets at place: the contents' start, and how many they are; None for 80.

    Only the enclosing element's octets are looked at: a form beyond its end is not seen. What they lack is the failure of
    the element whose tag stands at tag.
    """
    if place >= end:
        raise part(LACKING, tag)
    first = octets[place]
    place += 1
    if first <= 0x80:
        return place, None if first == 0x80 else first
    if first > 0x82:
        raise Refused(LENGTH_FORM)
    wide = first - 0x80
    if place + wide > end:
        raise part(LACKING, tag)
    return place + wide, int.from_bytes(octets[place:place + wide], "big")


def contents(octets, place, end, part):
    """The element whose tag stands, already judged, at place: its contents' start and end, and where it ends."""
    start, size = length(octets, place + 1, end, part, place)
    if size is None:
        if not octets[place] & CONSTRUCTED:
            raise Refused(LENGTH_FORM)
        stop = end_marker(octets, start, end, part, place)
        return start, stop, stop + len(END_MARKER)
    if start + size > end:
        raise part(LACKING, place)
    return start, start + size, start + size


def end_marker(octets, place, end, part, sought):
    """Where the end marker stands of contents without a number that begin at place; their element's tag is at sought.

    Elements are gone over one by one: a numbered one whole, another up to the end of its own marker. How many
    elements without a number are open is counted, since each of their markers ends the innermost one.
    """
    depth = 0
    while True:
        if octets[place:min(place + 2, end)] == END_MARKER:
            if depth == 0:
                return place
            depth -= 1
            place += len(END_MARKER)
            continue
        if place >= end:
            raise part(LACKING, sought)
        tag = octets[place]
        place, size = length(octets, place + 1, end, part, sought)
        if size is not None:
            place += size
            if place > end:
                raise part(LACKING, sought)
        elif tag & CONSTRUCTED:
            depth += 1
        else:
            raise Refused(LENGTH_FORM)


def no_tag(place, end, part):
    """No tag that is expected stands at place: none at all, at the enclosing end, or another."""
    return part(MISSING, end) if place >= end else part(UNEXPECTED, place)


def expect(octets, place, end, tag, part):
    # The tag is judged before its length: a wrong tag hides a bad form after it.
    if peek(octets, place, end) != tag:
        raise no_tag(place, end, part)
    return contents(octets, place, end, part)


def whole(octets, start, stop, part, tag):
    """Two's complement contents, not empty and shortest, of any width."""
    size = stop - start
    if size == 0:
        raise part(NOT_SHORTEST, tag)
    if size > 1:
        first_nine = octets[start] << 1 | octets[start + 1] >> 7
        if first_nine in (0, 0x1FF):
            raise part(NOT_SHORTEST, tag)
    return int.from_bytes(octets[start:stop], "big", signed=True)


def integer(octets, place, end, tag, low, high, part=of_argument):
    start, stop, after = expect(octets, place, end, tag, part)
    value = whole(octets, start, stop, part, place)
    if not low <= value <= high:
        raise part(BAD_CONTENTS, place)
    return value, after


def empty(octets, place, end, tag, part=of_argument):
    """NULL and its like: no contents, in any length form."""
    start, stop, after = expect(octets, place, end, tag, part)
    if start != stop:
        raise part(BAD_CONTENTS, place)
    return after


def string(octets, place, end, tag, most, allowed):
    """1 to most octets, each allowed."""
    start, stop, after = expect(octets, place, end, tag, of_argument)
    text = octets[start:stop]
    if not text:
        raise of_argument(NOT_SHORTEST, place)
    if len(text) > most or not allowed.issuperset(text):
        raise of_argument(BAD_CONTENTS, place)
    return text, after


def finish(place, end, part=of_argument):
    if place != end:
        raise part(UNEXPECTED, place)


# ---------------------------------------------------------------- writing

class BadRecord(Exception):
    pass


def need(condition):
    if not condition:
        raise BadRecord


def put(tag, body):
    """One element with the shortest length."""
    size = len(body)
    if size < 0x80:
        head = bytes((tag, size))
    elif size < 0x100:
        head = bytes((tag, 0x81, size))
    else:
        head = bytes((tag, 0x82, size >> 8, size & 0xFF))
    return head + body


def put_integer(tag, value):
    # One bit for the sign, and at least one octet: the shortest two's complement.
    bits = (value if value >= 0 else ~value).bit_length() + 1
    return put(tag, value.to_bytes((bits + 7) // 8, "big", signed=True))


def put_range(tag, value, low, high):
    need(low <= value <= high)
    return put_integer(tag, value)


def put_text(tag, count, places, allowed):
    """A string held as a count beside its places; the places past the count are zero."""
    need(1 <= count <= len(places))
    need(all(allowed(octet) for octet in places[:count]))
    need(not any(places[count:]))
    return put(tag, bytes(places[:count]))
