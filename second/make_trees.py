"""Test inputs: a record as a tree of elements, and a tree as octets, in any length forms."""

import aoc


class Node:
    """An element. `low` and `high` bound an integer; `limit` a list's entries, a string's octets."""

    __slots__ = ("tag", "parts", "body", "low", "high", "limit", "lengths", "tail", "keep", "marker")

    def __init__(self, tag, parts=None, body=b"", low=None, high=None, limit=None):
        self.tag, self.parts, self.body = tag, parts, body
        self.low, self.high, self.limit = low, high, limit
        self.lengths = None  # damage: from a size to length octets
        self.tail = b""      # damage: octets after the contents, inside the element
        self.keep = None     # damage: how many octets of the laid element are left
        self.marker = None   # 80 for the length, and these octets after the contents; damaged where they are not 00 00

    def copy(self):
        twin = Node(self.tag, None, self.body, self.low, self.high, self.limit)
        twin.lengths, twin.tail, twin.keep, twin.marker = self.lengths, self.tail, self.keep, self.marker
        if self.parts is not None:
            twin.parts = [part.copy() for part in self.parts]
        return twin


def shortest_length(size):
    if size < 0x80:
        return bytes((size,))
    return bytes((0x81, size)) if size < 0x100 else b"\x82" + size.to_bytes(2, "big")


def any_length(rng, size):
    form = rng.randrange(3)
    if form == 0 and size < 0x80:
        return bytes((size,))
    if form < 2 and size < 0x100:
        return bytes((0x81, size))
    return b"\x82" + size.to_bytes(2, "big")


def lay(node, rng=None, loose=0.0, unnumbered=0.0):
    """The tree's octets.

    `loose` is the chance that a length is not bound to be shortest, `unnumbered` the one that an element made of
    elements has no number: 80, and an end marker after its contents.
    """
    body = node.body
    if node.parts is not None:
        body = b"".join([lay(part, rng, loose, unnumbered) for part in node.parts])
    body += node.tail
    if node.lengths is not None:
        head = node.lengths(len(body))
    elif node.marker is not None:
        head, body = b"\x80", body + node.marker
    elif unnumbered and node.parts is not None and rng.random() < unnumbered:
        head, body = b"\x80", body + b"\0\0"
    elif loose and rng.random() < loose:
        head = any_length(rng, len(body))
    else:
        head = shortest_length(len(body))
    laid = bytes((node.tag,)) + head + body
    return laid if node.keep is None else laid[:node.keep]


def lay_some(rng, root, loose):
    """The tree's octets with one of the chances for loose lengths; in more than half of them some have no number."""
    return lay(root, rng, rng.choice(loose), rng.choice((0.0, 0.0, 0.4, 0.7, 1.0)))


def walk(node, parent=None):
    yield node, parent
    for part in node.parts or ():
        yield from walk(part, node)


def twos(value):
    """Shortest two's complement."""
    size = 1
    while not -(1 << 8 * size - 1) <= value < 1 << 8 * size - 1:
        size += 1
    return value.to_bytes(size, "big", signed=True)


def num(tag, value, low, high):
    return Node(tag, body=twos(value), low=low, high=high)


def scaled(tag, number, scale):
    return Node(tag, [num(0x81, number, 0, aoc.NUMBER_MAX), num(0x82, scale, 0, 6)])


def tree(record):
    """The elements of a valid record."""
    named = num(0x02, aoc.signed(record.id), -32768, 32767)
    if record.frame == aoc.INVOKE:
        argument = (num(0x0A, record.detail, 0, 2) if record.operation == 30
                    else charge_tree(record.charge, record.operation))
        return Node(0xA1, [named, num(0x02, record.operation, 30, 36), argument])
    if record.frame == aoc.RESULT:
        return Node(0xA2, [named, Node(0x30, [num(0x02, 30, 30, 30),
                                              charge_tree(record.charge, 30)])])
    if record.frame == aoc.ERROR:
        return Node(0xA3, [named, num(0x02, record.error, 0, 26)])
    if record.unnamed:
        named = Node(0x05)
    return Node(0xA4, [named, num(record.problem, record.detail, 0, aoc.PROBLEMS[record.problem])])


def charge_tree(charge, operation):
    f = charge.figure
    if f.kind == aoc.NOTHING:
        return Node(0x05)
    if f.kind == aoc.ARRANGEMENT:
        return num(0x02, f.arrangement, 1, 10)
    if f.kind == aoc.RATES:
        return Node(0x30, [rate_tree(charge.list, i) for i in range(f.count)], limit=10)
    if f.kind == aoc.FREE:
        figure = Node(0x81)
    else:
        if f.kind == aoc.AMOUNT:
            figure = Node(0x30, [Node(0xA1, money_parts(
                f.money.currency.octets[:f.money.currency.count], f.money.number, f.money.multiplier))])
        else:
            figure = Node(0x30, [Node(0xA1, [unit_tree(charge.list, i) for i in range(f.count)], limit=32)])
        if operation < 35:
            figure.parts.append(num(0x82, f.total, 0, 1))
        if f.billed:
            figure.parts.append(num(0x83, f.billing, 0, 2) if operation < 35
                                else num(0x82, f.billing, 0, 7))
    if operation < 35:
        return figure
    a = f.association
    text = bytes(a.digits[:a.count])
    parts = [figure]
    if a.kind == 1:
        parts.append(num(0x02, aoc.signed(a.id), -32768, 32767))
    elif a.kind == 2:
        parts.append(Node(0xA0, [Node(0x80, body=text, limit=20)]))
    elif a.kind == 3:
        parts.append(Node(0xA0, [Node(0xA1, [num(0x0A, a.plan, 0, 6), Node(0x12, body=text, limit=20)])]))
    return Node(0x30, parts)


def money_parts(text, number, multiplier):
    return [Node(0x81, body=bytes(text), limit=10), scaled(0xA2, number, multiplier)]


def unit_tree(entries, i):
    known, kind = entries.octets[2 * i:2 * i + 2]
    parts = [num(0x02, entries.numbers[i], 0, aoc.NUMBER_MAX) if known else Node(0x05)]
    if kind:
        parts.append(num(0x02, kind, 1, 16))
    return Node(0x30, parts)


def rate_tree(entries, i):
    number, time, step = entries.numbers[3 * i:3 * i + 3]
    o = entries.octets[18 * i:18 * i + 18]
    item, kind, detail, stepped, scale, step_scale, multiplier, size = o[:8]
    parts = money_parts(o[8:8 + size], number, multiplier)
    if kind == aoc.DURATION:
        parts += [num(0x83, detail, 0, 1), scaled(0xA4, time, scale)]
        if stepped:
            parts.append(scaled(0xA5, step, step_scale))
        choice = Node(0xA1, parts)
    elif kind == aoc.FLAT:
        choice = Node(0xA2, parts)
    elif kind == aoc.VOLUME:
        choice = Node(0xA3, parts + [num(0x83, detail, 0, 2)])
    elif kind == aoc.CODE:
        choice = num(0x02, detail, 1, 10)
    else:
        choice = Node(0x84 if kind == aoc.RATE_FREE else 0x85)
    return Node(0x30, [num(0x0A, item, 0, 4), choice])
