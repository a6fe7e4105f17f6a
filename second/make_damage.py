"""Test inputs: damaged components.

Damage is done to the tree (the enclosing lengths then still agree, so that the damage itself is reached) or to the octets.
"""

from make_records import RICH, fitting_record, long_record, variants
from make_trees import Node, lay_some, num, shortest_length, tree, twos, walk

# ---------------------------------------------------------------- damage to trees

# Small elements and beginnings of elements that may stand where they do not belong.
EXTRAS = tuple(map(bytes.fromhex, (
    "020101", "0500", "800100", "8100", "8200", "3000", "0A0100", "830101", "820101", "A003800131",
    "A506810101820101", "0200", "0600", "0203FFFFFF", "80", "30", "05", "02", "84", "0580", "0283", "30FF")))
TAGS = (0x02, 0x05, 0x06, 0x0A, 0x12, 0x30, 0x80, 0x81, 0x82, 0x83, 0x84, 0x85, 0x86,
        0xA0, 0xA1, 0xA2, 0xA3, 0xA4, 0xA5, 0x22, 0x2A, 0x32, 0x10, 0x00, 0x1F, 0xFF)


def change_tag(rng, node, parent):
    node.tag = rng.choice(TAGS)


def nudge_tag(rng, node, parent):
    node.tag = (node.tag + rng.choice((-1, 1))) % 256


def flip_constructed(rng, node, parent):
    node.tag ^= 0x20


def tag_06(rng, node, parent):
    node.tag = 0x06
    if rng.random() < 0.3:
        node.keep = rng.choice((1, 2))


def drop(rng, node, parent):
    if parent:
        parent.parts.remove(node)


def double(rng, node, parent):
    if parent:
        parent.parts.insert(parent.parts.index(node), node.copy())


def swap(rng, node, parent):
    if parent and len(parent.parts) > 1:
        i = parent.parts.index(node)
        j = (i + 1) % len(parent.parts)
        parent.parts[i], parent.parts[j] = parent.parts[j], parent.parts[i]


def stray_after(rng, node, parent):
    """An element that does not belong there, after this one in its parent."""
    if parent:
        octets = rng.choice(EXTRAS)
        stray = Node(octets[0])
        stray.lengths = lambda size: octets[1:]
        parent.parts.insert(parent.parts.index(node) + 1, stray)


def stray_inside(rng, node, parent):
    node.tail = rng.choice(EXTRAS)


def octet_more(rng, node, parent):
    node.tail = bytes((rng.choice((0x00, 0x05, 0x30, 0x35, 0xFF, rng.randrange(256))),))


def hollow(rng, node, parent):
    node.body = b""
    if node.parts is not None:
        node.parts = []


def not_shortest(rng, node, parent):
    if node.parts is None:
        first = b"\xFF" if node.body[:1] >= b"\x80" else b"\x00"
        node.body = first * rng.choice((1, 1, 1, 3, 4)) + node.body


def sign_wrong(rng, node, parent):
    """Contents whose top bit makes them negative, and back."""
    node.body = bytes((0xFF, rng.randrange(256), 0xFF)[:rng.randint(1, 3)])


def one_over(rng, node, parent):
    if node.high is not None:
        node.body = twos(node.high + 1)


def one_under(rng, node, parent):
    if node.low is not None:
        node.body = twos(node.low - 1)


def wrapped(rng, node, parent):
    """A value that is in range again if a fixed width drops its top."""
    if node.low is not None:
        width = 1 << rng.choice((8, 16, 24, 32, 64, 128))
        node.body = twos(rng.choice((node.low, node.high)) + rng.choice((width, -width)))


def in_range(rng, node, parent):
    """No damage by itself, but where a range has holes."""
    if node.low is not None:
        # The number kinds have their hole just below the top.
        hole = max(node.low, node.high - 1)
        node.body = twos(rng.choice((node.low, node.high, hole, rng.randint(node.low, node.high))))


def contents_cut(rng, node, parent):
    node.body = node.body[:-1] if rng.random() < 0.5 else node.body[1:]
    if node.parts:
        node.parts.pop()


def bad_octet(rng, node, parent):
    if node.body:
        i = rng.randrange(len(node.body))
        wrong = rng.choice((0x00, 0x1F, 0x20, 0x21, 0x2F, 0x3A, 0x7F, 0x80, 0xFF))
        node.body = node.body[:i] + bytes((wrong,)) + node.body[i + 1:]


def too_wide(rng, node, parent):
    """A string at its limit or one octet over."""
    if node.limit and node.body:
        node.body = node.body[:1] * (node.limit + rng.choice((0, 1, 1)))


def many(rng, node, parent):
    """A list up to its limit, at it and past it."""
    if node.limit and node.parts:
        size = node.limit + rng.choice((-1, 0, 1, 1, 2))
        # Short entries, so that a full list stays under 254 octets.
        entry = Node(0x30, [num(0x0A, 0, 0, 4), Node(0x84)] if node.limit == 10 else [Node(0x05)]) if node.limit != 7 else num(0x0A, 0, 0, 6)
        node.parts = [entry.copy() for _ in range(size)]
        if size > node.limit and rng.random() < 0.5:
            # What follows the limit is not looked at.
            node.parts[-1].lengths = lambda size: b"\x80"


def length_more(rng, node, parent):
    node.lengths = lambda size: shortest_length(size + 1)


def length_less(rng, node, parent):
    node.lengths = lambda size: shortest_length(max(size - 1, 0))


def length_huge(rng, node, parent):
    head = rng.choice((b"\x7F", b"\x81\xFF", b"\x82\xFF\xFF", b"\x82\x00\xFF", b"\x82\x7F\xFF"))
    node.lengths = lambda size: head


def form_80(rng, node, parent):
    """80 on any element. Only on one made of elements is that no damage by itself, where a marker follows."""
    node.marker = rng.choice((b"\0\0", b""))


def marker_spoilt(rng, node, parent):
    """Half an end marker, two of them, or what is nearly one."""
    node.marker = bytes.fromhex(rng.choice((
        "00", "00 00 00", "00 00 00 00", "00 80", "00 81 00", "00 81 00 00 00", "00 82 00 00", "00 01 55", "00 01 55 00 00",
        "00 02 00 00", "20 80 00 00", "20 80 00 00 00 00", "80 00 00 00")))


def marker_early(rng, node, parent):
    """An end marker before the last part, or alone; the one after the contents is one too many, or is not there."""
    node.marker = rng.choice((b"\0\0", b""))
    if node.parts:
        node.parts.insert(rng.randrange(len(node.parts)), Node(0x00))


def marker_far(rng, node, parent):
    """No marker of its own: the nearest ones are those of the elements around it, or stand past a numbered one."""
    node.marker = b""
    if parent:
        parent.marker = rng.choice((b"\0\0", b"\0\0", b"\0\0\0\0", None))


def met_by_search(rng, node, parent):
    """Something that a search for this element's end marker meets: bad lengths, and such as lead past the end."""
    node.marker = b"\0\0"
    node.tail = bytes.fromhex(rng.choice((
        "0A83", "3083", "02FF00", "0280", "8080", "0080", "30800283", "30FE", "307F", "0281FF", "0282FFFF", "0282", "81", "30",
        "3080", "308030800000", "3004308300000000", "A10200000000", "300200803080", "1F80", "3F80", "FF800000")))


def form_83(rng, node, parent):
    node.lengths = lambda size: b"\x83" + size.to_bytes(3, "big")


def form_other(rng, node, parent):
    head = bytes((rng.choice((0x84, 0x88, 0xA1, 0xFE, 0xFF, rng.randrange(0x83, 0x100))),))
    node.lengths = lambda size: head


def form_loose(rng, node, parent):
    """No damage by itself: every length form is read."""
    form = rng.randrange(2)
    node.lengths = lambda size: (b"\x82" + size.to_bytes(2, "big") if form or size > 255
                                 else bytes((0x81, size)))


def ends_early(rng, node, parent):
    """The enclosing element ends inside this one: after the tag, a length octet, the contents."""
    rng.choice((form_loose, form_83, form_80, length_huge, lambda *_: None))(rng, node, parent)
    node.keep = rng.randint(1, 5)
    if parent and rng.random() < 0.7:
        del parent.parts[parent.parts.index(node) + 1:]


def foreign_code(rng, node, parent):
    """An integer of 1 to 5 octets and either sign, as for operations and errors."""
    node.body = twos(rng.choice((
        rng.randint(-128, 127), rng.randint(27, 39), rng.randint(-2, 28), rng.randint(-1 << 15, 1 << 15),
        (1 << 8) + rng.randint(27, 39), (1 << 16) + rng.randint(0, 39), (1 << 24) + rng.randint(0, 39),
        (1 << 31) - 1, -(1 << 31), 1 << 31, (1 << 32) + rng.randint(0, 39), -(1 << 31) - 1,
        rng.randint(-1 << 23, 1 << 23), rng.randint(-1 << 39, 1 << 39))))
    if rng.random() < 0.2:
        node.body = b"\0" + node.body


TREE_DAMAGE = (
    change_tag, nudge_tag, flip_constructed, tag_06, drop, double, swap, stray_after, stray_inside,
    octet_more, hollow, not_shortest, sign_wrong, one_over, one_under, wrapped, in_range, contents_cut,
    bad_octet, too_wide, many, length_more, length_less, length_huge, form_80, marker_spoilt, marker_early,
    marker_far, met_by_search, form_83, form_other, form_loose, ends_early, foreign_code)

# Operations and errors that are not known are asked for more often than chance gives them.
CODE_PLACES = {0xA1: (1,), 0xA2: (1, 0), 0xA3: (1,)}


# ---------------------------------------------------------------- damage to octets

def cut(rng, octets):
    return octets[:rng.randrange(len(octets) + 1)]


def add(rng, octets):
    i = rng.randrange(len(octets) + 1)
    return octets[:i] + bytes((any_octet(rng),)) + octets[i:]


def remove(rng, octets):
    i = rng.randrange(len(octets) or 1)
    return octets[:i] + octets[i + 1:]


def change(rng, octets):
    i = rng.randrange(len(octets) or 1)
    return octets[:i] + bytes((any_octet(rng),)) + octets[i + 1:]


def nudge(rng, octets):
    if not octets:
        return octets
    i = rng.randrange(len(octets))
    new = rng.choice((octets[i] + 1, octets[i] - 1, octets[i] ^ 0x20, octets[i] ^ 0x80)) & 0xFF
    return octets[:i] + bytes((new,)) + octets[i + 1:]


def trail(rng, octets):
    return octets + rng.randbytes(rng.choice((1, 1, 2, 8)))


def overflow(rng, octets):
    """At, or just over, the 254 octets."""
    return octets + bytes(max(0, rng.choice((254, 255, 256, 300)) - len(octets)))


OCTET_DAMAGE = (cut, add, remove, change, nudge, nudge, trail, overflow)
ODD_OCTETS = (0x00, 0x01, 0x02, 0x05, 0x06, 0x0A, 0x30, 0x7F, 0x80, 0x81, 0x82, 0x83, 0x84, 0xA0, 0xA1, 0xFF)


def any_octet(rng):
    return rng.choice(ODD_OCTETS) if rng.random() < 0.6 else rng.randrange(256)


def each_damage(rng, roots, damages):
    """Every damage to every element of every tree."""
    for root in roots:
        for i in range(sum(1 for _ in walk(root))):
            for damage in damages:
                spoilt = root.copy()
                damage(rng, *list(walk(spoilt))[i])
                yield lay_some(rng, spoilt, (0.0, 0.0, 0.3))


def sweep(rng):
    """Every damage to every element of every form, over and over with new values."""
    while True:
        yield from each_damage(rng, map(tree, variants(rng)), TREE_DAMAGE)


def spoil_tree(rng, root, damages):
    """The octets of a component's tree, damaged at random, once or more, in its elements, its octets or both."""
    kind = rng.random()
    if kind < 0.65:
        for _ in range(rng.choice((1, 1, 1, 2))):
            damage = rng.choice(damages)
            damage(rng, *rng.choice(list(walk(root))))
    octets = lay_some(rng, root, (0.0, 0.0, 0.3))
    if kind >= 0.55:
        for _ in range(rng.choice((1, 1, 1, 2, 4))):
            octets = rng.choice(OCTET_DAMAGE)(rng, octets)
    return octets


def spoil(rng):
    """A component damaged at random."""
    return spoil_tree(rng, fitting_record(rng, None, None if rng.random() < 0.2 else (1, 3))[1], TREE_DAMAGE)


def spoil_code(rng, root, damages):
    """The octets of a component's tree, its operation or error damaged, often with damage after it, which is not looked at."""
    node = root
    for i in CODE_PLACES[root.tag]:
        node, parent = node.parts[i], node
    rng.choice(damages)(rng, node, parent)
    octets = lay_some(rng, root, (0.0, 0.3))
    return change(rng, octets) if rng.random() < 0.2 else octets


def strange_code(rng):
    """An unknown operation or error."""
    form = rng.choice(((3, 0, 0), (3, 0, 0), (2, 30, 0), rng.choice(RICH)))
    return spoil_code(rng, fitting_record(rng, form, (1, 2))[1], (foreign_code, foreign_code, foreign_code, tag_06, not_shortest, hollow))


def long_component(rng):
    """A well-formed component around and over 254 octets."""
    return lay_some(rng, tree(long_record(rng)), (0.0, 0.5, 1.0))


def nested(rng):
    """Elements without a number in one another, up to 254 octets and over, their end markers there, too few or too many."""
    depth = rng.choice((1, 2, 3, 10, 62, 63, 64, 125, 126, rng.randint(1, 126)))
    inner = rng.choice((b"", b"", b"\x05\0", b"\0\x80", b"\x83", b"\0", b"\x02\x83", b"\x02\x03\0\0\0"))
    markers = rng.choice((depth + 1, depth + 1, depth, depth + 2, rng.randint(0, depth + 2)))
    start = rng.choice((b"\xA1\x80", b"\xA2\x80\x02\x01\x05", b"\xA1\x80\x02\x01\x05\x02\x01\x23"))
    return start + rng.choice((b"\x30\x80", b"\xA1\x80", b"\xFF\x80", b"\x20\x80")) * depth + inner + b"\0\0" * markers


def noise(rng):
    octets = bytearray(any_octet(rng) for _ in range(rng.choice((0, 1, 2, 3, 4, 6, 10, 20, 40))))
    if octets and rng.random() < 0.8:
        octets[0] = rng.randrange(0xA0, 0xA6)
        if len(octets) > 1 and rng.random() < 0.8:
            octets[1] = 0x80 if rng.random() < 0.5 else (len(octets) - 2) & 0x7F
    return bytes(octets)
