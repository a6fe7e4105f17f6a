"""Test inputs: components of trunks (source document 001), valid and damaged, elements of both families, and records for the writer."""

import aoc
import trunks
from make_damage import (TREE_DAMAGE, add, any_octet, change, cut, each_damage, foreign_code, hollow, many, nested, noise,
                         not_shortest, nudge, remove, spoil_code, spoil_tree, tag_06, trail)
from make_elements import any_tile
from make_fields import NUMBER_ENDS, RANGE_ENDS, TEXT_ENDS
from make_records import DIGIT_OCTETS, any_id, currency_text, fill_rates, number, text, valid_component
from make_trees import Node, any_length, lay, lay_some, money_parts, num, rate_tree, twos, walk
from trunks import (BILLINGS, COMPLETE, DIVERSION, ERROR, EXTENSION, FINAL, FROM_BEGINNING, GET_FINAL, INTERIM, INVOKE, KEPT_MAX, PRIVATE,
                    PUBLIC, RATE, REJECT, RESULT)

# Every frame, operation (in a reject: problem, in an error: its value) and kind of charge.
FORMS = (
    [(INVOKE, 59, 0), (RESULT, 59, 0), (INVOKE, GET_FINAL, 0), (INVOKE, RATE, 0), (INVOKE, RATE, 4), (INVOKE, COMPLETE, 0), (RESULT, COMPLETE, 0),
     (INVOKE, DIVERSION, 0), (EXTENSION, 0, 0)]
    + [(INVOKE, operation, kind) for operation in (FINAL, INTERIM) for kind in (0, 1, 2)]
    + [(ERROR, error, 0) for error in trunks.ERRORS]
    + [(REJECT, problem, 0) for problem in aoc.PROBLEMS])
RICH = [(INVOKE, RATE, 4), (INVOKE, FINAL, 2), (INVOKE, INTERIM, 2), (INVOKE, COMPLETE, 0), (INVOKE, DIVERSION, 0), (EXTENSION, 0, 0),
        (INVOKE, 59, 0)]
MODES = {59: 6, COMPLETE: 2}  # the highest detail of a result


# ---------------------------------------------------------------- valid records, and their trees

def identifier(rng):
    """An object identifier's octets: numbers of one octet or more, none of which begins with 80."""
    octets = b""
    for _ in range(rng.choice((1, 1, 2, 3, 6))):
        octets += bytes([rng.randrange(0x81, 0x100)] + [rng.randrange(0x80, 0x100) for _ in range(rng.randrange(3))] if rng.random() < 0.3 else [])
        octets += bytes((rng.randrange(0x80),))
    return octets


def any_tree(rng, most, depth):
    """One element of any tag: primitive with any octets, or constructed with elements, to some depth."""
    if depth == 0 or rng.random() < (0.4 if depth < 10 else 0.03):
        tag = rng.choice((rng.randrange(1, 256), 0x04, 0x05)) & ~aoc.CONSTRUCTED or 0x04
        return Node(tag, body=rng.randbytes(rng.choice((0, 0, 1, 3, rng.randint(0, most)))))
    tag = rng.choice((rng.randrange(1, 256) | aoc.CONSTRUCTED, 0x30, 0xA1))
    parts = 1 if depth > 10 else rng.choice((0, 1, 1, 1, 2, 3))
    return Node(tag, [any_tree(rng, most // max(parts, 1), depth - 1) for _ in range(parts)])


def any_extension(rng, most):
    """06 identifier, then one element of any tag."""
    return [Node(0x06, body=identifier(rng)), any_tree(rng, most, rng.choice((0, 0, 1, 2, 3, 8, rng.randrange(110))))]


def extensions(rng, t):
    """The record gets an extension, or a list of them; its element."""
    kind = rng.choice((0, 0, 1, 2)) if t.frame != ERROR else 1
    if kind == 0:
        return []
    most = rng.choice((4, 4, 4, 40, 180))
    if kind == 1:
        parts = any_extension(rng, most)
    else:
        parts = [Node(0x30, any_extension(rng, most // 4)) for _ in range(rng.choice((0, 1, 1, 2, 5)))]
    t.extended, t.extension = kind, b"".join(map(lay, parts))
    return [Node(0xA0 + kind, parts)]


def party(rng, a, kinds=(2, 3, 4)):
    """A number: its element."""
    a.kind = rng.choice(kinds)
    letters = text(rng, 20, DIGIT_OCTETS)
    a.count, a.digits[:len(letters)] = len(letters), letters
    body = bytes(letters)
    if a.kind == 2:
        return Node(0x80, body=body, limit=20)
    a.plan = rng.choice(aoc.PLANS)
    return Node(0xA1 if a.kind == 3 else 0xA5, [num(0x0A, a.plan, 0, 6), Node(0x12, body=body, limit=20)])


def address(rng, a, tag):
    return [] if rng.random() < 0.4 else [Node(tag, [party(rng, a)])]


def association(rng, a):
    if rng.random() < 0.3:
        a.kind, a.id = 1, any_id(rng)
        return [num(0x02, aoc.signed(a.id), -32768, 32767)]
    return address(rng, a, 0xA0)


def some_currency(rng):
    return [] if rng.random() < 0.15 else currency_text(rng)


def charged(rng, t):
    """80 00, 81 00, or 30 {A1 {currency, amount}; optional 82 billing}."""
    f = t.charge.figure
    if f.kind < 2:
        return Node(0x80 + f.kind)
    letters = some_currency(rng)
    f.money.currency.count, f.money.currency.octets[:len(letters)] = len(letters), letters
    f.money.number, f.money.multiplier = number(rng), rng.randrange(7)
    root = Node(0x30, [Node(0xA1, money_parts(letters, f.money.number, f.money.multiplier))])
    f.billed = rng.randrange(2)
    if f.billed:
        allowed = BILLINGS[t.operation]
        f.billing = rng.choice(allowed)
        root.parts.append(num(0x82, f.billing, 0, allowed[-1]))
    return root


def rates(rng, t, sizes):
    charge = t.charge
    fill_rates(rng, charge, rng.randint(*sizes) if sizes else rng.choice((1, 1, 2, 3, 4, 10)))
    entries = []
    for i in range(charge.figure.count):
        o = charge.list.octets[18 * i:18 * i + 18]
        if rng.random() < 0.15:
            charge.list.numbers[3 * i:3 * i + 3] = (0, 0, 0)
            o = [o[0], FROM_BEGINNING] + [0] * 16
        elif o[1] <= 3 and rng.random() < 0.15:
            o[7:] = [0] * 11
        charge.list.octets[18 * i:18 * i + 18] = o
        entries.append(Node(0x30, [num(0x0A, o[0], 0, 4), Node(0x86)]) if o[1] == FROM_BEGINNING else rate_tree(charge.list, i))
    return Node(0x30, entries, limit=10)


def argument(rng, t, sizes):
    """What stands in the 30 of an argument or result, ahead of its extension."""
    if t.frame == RESULT:
        t.detail = rng.randint(0, MODES[t.operation])
        return [num(0x0A, t.detail, 0, MODES[t.operation])]
    if t.operation == 59:
        t.modes = bytes(rng.randrange(7) for _ in range(rng.choice((0, 1, 1, 3, 6, 7))))
        return [Node(0x30, [num(0x0A, mode, 0, 6) for mode in t.modes], limit=7)]
    if t.operation in (FINAL, INTERIM):
        parts = [charged(rng, t)]
        return parts + association(rng, t.charge.figure.association) if t.operation == FINAL else parts
    if t.operation == RATE:
        return [rates(rng, t, sizes) if t.charge.figure.kind else Node(0x05)]
    parts = [party(rng, t.user)] + association(rng, t.charge.figure.association)
    if t.operation == DIVERSION:
        t.detail = rng.randrange(4)
        parts.append(num(0x0A, t.detail, 0, 3))
    return parts


def make_trunk(rng, form=None, sizes=None):
    """A valid record of a form and its tree; `sizes` bounds the entries of its rates."""
    frame, operation, kind = form or rng.choice(RICH if rng.random() < 0.5 else FORMS)
    t = trunks.Trunk(frame=frame)
    if frame == EXTENSION:
        t.detail, t.entity = rng.randrange(2), rng.randrange(2)
        return t, Node(0xAA, [num(0x80, t.detail, 0, 1), *address(rng, t.user, 0xA1), num(0x82, t.entity, 0, 1),
                              *address(rng, t.charge.figure.association, 0xA3)])
    t.id = any_id(rng)
    named = num(0x02, aoc.signed(t.id), -32768, 32767)
    if frame == REJECT:
        if rng.random() < 0.3:
            t.unnamed, t.id, named = 1, 0, Node(0x05)
        t.problem, t.detail = operation, rng.randint(0, aoc.PROBLEMS[operation])
        return t, Node(0xA4, [named, num(operation, t.detail, 0, aoc.PROBLEMS[operation])])
    if frame == ERROR:
        t.error = operation
        parts = [named, num(0x02, operation, 3, 1016)]
        if operation == trunks.UNSPECIFIED and rng.random() < 0.6:
            parts += extensions(rng, t)
            parts[-1].tag = 0x30
        return t, Node(0xA3, parts)
    t.operation, t.charge.figure.kind = operation, kind
    code = num(0x02, operation, 59, 65)
    if operation == GET_FINAL:
        return t, Node(0xA1, [named, code, *(extensions(rng, t) or [Node(0x05)])])
    body = Node(0x30, argument(rng, t, sizes) + extensions(rng, t))
    return t, Node(0xA1, [named, code, body]) if frame == INVOKE else Node(0xA2, [named, Node(0x30, [code, body])])


def fitting(rng, form=None, sizes=None):
    """The same with a shortest form of at most 254 octets."""
    while True:
        t, root = make_trunk(rng, form, sizes)
        if len(lay(root)) <= 254 and len(t.extension) <= KEPT_MAX:
            return t, root


def valid_trunk(rng):
    root = fitting(rng)[1]
    laid = lay_some(rng, root, (0.0, 0.15, 0.6, 1.0))
    return laid if len(laid) <= 254 else lay(root)


def variants(rng):
    """Small valid records of every form, with every kind of rate, number and extension."""
    for form in FORMS:
        turns = [lambda t: True]
        if form[1] == RATE and form[2]:
            turns = [lambda t, k=k: t.charge.list.octets[1] == k for k in range(1, 8)]
        elif form[0] == EXTENSION:
            turns = [lambda t, k=k: t.user.kind == k and bool(t.charge.figure.association.kind) == (k % 2 == 0) for k in (0, 2, 3, 4)]
        elif form[0] == INVOKE and form[1] in (FINAL, COMPLETE, DIVERSION):
            turns = [lambda t, k=k: t.charge.figure.association.kind == k for k in range(5)]
        elif form[0] == INVOKE and form[1] == 59:
            turns = [lambda t, k=k: len(t.modes) == k for k in (0, 1, 7)]
        if form[0] in (INVOKE, RESULT) or form[1] == trunks.UNSPECIFIED:
            turns += [lambda t, k=k: t.extended == k for k in (0, 1, 2) if k < 2 or form[0] != ERROR]
        for fits in turns:
            while True:
                t, root = fitting(rng, form, (1, 2))
                if fits(t) and len(t.extension) < 60:
                    break
            yield t, root


# ---------------------------------------------------------------- damage

STRAYS = tuple(map(bytes.fromhex, (
    "A1 00", "A2 00", "30 00", "A1 05 06 01 2A 05 00", "A2 07 30 05 06 01 2A 05 00", "30 05 06 01 2A 05 00", "A1 03 06 01 80", "A1 04 06 00 05 00",
    "A1 05 06 01 80 05 00", "A1 04 06 01 2A 05", "A1 06 06 01 2A 05 80 00", "A2 02 06 00", "A2 02 80 00", "A2 02 30 80", "80 01 31",
    "A1 06 0A 01 01 12 01 31", "A5 06 0A 01 01 12 01 31", "A0 03 80 01 31", "A3 08 A5 06 0A 01 01 12 01 31", "83 01 31", "84 01 31",
    "88 01 31", "80 00", "81 00", "86 00", "87 00", "05 00", "0A 01 03", "0A 01 07", "02 01 05", "82 01 01", "82 01 02",
    "8B 01 00", "92 01 05", "AA 00")))


def stray(rng, node, parent):
    """An element of the family that does not belong there, or an extension that is none, after this one or in its place."""
    if parent:
        octets = rng.choice(STRAYS)
        other = Node(octets[0])
        other.lengths = lambda size: octets[1:]
        at = parent.parts.index(node)
        parent.parts[at + rng.randrange(2):at + 1] = [other]


def trunk_code(rng, node, parent):
    """Operations and errors of both families, near them, and in more octets than they need."""
    known = rng.choice((59, 60, 61, 64, 65, 3, 10, 1008, 1016, 30, 36, 26, 0))
    node.body = twos(known + rng.choice((0, 0, -1, 1, 256, 1 << 16, 1 << 24, 1 << 32)))
    if rng.random() < 0.2:
        node.body = b"\0" + node.body


def mode_hole(rng, node, parent):
    """Billing 1 and 3, number kind 5, and what stands at the ends of the other ranges."""
    if node.low is not None:
        node.body = twos(rng.choice((1, 2, 3, 5, 6, 7, 8)))


DAMAGE = TREE_DAMAGE + (stray, stray, trunk_code, mode_hole)


def damaged_in_turn(rng):
    """Every damage to every element of every form, over and over with new values."""
    while True:
        yield from each_damage(rng, (root for _, root in variants(rng)), DAMAGE)


def one_octet_in_turn(rng):
    """Every octet of every form changed, and the octets up to it."""
    while True:
        for _, root in variants(rng):
            laid = lay(root, rng, rng.choice((0.0, 0.0, 0.5)), rng.choice((0.0, 0.0, 1.0)))
            for i, octet in enumerate(laid):
                yield laid[:i]
                for other in {octet ^ 1, octet ^ 0x20, octet ^ 0x80, (octet + 1) & 0xFF, (octet - 1) & 0xFF, any_octet(rng)} - {octet}:
                    yield laid[:i] + bytes((other,)) + laid[i + 1:]


def spoilt(rng):
    """Damaged at random."""
    return spoil_tree(rng, fitting(rng, None, None if rng.random() < 0.2 else (1, 3))[1], DAMAGE)


def strange_code(rng):
    """An operation or error of another family, or of none."""
    root = fitting(rng, rng.choice([form for form in FORMS if form[0] in (INVOKE, RESULT, ERROR)]), (1, 2))[1]
    return spoil_code(rng, root, (trunk_code, trunk_code, trunk_code, foreign_code, tag_06, not_shortest, hollow))


def long_trunk(rng):
    """Around and over 254 octets: durations, modes, or an extension that fills what is left."""
    t, root = make_trunk(rng, rng.choice(((INVOKE, RATE, 4), (INVOKE, GET_FINAL, 0), (INVOKE, FINAL, 2), (ERROR, 1008, 0))), (4, 8))
    if root.tag == 0xA3 or rng.random() < 0.5:
        body = b"\x06" + bytes((1, 0x2A, 0x04)) + any_length(rng, 0)
        size = rng.randint(215, 245)
        filler = Node(0x04, body=bytes(size - len(body)))
        kept = Node(0x30 if root.tag == 0xA3 else 0xA1, [Node(0x06, body=b"\x2A"), filler])
        if root.tag == 0xA3 or t.operation == GET_FINAL:
            root.parts[2:] = [kept]
        else:
            root.parts[2].parts[1:] = [kept]
    return lay_some(rng, root, (0.0, 0.5, 1.0))


def past_limit(rng):
    """Lists of modes and of rates up to their limit, at it and past it, with damage after it, which is not looked at."""
    root = fitting(rng, rng.choice(((INVOKE, 59, 0), (INVOKE, RATE, 4))), (1, 3))[1]
    lists = [node for node, _ in walk(root) if node.limit in (7, 10) and node.parts]
    if lists:
        many(rng, lists[0], None)
    return lay_some(rng, root, (0.0, 0.0, 0.3))


def strange_first(rng):
    """Another first octet: those of the network's own tiles, and any."""
    return bytes((rng.choice((0x8B, 0x92, 0xAA, 0xA5, 0xA0, rng.randrange(256))),)) + valid_trunk(rng)[1:]


# ---------------------------------------------------------------- extensions

EXTENDED = [(INVOKE, GET_FINAL, 0), (INVOKE, FINAL, 1), (INVOKE, COMPLETE, 0), (RESULT, 59, 0), (ERROR, trunks.UNSPECIFIED, 0)]


def extended(rng):
    """A record with an extension, its tree, and the element that holds the extension."""
    while True:
        t, root = fitting(rng, rng.choice(EXTENDED))
        if t.extended:
            return t, root, next(node for node, _ in walk(root) if node.tag in (0xA0 + t.extended, 0x30) and lay(node).endswith(t.extension)
                                 and len(lay(node)) - len(t.extension) in (2, 3))


def zero_tag(rng, node, parent):
    """00 for a tag."""
    node.tag = 0


def fresh_80(rng, node, parent):
    """A number of the identifier that begins with 80, or one that does not end."""
    if node.tag == 0x06:
        at = rng.randint(0, len(node.body))
        node.body = node.body[:at] + rng.choice((b"\x80", b"\x80\x01", b"\xff")) + node.body[at:]


EXTENSION_DAMAGE = TREE_DAMAGE + (zero_tag, zero_tag, fresh_80, fresh_80, stray)


def extension_octets(rng):
    """A component with an extension whose lengths have any form at every depth, often damaged inside it."""
    _, root, holder = extended(rng)
    kind = rng.random()
    if kind < 0.5:
        for _ in range(rng.choice((1, 1, 2))):
            inside = list(walk(holder))[1:]
            if inside:
                rng.choice(EXTENSION_DAMAGE)(rng, *rng.choice(inside))
    shortest = lay(root)
    for loose, unnumbered in ((rng.random(), rng.random()), (rng.choice((0.0, 0.2, 1.0)), rng.choice((0.0, 0.2))), (0.0, 0.0)):
        laid = lay(root, rng, loose, unnumbered)
        if len(laid) <= 254:
            break
    if kind > 0.9:
        at = rng.randrange(len(laid))
        laid = laid[:at] + bytes((rng.choice((0, 0x80, 0x81, 0x30, any_octet(rng))),)) + laid[at + 1:]
    return laid if len(shortest) <= 254 else shortest


def extension_input(rng):
    """A record whose extension is its normal form, another form of it, or spoilt."""
    t, _, holder = extended(rng)
    kind = rng.random()
    if kind < 0.5:
        form = b"".join(lay(part, rng, rng.choice((0.0, 0.1, 0.5)), rng.choice((0.0, 0.1, 0.5))) for part in holder.parts)
        t.extension = form if len(form) <= KEPT_MAX else t.extension
    elif kind < 0.8 and t.extension:
        at = rng.randrange(len(t.extension))
        t.extension = t.extension[:at] + bytes((rng.choice((0, 1, 0x80, 0x81, 0x30, any_octet(rng))),)) + t.extension[at + 1:]
    return f"O {PRIVATE:02x} {rng.choice((254, 254, 255, 30))} {trunks.pack(t).hex()}"


def octet_source(rng):
    """Octets for the reader without end."""
    in_turn, by_octet = damaged_in_turn(rng), one_octet_in_turn(rng)
    makers = (valid_trunk, lambda rng: next(in_turn), lambda rng: next(by_octet), spoilt, strange_code, long_trunk, past_limit,
              strange_first, nested, noise, valid_component)
    while True:
        yield rng.choices(makers, (12, 46, 28, 6, 3, 2, 1, 1, 1, 1, 2))[0](rng)


def any_profile(rng):
    return rng.choices((PRIVATE, PUBLIC, rng.choice((0x1F, 0x9E, 0x90, 0x92, 0x11, 0x00, 0xFF, rng.randrange(256)))), (88, 6, 6))[0]


# ---------------------------------------------------------------- elements

def spoilt_tile(rng):
    """A damaged component whose own length is right, so that it tiles."""
    while True:
        octets = spoilt(rng)
        if len(octets) < 120 and trunks.element(bytes((0x1C, len(octets) + 1, PRIVATE)) + octets)[2] == [3]:
            return octets


def tile(rng):
    makers = (valid_trunk, valid_component, spoilt_tile, lambda rng: bytes((rng.choice((0x8B, 0x92)), 1, rng.randrange(3))), any_tile,
              lambda rng: bytes((rng.randrange(256), 0)))
    return rng.choices(makers, (40, 15, 15, 10, 15, 5))[0](rng)


def trunk_element(rng):
    """An element with one of both profile octets, or another; its components of both families, and the network's own tiles."""
    tiles = b""
    for _ in range(rng.choice((0, 1, 1, 2, 3, 5, 30))):
        more = tile(rng)
        if len(tiles) + len(more) > 254 and rng.random() < 0.95:
            break
        tiles += more
    if rng.random() < 0.2 and tiles:
        # Damage among the tiles under a length that agrees.
        tiles = rng.choice((cut, add, remove, change, nudge, trail))(rng, tiles)
    octets = bytes((0x1C, (len(tiles) + 1) & 0xFF, rng.choices((PRIVATE, PUBLIC, any_profile(rng)), (75, 15, 10))[0])) + tiles
    return rng.choice((cut, add, remove, change, nudge, trail))(rng, octets) if rng.random() < 0.15 else octets


def place_in(rng, octets):
    places = trunks.element(octets)[2] + [len(octets)]
    return rng.choice(places) if rng.random() < 0.8 else rng.choice((rng.randint(0, len(octets) + 2), 3, 65535))


# ---------------------------------------------------------------- records for the writer

# Whole fields, as (place, size), of the record in memory, the extension's octets and the list left out.
FIELDS = ([(0, 1), (1, 1), (2, 2), (4, 2), (6, 1), (7, 1)] + [(i, 1) for i in range(8, 16)] + [(16, 2), (18, 2), (20, 1), (21, 1)]
          + [(i, 1) for i in range(22, 48)] + [(48, 1), (49, 1)])
CHARGE = 292  # where the charge begins
FIELDS += [(CHARGE + i, 1) for i in range(12)] + [(CHARGE + 12, 4), (CHARGE + 16, 2), (CHARGE + 18, 2)] + [(CHARGE + i, 1) for i in range(20, 48)]
TELLING = ([(0, 1), (1, 1), (4, 2), (6, 1), (7, 1), (8, 1), (9, 1), (18, 2), (20, 1), (21, 1), (42, 1), (43, 1), (48, 1), (49, 1)]
           + [(CHARGE + 12, 4), (CHARGE + 18, 2)] + [(CHARGE + i, 1) for i in (0, 11, 20, 21, 42, 43, 44, 45, 46, 47)])
NUMBERS, OCTETS = CHARGE + 48, CHARGE + 176
ENDS = sorted(set(RANGE_ENDS) | {58, 59, 65, 66, 242, 243})
ERROR_ENDS = (0, 3, 10, 26, 240, 248, 1007, 1008, 1009, 1015, 1016, 1017, 65535)


def in_use(t, place):
    """Whether a form has anything to tell in a place."""
    if place < 8 or place == 42:
        return True
    if place < 16:
        return (t.frame, t.operation) == (INVOKE, 59)
    if place < 44:
        return t.user.kind > 0
    if place < 292:
        return t.extended > 0
    if place - CHARGE in range(16, 42):
        return t.charge.figure.association.kind > 0
    return t.charge.figure.kind > 0


def ends_of(place, size):
    return NUMBER_ENDS if size == 4 else ERROR_ENDS if place == 4 else ENDS


def put_field(packed, place, size, value):
    return packed[:place] + (value % (1 << 8 * size)).to_bytes(size, "little") + packed[place + size:]


def fields_in_turn(rng):
    """Every telling field of every form at every end of a range, one at a time; the first and last octet of each string and the place after it."""
    while True:
        for t, _ in variants(rng):
            packed = trunks.pack(t)
            fields = TELLING + [(NUMBERS, 4), (OCTETS, 1)]
            if t.charge.figure.kind == aoc.RATES:
                fields = TELLING + [(NUMBERS + 4 * i, 4) for i in range(3)] + [(OCTETS + i, 1) for i in range(8)]
            for place, size in fields:
                for end in ends_of(place, size) if in_use(t, place) else (1, 255):
                    yield put_field(packed, place, size, end)
            figure = t.charge.figure
            for start, used, most in ((9, len(t.modes), 7), (22, t.user.count, 20), (50, len(t.extension), KEPT_MAX),
                                      (CHARGE + 1, figure.money.currency.count, 10), (CHARGE + 22, figure.association.count, 20)):
                for place in sorted({start, start + max(used, 1) - 1, start + min(used, most - 1)}):
                    for end in TEXT_ENDS if used else (1, 0x20):
                        yield put_field(packed, place, 1, end)


def spoilt_record(rng, t):
    packed = trunks.pack(t)
    for _ in range(rng.choice((1, 1, 1, 2, 4))):
        place, size = rng.choice(TELLING if rng.random() < 0.5 else FIELDS)
        if rng.random() < 0.3 and t.extended:
            place, size = 50 + rng.randrange(max(len(t.extension), 1)), 1
        elif rng.random() < 0.3 and t.charge.figure.kind == aoc.RATES:
            place, size = rng.choice(((OCTETS + rng.randrange(36), 1), (NUMBERS + 4 * rng.randrange(6), 4)))
        now = int.from_bytes(packed[place:place + size], "little")
        new = rng.choice((now + 1, now - 1, now ^ 1, rng.choice(ends_of(place, size)), rng.randrange(1 << 8 * size)))
        packed = put_field(packed, place, size, new)
    return packed


def writer_input(rng, in_turn):
    """A record of the family that the profile octet names; with another octet a record of either."""
    profile = any_profile(rng)
    if profile == PUBLIC or profile != PRIVATE and rng.random() < 0.5:
        packed = aoc.pack(aoc.locate(valid_component(rng))[2] or aoc.Record())
        return f"O {profile:02x} {rng.choice((254, 30))} {packed.hex()}"
    chance = rng.random()
    if chance < 0.75:
        return f"O {profile:02x} {rng.choice((254, 254, 255, 30))} {next(in_turn).hex()}"
    t, root = make_trunk(rng)
    while len(t.extension) > KEPT_MAX:
        t, root = make_trunk(rng)
    size = len(lay(root))
    packed = spoilt_record(rng, t) if rng.random() < 0.6 else trunks.pack(t)
    room = rng.choice((0, 1, max(size - 1, 0), size, size, size + 1, 253, 254, 254, 255))
    return f"O {profile:02x} {room} {packed.hex()}"
