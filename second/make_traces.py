"""Test inputs: traces of messages."""

import aoc
from make_calls import account_input
from make_damage import add, change, cut, nudge, remove, spoil, trail
from make_records import any_id, loosely, valid_component
from make_trees import tree


def fill(rng):
    """Elements that are none of a call's charges."""
    return rng.choice((b"", b"", b"\x18\x01\x89", b"\x28\x00", b"\x28\x03\x31\x2c\x32", b"\xa1", b"\xff", b"\x04\x03\x80\x90\xa3"))


def facility_of(rng, components):
    """A Facility element of these; at times malformed, with another profile octet, or under a shift."""
    body = b"".join(components)
    profile = rng.choices((0x91, 0x9F, 0x92, 0x11), (90, 6, 2, 2))[0]
    count = len(body) + 1
    if rng.random() < 0.03:
        body, count = rng.choice(((body + b"\xa1", count + 1), (body[:-1], count - 1), (b"", 1), (body + b"\0\0", count + 2)))
    if count > 255:
        return b""
    element = bytes((0x1C, count, profile)) + body if rng.random() < 0.98 else b"\x1c\0"
    shift = rng.choices((b"", bytes((rng.randrange(0x98, 0xA0),)), bytes((rng.randrange(0x98, 0xA0),)) + b"\xa1",
                         bytes((rng.randrange(0x90, 0x98),)), b"\x9e\x9d", b"\x9e\x96"), (85, 5, 3, 4, 2, 1))[0]
    return shift + element


def message_of(rng, reference, kind, components):
    """A message with its elements in any order of charges and others."""
    body = b""
    while components:
        some = rng.choice((1, 1, 2, 3))
        body += fill(rng) + facility_of(rng, components[:some])
        components = components[some:]
    body += fill(rng)
    if rng.random() < 0.02:
        body += rng.choice((b"\x28", b"\x28\x02\x41", b"\x1c\x0b\x91", b"\x96", b"\x9e"))
    return b"\x08" + reference + bytes((kind,)) + body


def trace_input(rng, length):
    """The messages of a call, and among them others; room that is more than enough, or just so, or not."""
    number = rng.choice((5, 5, 0, 127, 300, None))

    def reference(flag):
        given = number
        if rng.random() < 0.04:
            given = rng.choice((5, 6, 0, 133, None))
        if given is None:
            return b"\0"
        wide = 2 if given > 127 or rng.random() < 0.15 else 1
        return bytes((wide,)) + (given | flag << 8 * wide - 1).to_bytes(wide, "big")

    text = account_input(rng, length)[2:]
    messages, waiting = [], []

    def send(network, kind, components):
        messages.append((message_of(rng, reference(rng.randrange(2) if rng.random() < 0.1 else network), kind, components), network))

    for event in text.split(";") if text else ():
        if event[0] == "S":
            asked = [i for i in enumerate(event[2:].split(",")) if i[1] != "-"]
            rng.shuffle(asked)
            requests = [loosely(rng, tree(aoc.Record(frame=1, id=int(i), operation=30, detail=case))) for case, i in asked]
            if rng.random() < 0.2:
                requests.insert(rng.randrange(len(requests) + 1), rng.choice((spoil, valid_component))(rng))
            if rng.random() < 0.2:
                requests.append(loosely(rng, tree(aoc.Record(frame=1, id=any_id(rng), operation=30, detail=rng.randrange(3)))))
            send(rng.random() < 0.03, 0x05, requests)
        elif event[0] == "M":
            waiting.append(bytes.fromhex(event[1:]))
            if rng.random() < 0.5:
                send(rng.random() > 0.05, rng.choice((0x62, 0x62, 0x01, 0x02, 0x7B, 0x00, 0xC5, 0x2D)), waiting)
                waiting = []
        else:
            kind = {"C": 0x07, "X": rng.choice((0x45, 0x45, 0x4D, 0x5A)), "L": rng.choice((0x5A, 0x5A, 0x4D)), "P": 0x2D, "U": 0x2E}[event[0]]
            send(rng.random() > (0.05 if event[0] == "C" else 0.4), kind, waiting)
            waiting = []
    if rng.random() < 0.7:
        send(rng.random() < 0.5, 0x4D, waiting)
        send(rng.random() < 0.5, 0x5A, [])
    pairs, octets = [], b""
    for message, network in messages:
        if rng.random() < 0.01:
            message = rng.choice((cut, add, remove, change, nudge, trail))(rng, message)
        pairs += [len(message), rng.choice((1, 1, 7, 1 << 31)) if network else 0]
        octets += message
    damage = rng.random()
    if damage < 0.02 and pairs:
        at = 2 * rng.randrange(len(pairs) // 2)
        pairs[at] = rng.choice((pairs[at] + 1, max(0, pairs[at] - 1), 0, 0xFFFFFFFF))
    elif damage < 0.03 and pairs:
        pairs.pop()
    elif damage < 0.04:
        pairs += [0, 0]
    rooms = 6 * len(octets), len(octets)
    if rng.random() < 0.3:
        rooms = max(0, rooms[0] - rng.choice((-1, 0, 0, 1, 6))), max(0, rooms[1] - rng.choice((-1, 0, 0, 1)))
    return f"X {rooms[0]} {rooms[1]} {''.join(f'{n:08x}' for n in pairs)} {octets.hex()}"
