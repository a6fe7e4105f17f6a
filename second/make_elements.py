"""Test inputs: Facility elements, valid and damaged, gone through and written."""

import aoc
from make_damage import add, change, cut, nudge, remove, trail
from make_records import valid_component
from make_trees import any_length


def any_tile(rng):
    """A tile of any tag, with a number or without, and then of elements that may be such tiles."""
    tag = rng.randrange(256)
    if rng.random() < 0.5:
        # Mostly the tags that may have no number.
        tag |= 0x20 if rng.random() < 0.9 else 0
        return bytes((tag, 0x80)) + b"".join(any_tile(rng) for _ in range(rng.choice((0, 0, 1, 1, 2)))) + b"\0\0"
    body = rng.randbytes(rng.choice((0, 1, 2, 5)))
    return bytes((tag,)) + any_length(rng, len(body)) + body


def facility(rng):
    tiles = b""
    style = rng.random()
    for _ in range(rng.choice((0, 1, 1, 2, 3, 5, 127, 130))):
        if style < 0.4:
            tile = valid_component(rng) if len(tiles) < 60 else b"\xA1\x00"
        elif style < 0.6:
            tile = bytes((rng.randrange(256), 0))
        else:
            tile = any_tile(rng)
        if len(tiles) + len(tile) > 254 and rng.random() < 0.95:
            break
        tiles += tile
    profile = 0x91 if rng.random() < 0.93 else rng.choice((0x9F, 0x9F, 0x1F, 0x90))
    octets = bytes((0x1C, (len(tiles) + 1) & 0xFF, profile)) + tiles
    chance = rng.random()
    if chance < 0.25:
        octets = rng.choice((cut, add, remove, change, nudge, trail))(rng, octets)
    elif chance < 0.5 and len(octets) > 3:
        # Damage among the tiles under a length that agrees.
        inner = rng.choice((cut, add, remove, change, nudge, trail))(rng, octets[3:])
        octets = bytes((0x1C, (len(inner) + 1) & 0xFF, profile)) + inner
    return octets


def next_input(rng):
    """An element, and most often a place of it: a component's start or the end, at times one inside or past it."""
    octets = facility(rng)
    places = aoc.element(octets)[1] + [len(octets)]
    place = rng.choice(places) if rng.random() < 0.7 else rng.choice((rng.randint(0, len(octets) + 2), 3, 65535))
    return f"N {place} {octets.hex()}"


def round_input(rng):
    """Components laid end to end, or damaged, and a room for the element round them, most often one that is enough."""
    octets = facility(rng)[3:]
    return f"L {rng.choice((257, 300, len(octets) + rng.randint(0, 5)))} {octets.hex()}"
