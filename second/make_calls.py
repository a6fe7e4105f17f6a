"""Test inputs: lists of a call's events, and operations on a switchboard."""

import answer
import aoc
from make_damage import spoil
from make_records import PADDED, REJECTS, any_id, fill_association, loosely, make_record, valid_component
from make_trees import tree


def amount(text, number, multiplier):
    charge = aoc.Charge()
    charge.figure.kind = aoc.AMOUNT
    money = charge.figure.money
    money.currency.count = len(text)
    money.currency.octets[:len(text)] = text
    money.number, money.multiplier = number, multiplier
    return charge


def units(*entries):
    charge = aoc.Charge()
    charge.figure.kind, charge.figure.count = aoc.UNITS, len(entries)
    for i, (value, kind) in enumerate(entries):
        charge.list.numbers[i] = value or 0
        charge.list.octets[2 * i:2 * i + 2] = (int(value is not None), kind)
    return charge


def no_charge():
    charge = aoc.Charge()
    charge.figure.kind = aoc.FREE
    return charge


# Figures near one another: equal in thousandths, or different in one thing only.
NEAR = (
    lambda: amount(b"EUR", 50, 1), lambda: amount(b"EUR", 500, 0), lambda: amount(b"EUR", 5, 2),
    lambda: amount(b"EUR", 50, 2), lambda: amount(b"EUR", 501, 0), lambda: amount(b"EUR ", 500, 0),
    lambda: amount(b"eur", 500, 0), lambda: amount(b"EUR\0", 5, 2),
    lambda: amount(b"EUR", 0, 0), lambda: amount(b"EUR", 0, 6), lambda: amount(b"X", 16777215, 6),
    lambda: units((12, 0)), lambda: units((12, 0)), lambda: units((13, 0)), lambda: units((12, 1)),
    lambda: units((None, 0)), lambda: units((None, 1)), lambda: units((0, 0)),
    lambda: units((12, 0), (12, 0)), lambda: units((12, 0), (None, 12)), lambda: units((12, 1), (13, 0)),
    no_charge, no_charge)

ZERO_NEAR = (lambda: amount(b"EUR", 0, 0), lambda: amount(b"EUR", 0, 6), lambda: amount(b"EUR       ", 0, 3))
PADDED_NEAR = tuple(lambda text=text: amount(text, 500, 0) for text in PADDED) + (lambda: amount(b"EUR ", 501, 0),)


def charge_component(rng, service, near):
    """An invoke of D or E with one of the figures near at hand."""
    charge = rng.choice(near)()
    figure = charge.figure
    is_units = figure.kind == aoc.UNITS or figure.kind == aoc.FREE and rng.random() < 0.5
    operation = (33, 35)[service == aoc.E] + is_units
    if figure.kind != aoc.FREE:
        if service == aoc.D:
            figure.total = rng.randrange(2)
        if rng.random() < 0.4:
            figure.billed, figure.billing = 1, rng.randrange(3 if service == aoc.D else 8)
    if service == aoc.E and rng.random() < 0.3:
        fill_association(rng, figure.association)
    return aoc.Record(frame=1, id=any_id(rng), operation=operation, charge=charge)


def call_component(rng, phase, near, ids):
    """The octets of a component that may well matter in this phase."""
    asked = [i for i in ids if i is not None]
    # In Clearing figures count for more: finals that repeat or clash.
    pick = rng.random() * (0.7 if phase == aoc.CLEARING else 1.0) ** (rng.random() < 0.7)
    answered = rng.choice(asked) if asked and rng.random() < 0.85 else any_id(rng)
    if pick < 0.42:
        service = aoc.E if rng.random() < (0.5 if phase == aoc.CLEARING else 0.15) else aoc.D
        record = charge_component(rng, service, near)
    elif pick < 0.50:
        record = make_record(rng, rng.choice(((1, 31, 4), (1, 32, 5))), (1, 2))
    elif pick < 0.57:
        record = make_record(rng, (1, rng.randint(31, 36), 0))
    elif pick < 0.60:
        record = make_record(rng, (1, 30, 0))
    elif pick < 0.75:
        # NULL fits D and E, the others S; at random both fit and misfit are common.
        record = make_record(rng, (2, 30, rng.choice((0, 0, 4, 5))), (1, 2))
        record.id = answered
    elif pick < 0.83:
        record = make_record(rng, (3, 0, 0))
        record.id = answered
    elif pick < 0.91:
        record = make_record(rng, rng.choice(REJECTS))
        if not record.unnamed:
            record.id = answered
    elif pick < 0.95:
        return spoil(rng)
    else:
        return valid_component(rng)
    return loosely(rng, tree(record))


def setup_ids(rng):
    chance = rng.choice((0.0, 0.0, 0.35, 0.6, 1.0))
    pool = rng.sample((1, 2, 5, 0, 32767, 32768, 65535), 3)
    if rng.random() < 0.1:
        pool = [pool[0], pool[1], pool[0]] if rng.random() < 0.5 else [pool[0]] * 3
    return tuple(i if rng.random() < chance else None for i in pool)


NEXT = {aoc.IDLE: "S", aoc.ESTABLISHMENT: "C", aoc.ACTIVE: "X", aoc.CLEARING: "L", aoc.ENDED: "L", aoc.SUSPENDED: "U"}


def account_input(rng, length):
    """A list of events that mostly keeps to the phases, at its own pace."""
    near = rng.sample(PADDED_NEAR if rng.random() < 0.15 else NEAR, rng.choice((1, 2, 3, 6)))
    haste = rng.choice((0.15, 0.3, 0.5))
    # Little happens in Establishment, and finals need time in Clearing.
    pace = {aoc.ESTABLISHMENT: 1.6, aoc.ACTIVE: 1.0, aoc.CLEARING: rng.choice((0.1, 0.4, 0.9)), aoc.SUSPENDED: 1.4}
    parks = rng.choice((0.0, 0.3, 0.7))
    phase, ids, events = aoc.IDLE, (None, None, None), []
    for _ in range(length):
        if rng.random() < 0.05:
            event = rng.choice("SCXLMPU")
        elif phase == aoc.IDLE:
            event = "S"
        elif phase == aoc.ENDED:
            event = rng.choice("MMSCXLPU")
        elif rng.random() < haste * pace[phase]:
            if phase == aoc.ACTIVE and rng.random() < parks:
                event = "P"
            else:
                event = "X" if phase in (aoc.ESTABLISHMENT, aoc.SUSPENDED) and rng.random() < 0.2 else NEXT[phase]
        else:
            event = "M"
        if event == "S":
            given = setup_ids(rng)
            named = [i for i in given if i is not None]
            if phase == aoc.IDLE and len(set(named)) == len(named):
                phase, ids = aoc.ESTABLISHMENT, given
            events.append("S " + ",".join("-" if i is None else str(i) for i in given))
        elif event == "M":
            events.append("M" + call_component(rng, phase, near, ids).hex())
        else:
            events.append(event)
            if event == "C" and phase == aoc.ESTABLISHMENT:
                phase = aoc.ACTIVE
            elif event == "X" and phase in (aoc.ESTABLISHMENT, aoc.ACTIVE, aoc.SUSPENDED):
                phase = aoc.CLEARING
            elif event == "P" and phase == aoc.ACTIVE:
                phase = aoc.SUSPENDED
            elif event == "U" and phase == aoc.SUSPENDED:
                phase = aoc.ACTIVE
            elif event == "L" and phase == aoc.CLEARING:
                phase = aoc.ENDED
    return "A " + ";".join(events)


KINDS = {"S": 1, "C": 2, "X": 3, "L": 4, "M": 5, "P": 6, "U": 7}


def row_of(rng, event):
    """A row's first five numbers, with nonsense where they are not looked at, and the octets."""
    kind, asked, ids, octets = KINDS[event[0]], 0, [rng.randrange(4) for _ in range(3)], b""
    if kind == 1:
        for bit, i in enumerate(event[2:].split(",")):
            if i != "-":
                asked, ids[bit] = asked | 1 << bit, int(i)
    elif kind == 5:
        octets = bytes.fromhex(event[1:])
    if rng.random() < 0.1:
        asked |= rng.randrange(1 << 13) << 3
    if kind != 5 and rng.random() < 0.03:
        octets = bytes(rng.randrange(256) for _ in range(rng.randint(1, 3)))
    return [kind, asked, *ids], octets


def why_input(rng, length):
    """An event list, most often one that ends."""
    text = account_input(rng, length)[2:]
    events = text.split(";") if text else []
    if rng.random() < 0.8:
        events += ["C"] * (rng.random() < 0.2) + ["X", "L"] + ["M" + spoil(rng).hex()] * rng.randrange(2)
    return "Y " + in_slices(rng, events)


def fault_input(rng, length):
    """An event list that is seldom refused: amounts of D in few currencies and about one value, units, free marks, finals of E."""
    if rng.random() < 0.1:
        return "F" + why_input(rng, length)[1:]
    kinds = rng.choice(("m", "m", "mmmu", "mmmmf", "mmufn", "muf"))

    def some(most, kinds, total):
        return ["M" + charged(rng, rng.choice(kinds), total).hex() for _ in range(rng.randint(0, most))]

    parked = ["P"] + some(1, kinds, 0) + ["U"] if rng.random() < 0.1 else []
    events = ["S " + rng.choice(("-,-,-", "-,-,-", "-,5,-"))] + (some(1, "f", 0) if "f" in kinds else []) + ["C"]
    events += some(length, kinds, 0) + parked + some(length // 2, kinds, 0) + ["X"] + some(3, kinds + "e", 1) + ["L"] * rng.randrange(2)
    return "F " + in_slices(rng, events, 0.002)


def charged(rng, kind, total):
    """A component of D (now and then of the other type than its phase asks for) or of E, as octets."""
    operation, charge = 33, aoc.Charge()
    total = total if rng.random() < 0.98 else 1 - total
    if kind == "u":
        operation = 34
        charge = units(*[(rng.choice((None, 0, 0, 0, 1)), rng.randrange(3)) for _ in range(rng.randint(1, 3))])
    elif kind in "fn":
        charge.figure.kind, total = aoc.FREE if kind == "f" else aoc.NOTHING, 0
    else:
        currency = rng.choice((b"EUR", b"EUR", b"EUR ", b"DM", b"DM  ", b" EUR"))
        charge = amount(currency, rng.choice((0, 500, 500, 501, rng.randrange(1000))), rng.choice((0, 1, 1, 2)))
        operation, total = (35, 0) if kind == "e" else (33, total)
    charge.figure.total = total
    return aoc.write(aoc.Record(frame=1, id=rng.randint(1, 9), operation=operation, charge=charge), 254)[1]


def in_slices(rng, events, strange=0.03):
    """The rows and octets of events, at times with a kind of no event, at times such that they do not add up."""
    rows, octets = [], b""
    for event in events:
        row, part = row_of(rng, event)
        if rng.random() < strange:
            row[0] = rng.choice((0, 8, 9, 255, 256, 257, 261, 65535))
        rows += [*row, len(part)]
        octets += part
    damage = rng.random()
    if damage < 0.02 and rows:
        rows = rows[:-rng.randint(1, 5)]
    elif damage < 0.04:
        octets += b"\0" * rng.randint(1, 2)
    elif damage < 0.06 and rows:
        at = 6 * rng.randrange(len(rows) // 6) + 5
        rows[at] = rng.choice((rows[at] + 1, max(0, rows[at] - 1), 65535))
    return "".join(f"{n:04x}" for n in rows) + " " + octets.hex()


def call_after_call(rng):
    """Operations of one reference: calls one after the other, most of them ended and collected, with some that are refused among them."""
    operations = []
    for _ in range(rng.choice((1, 1, 2, 3))):
        operations += account_input(rng, rng.randint(1, 8))[2:].split(";")
        operations += rng.choice(([], ["K"], ["X", "L", "K"], ["X", "L", "V", "K", "K"], ["X", "V", "K", "L", "S -,-,-", "K"]))
    for _ in range(rng.choice((0, 0, 1, 3))):
        operations.insert(rng.randint(0, len(operations)), rng.choice(("V", "K", "S -,-,-", "S 5,5,-", "O0", "O8", "O255")))
    return operations


def board_input(rng):
    """A switchboard's operations: a few references among each other, and at times so many more that the table is full."""
    calls = {r: call_after_call(rng) for r in rng.sample((0, 1, 7, 255, 256, 32767, 32768, 65534, 65535), rng.randint(1, 4))}
    begun = []
    if rng.random() < 0.3:
        others = [1000 + 3 * i for i in range(rng.choice((59, 62, 63, 64, 66)))]
        begun = [f"{r} S -,-,-" for r in others]
        for r in rng.sample(others, rng.randint(1, 4)):
            calls[r] = rng.choice((["X", "L", "K"], ["X", "L", "K", "S -,5,-", "V"], ["C", "V", "X", "L", "K", "K"]))
    done = begun
    while calls:
        r = rng.choice(list(calls))
        done.append(f"{r} {calls[r].pop(0)}")
        if not calls[r]:
            del calls[r]
    return "B " + ";".join(done)


def dropped_input(rng, length):
    """A list of events from which some of those with no effect are to be left out."""
    share = rng.choice((0.3, 0.7, 1.0))
    account, events = aoc.Account(), []
    for event in account_input(rng, length)[2:].split(";"):
        outcome = answer.do(account, event)
        events.append("~" + event if aoc.is_noise(outcome) and rng.random() < share else event)
    return "D " + ";".join(events)
