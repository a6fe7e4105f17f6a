"""The second program's answers: one line of standard input, one line of standard output.

R <hex>                  read             <number> <offset> <packed record>
W <room> <packed record> write            <number> <count> <hex>
E <hex>                  Facility element <number> <count> <starts, comma separated>
L <room> <hex>           element written  <number> <count> <hex>
N <place> <hex>          one of its places <number> <offset> <the place after> <1 at the end> <packed record>
J <room> <hex>           reject in reply  <number> <count> <hex>
T <number> <multiplier>  thousandths      <thousandths>
P <service> <charge>     price            <number> <free> <count> <currency> <bits of the thousandths> <bits of the quotient>
M <month> <figure>;...   a month, - for the empty one, and figures <times>,<service>,<charge>: <numbers, a run as number*times> <month>
A <event>;<event>;...    account          outcome,service,phase,rate,running,closing,its service,marks,pending,identifiers;...
D <event>;~<event>;...   the same of a list from which the events with ~ are left out: here the whole list is judged, and the answers
                         of the events that remain are given; the library is given those events alone
Z <account> <event> <hex> an account of any 1,488 octets, and one event: its ten octets, and those beside it. First the account that it
                         leaves, then what is read off that, marks and pending as their octets:
                         outcome,service,first 16 octets,rate,running,final of D,final of E,phase,rate,running,closing,its service,marks,pending
Y <rows> <hex>           why no price     <number> <reason> <event>
B <reference> <event>;.. switchboard      of each operation: number,service of an event; number,service,figure of a collection;
                         number,figure of a reading, the figure being the account
F <rows> <hex>           exchange         <number> <rule> <event>
G <rows> <hex>           plain engine     <number> outcome,service;...;phase,rate,running,closing,its service,marks,pending,identifiers
Q <profile> <hex>        read by profile  <number> <offset> <family> <packed record of it>
K <place> <hex>          a place of an element of either family <number> <offset> <family> <the place after> <1 at the end> <packed record of it>
U <profile> <room> <hex> reject by profile <number> <count> <hex>
O <profile> <room> <packed record of its family> write by profile <number> <count> <hex>
V <profile> <room> <hex> element written by profile <number> <count> <hex>
X <room> <room> <pairs> <hex> a trace     <number> <message> <rows> <hex>, then the plain engine's answers on them as G has them

Events: S <id>,<id>,<id> Setup, C Connect, X Clear, L Released, P Suspend, U Resume, M<hex> Component. On a switchboard also
K a collection, V a reading, O<number> an event of a kind that is none's.

A profile octet is two hex digits. A family is 1 for document 01's, 2 for the trunks', 0 for none: that of the profile octet, whether the
component is refused or not. No record is no octets.
A row's six numbers are four hex digits each, a pair's two are eight. Hex is small and without spaces. An empty last field leaves the space before it.
A figure is - where all of it is zero, else a checksum of its octets; after `python3 answer.py octets` it is the octets themselves.
"""

import struct
import sys
import zlib

import aoc
import board
import fault
import month
import plain
import price
import trace
import trunks
import why

NO_RECORD = "00" * 376
NO_FIGURE = bytes(368)
whole_figures = False


def answer_read(rest):
    number, offset, record = aoc.locate(bytes.fromhex(rest))
    return f"{number} {offset} {aoc.pack(record).hex() if record else NO_RECORD}"


def answer_write(rest):
    room, packed = rest.split(" ")
    number, octets = aoc.write(aoc.unpack(bytes.fromhex(packed)), int(room))
    return f"{number} {len(octets)} {octets.hex()}"


def answer_element(rest):
    number, starts = aoc.element(bytes.fromhex(rest))
    return f"{number} {len(starts)} {','.join(map(str, starts))}"


def answer_write_element(rest):
    room, _, octets = rest.partition(" ")
    number, octets = aoc.write_element(bytes.fromhex(octets), int(room))
    return f"{number} {len(octets)} {octets.hex()}"


def answer_write_element_by(rest):
    profile, room, octets = rest.split(" ")
    number, octets = aoc.write_element(bytes.fromhex(octets), int(room), int(profile, 16))
    return f"{number} {len(octets)} {octets.hex()}"


def answer_next(rest):
    place, _, octets = rest.partition(" ")
    number, offset, record, after, ended = aoc.step_through(bytes.fromhex(octets), int(place))
    return f"{number} {offset} {after} {int(ended)} {aoc.pack(record).hex() if record else NO_RECORD}"


def answer_reply(rest):
    room, _, octets = rest.partition(" ")
    number, octets = aoc.reply(bytes.fromhex(octets), int(room))
    return f"{number} {len(octets)} {octets.hex()}"


def answer_thousandths(rest):
    number, multiplier = map(int, rest.split(" "))
    return str(aoc.thousandths(number, multiplier))


def answer_price(rest):
    service, packed = rest.split(" ")
    return price.answer(int(service), aoc.unpack(bytes(8) + bytes.fromhex(packed)).charge)


def answer_month(rest):
    octets, _, figures = rest.partition(" ")
    return month.answer(bytes(608) if octets == "-" else bytes.fromhex(octets),
                        [(int(times), int(service), aoc.unpack_charge(bytes.fromhex(packed)))
                         for times, service, packed in (f.split(",") for f in figures.split(";") if f)])


def do(account, event):
    if event[0] == "S":
        return account.setup(*(None if i == "-" else int(i) for i in event[2:].split(",")))
    if event[0] == "C":
        return account.connect()
    if event[0] == "X":
        return account.clear()
    if event[0] == "L":
        return account.released()
    if event[0] == "P":
        return account.suspend()
    if event[0] == "U":
        return account.resume()
    return account.component(bytes.fromhex(event[1:]))


def shown(octets):
    if octets == NO_FIGURE:
        return "-"
    return octets.hex() if whole_figures else f"{zlib.crc32(octets):08x}"


def figure(charge):
    return "-" if charge is None else shown(aoc.pack_charge(charge))


def bits(services):
    return sum(1 << service for service in services)


def answer_account(rest):
    account, answers = aoc.Account(), []
    for event in rest.split(";") if rest else ():
        outcome = do(account, event.lstrip("~"))
        if event[0] == "~":
            continue
        # D is bit 2 and E bit 4 of the services; their conflicts are bits 8 and 16.
        marks = bits(account.unavailable) | bits(account.conflict) << 2
        answers.append(f"{outcome},{account.service},{account.phase},{figure(account.rate)},{figure(account.running)},"
                       f"{figure(account.closing)},{account.closing_service},{marks},{bits(account.pending)},"
                       f"{','.join(map(str, account.pending_identifiers))}")
    return ";".join(answers)


def answer_held(rest):
    held, event, octets = map(bytes.fromhex, rest.split(" "))
    account = aoc.Account(aoc.start_of(held))
    outcome = account.event_of(event, octets)
    left, (asked, ids) = account.octets, zip(*account.requests)
    return ",".join((
        str(outcome), str(account.service),
        left[:16].hex(), *(shown(left[at:at + 368]) for at in range(16, 1488, 368)),
        str(account.phase), figure(account.rate), figure(account.running), figure(account.closing), str(account.closing_service),
        bytes(account.unavailable_marks + account.conflict_marks).hex(), struct.pack("<3B x 3H", *asked, *ids).hex()))


def event_list(rest):
    rows, octets = rest.split(" ")
    return [int(rows[i:i + 4], 16) for i in range(0, len(rows), 4)], bytes.fromhex(octets)


def answer_why(rest):
    return "{} {} {}".format(*why.why(*event_list(rest)))


def answer_fault(rest):
    return "{} {} {}".format(*fault.fault(*event_list(rest)))


KINDS = {"C": 2, "X": 3, "L": 4, "P": 6, "U": 7}


def operate(table, operation):
    reference, _, text = operation.partition(" ")
    reference, what, rest = int(reference), text[0], text[1:]
    if what == "K":
        number, service, charge = table.collect(reference)
        return f"{number},{service},{figure(charge)}"
    if what == "V":
        number, octets = table.view(reference)
        return f"{number},{shown(octets) if any(octets) else '-'}"
    none = (None, None, None)
    if what == "S":
        event = (1, tuple(None if i == "-" else int(i) for i in rest[1:].split(",")), b"")
    elif what == "M":
        event = (5, none, bytes.fromhex(rest))
    else:
        event = (int(rest) if what == "O" else KINDS[what], none, b"")
    return "{},{}".format(*table.event(reference, *event))


def answer_board(rest):
    table = board.Board()
    return ";".join(operate(table, operation) for operation in rest.split(";"))


def engine(events):
    """The plain engine's answers about a list of events."""
    found = plain.Plain(events)
    service, closing = found.closing()
    marks = sum(1 << s for s in range(3) if found.absent()[s]) | sum(4 << s for s in range(3) if found.conflict()[s])
    pending = found.pending()
    outcomes = [f"{number},{of}" for number, of in map(found.outcome, range(found.n))]
    end = (f"{found.phase(found.n)},{figure(found.rate())},{figure(found.running())},{figure(closing)},{service},{marks},"
           f"{sum(1 << s for s, i in enumerate(pending) if i is not None)},{','.join(str(i or 0) for i in pending)}")
    return ";".join((*outcomes, end))


def answer_plain(rest):
    rows, octets = rest.split(" ")
    events = why.split([int(rows[i:i + 4], 16) for i in range(0, len(rows), 4)], bytes.fromhex(octets))
    return "48" if events is None else f"0 {engine(events)}"


FAMILIES = {trunks.PUBLIC: "1", trunks.PRIVATE: "2"}


def packed_by(profile, record):
    return "" if record is None else (trunks.pack if profile == trunks.PRIVATE else aoc.pack)(record).hex()


def answer_read_by(rest):
    profile, _, octets = rest.partition(" ")
    number, offset, record = trunks.locate(int(profile, 16), bytes.fromhex(octets))
    return f"{number} {offset} {FAMILIES.get(int(profile, 16), '0')} {packed_by(int(profile, 16), record)}"


def answer_next_by(rest):
    place, _, octets = rest.partition(" ")
    number, offset, profile, record, after, ended = trunks.step_through(bytes.fromhex(octets), int(place))
    return f"{number} {offset} {FAMILIES[profile] if after else '0'} {after} {int(ended)} {packed_by(profile, record)}"


def answer_reply_by(rest):
    profile, room, octets = rest.split(" ")
    number, octets = trunks.reply(int(profile, 16), bytes.fromhex(octets), int(room))
    return f"{number} {len(octets)} {octets.hex()}"


def answer_write_by(rest):
    profile, room, packed = rest.split(" ")
    number, octets = trunks.write_by(int(profile, 16), bytes.fromhex(packed), int(room))
    return f"{number} {len(octets)} {octets.hex()}"


def answer_trace(rest):
    row_room, out_room, pairs, octets = rest.split(" ")
    numbers = [int(pairs[i:i + 8], 16) for i in range(0, len(pairs), 8)]
    number, message, rows, out = trace.lay(numbers, bytes.fromhex(octets), int(row_room), int(out_room))
    return f"{number} {message} {''.join(f'{n:04x}' for n in rows)} {out.hex()} {engine(why.split(rows, out))}"


ANSWERS = {"R": answer_read, "W": answer_write, "E": answer_element, "J": answer_reply,
           "T": answer_thousandths, "N": answer_next, "A": answer_account, "D": answer_account, "Y": answer_why,
           "F": answer_fault, "P": answer_price, "M": answer_month, "Z": answer_held, "B": answer_board,
           "G": answer_plain, "X": answer_trace, "L": answer_write_element,
           "Q": answer_read_by, "K": answer_next_by, "U": answer_reply_by, "O": answer_write_by,
           "V": answer_write_element_by}


def answer(line):
    return ANSWERS[line[0]](line[2:])


def main():
    global whole_figures
    whole_figures = sys.argv[1:] == ["octets"]
    for line in sys.stdin:
        sys.stdout.write(answer(line.rstrip("\n")) + "\n")


if __name__ == "__main__":
    main()
