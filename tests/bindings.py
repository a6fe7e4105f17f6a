"""The package for Python, function by function, where the hosts of tests/languages.sh do not reach: each on something that is taken
and on something that is refused."""
import aoc

checks = 0


def same(found, wanted):
    global checks
    checks += 1
    assert found == wanted, f"{found!r}, not {wanted!r}"


def refused(number, function, *arguments):
    global checks
    checks += 1
    try:
        found = function(*arguments)
    except aoc.Refused as refusal:
        assert refusal.number == number, f"refused {refusal.number}, not {number}"
        return refusal
    raise AssertionError(f"{found!r}, not refused {number}")


FINAL = bytes.fromhex("A1 1A 02 01 0B 02 01 23 30 12 30 10 A1 0E 81 03 45 55 52 A2 07 81 02 00 96 82 01 01")
UNITS = bytes.fromhex("A1 14 02 01 04 02 01 24 30 0C 30 0A A1 08 30 06 02 01 64 02 01 05")
RATES = bytes.fromhex("A1 1C 02 01 05 02 01 1F 30 14 30 12 0A 01 00 A2 0D 81 03 45 55 52 A2 06 81 01 0C 82 01 01")
TRUNK = bytes.fromhex("1C 15 9F AA 06 80 01 00 82 01 00 A1 0A 02 01 01 02 01 3D 30 02 81 00")
UNKNOWN = bytes.fromhex("A1 06 02 01 05 02 01 63")

# ---- components
same(aoc.version().split(".")[0], str(aoc.library.aoc_version() // 10000))
record = aoc.read(FINAL)
same((record.operation, record.id, aoc.text(record.charge), aoc.text(record.charge.money)), (aoc.AOC_OPERATION_E_CURRENCY, 11, "EUR 1.500", "EUR 1.500"))
same(aoc.text(record.charge.money.currency), "EUR")
same(aoc.thousandths(record.charge.money), 1500)
same(aoc.write(record), FINAL)
same(aoc.write_by(aoc.AOC_PROFILE_LINE, aoc.read_by(aoc.AOC_PROFILE_LINE, FINAL)), FINAL)
same([(unit.known, unit.number, unit.type) for unit in aoc.units(aoc.read(UNITS).charge)], [(1, 100, 5)])
same((aoc.rates(aoc.read(UNITS).charge), aoc.units(record.charge)), ([], []))
same(refused(aoc.AOC_REFUSED_UNKNOWN_OPERATION, aoc.read, UNKNOWN).offset, 0)
same(refused(aoc.AOC_REFUSED_MISSING, aoc.read, bytes.fromhex("A1 08 02 01 05 02 01 23 30 00")).offset, 10)
(flat,) = aoc.rates(aoc.read(RATES).charge)
same((flat.item, flat.kind, aoc.text(flat.money)), (aoc.AOC_ITEM_COMMUNICATION, aoc.AOC_RATE_FLAT, "EUR 0.120"))
refused(aoc.AOC_REFUSED_OTHER_PROFILE, aoc.read_by, 0x90, FINAL)
refused(aoc.AOC_REFUSED_BAD_RECORD, aoc.write, aoc.aoc_record())
same(aoc.reply(UNKNOWN), bytes.fromhex("A4 06 02 01 05 81 01 01"))
same(aoc.reply(FINAL), b"")
same(aoc.reply_by(aoc.AOC_PROFILE_TRUNK, FINAL)[:1], b"\xa4")
same(aoc.request(aoc.AOC_SERVICE_E, 3), bytes.fromhex("A1 09 02 01 03 02 01 1E 0A 01 02"))
refused(aoc.AOC_REFUSED_BAD_RECORD, aoc.request, 4, 3)
element = aoc.element(FINAL + UNKNOWN)
same([(one.octets, one.record is None, one.refused and one.refused.number) for one in aoc.components(element)],
     [(FINAL, False, None), (UNKNOWN, True, aoc.AOC_REFUSED_UNKNOWN_OPERATION)])
refused(aoc.AOC_REFUSED_BAD_ELEMENT, aoc.element, b"")
refused(aoc.AOC_REFUSED_OTHER_PROFILE, aoc.element, FINAL, 0x90)
refused(aoc.AOC_REFUSED_BAD_ELEMENT, list, aoc.components(element[:-1]))
extension, final = aoc.components(TRUNK)
same((extension.record.frame, final.record.operation, final.family), (aoc.AOC_FRAME_EXTENSION, aoc.AOC_OPERATION_FINAL, aoc.AOC_FAMILY_TRUNK))
same(aoc.write_by(aoc.AOC_PROFILE_TRUNK, final.record), final.octets)
same((extension.for_exchange, final.for_exchange), (True, False))
same(aoc.element(extension.octets + final.octets, aoc.AOC_PROFILE_TRUNK), TRUNK)
same(aoc.trunk_element(final.octets), TRUNK)
discarded = aoc.trunk_element(final.octets, aoc.interpretation_of(aoc.AOC_OPERATION_FINAL))
same((len(discarded), aoc.interpretation_in(discarded), aoc.interpretation_in(TRUNK)),
     (len(TRUNK) + 3, aoc.AOC_INTERPRETATION_DISCARD, aoc.AOC_INTERPRETATION_NONE))
asked = aoc.read_by(aoc.AOC_PROFILE_TRUNK, aoc.charge_request(5, [aoc.AOC_MODE_FINAL]))
same((asked.operation, asked.id, asked.asked, asked.modes[0]), (aoc.AOC_OPERATION_CHARGE_REQUEST, 5, 1, aoc.AOC_MODE_FINAL))
refused(aoc.AOC_REFUSED_BAD_RECORD, aoc.charge_request, 5, [7])
same(aoc.read_by(aoc.AOC_PROFILE_TRUNK, aoc.final_charge_request(6)).operation, aoc.AOC_OPERATION_GET_FINAL_CHARGE)
user = aoc.aoc_association(kind=aoc.AOC_ASSOCIATION_NUMBER, count=3, digits=(aoc.raw.U8 * 20)(*b"214"))
same(bytes(aoc.read_by(aoc.AOC_PROFILE_TRUNK, aoc.complete_request(7, user)).user), bytes(user))
same(aoc.read_by(aoc.AOC_PROFILE_TRUNK, aoc.diversion_request(8, user, aoc.AOC_DIVERSION_BUSY)).detail, aoc.AOC_DIVERSION_BUSY)

for function, *arguments in ((aoc.event, 257), (aoc.read_by, 0x191, FINAL), (aoc.request, 257, 3), (aoc.request, 3, 65536),
                             (aoc.identifiers, -32769), (aoc.Board().view, 65543)):
    try:
        found = function(*arguments)
    except OverflowError:
        checks += 1
        continue
    raise AssertionError(f"{function.__name__} cuts {arguments} down")
same(aoc.request(aoc.AOC_SERVICE_E, -1), bytes.fromhex("A1 09 02 01 FF 02 01 1E 0A 01 02"))

# ---- a call, and what is stored of it
call = aoc.Call()
same(str(call.connect()), "an event that is not allowed in this phase")
same(call.connect().refused, True)
same(call.setup("DE"), (aoc.AOC_OUTCOME_DONE, 0))
same((call.pending().asked.s, call.pending().asked.e, call.pending().e), (0, 1, 3))
same((call.phase(), call.rate(), call.running(), call.closing()), (aoc.AOC_PHASE_ESTABLISHMENT, None, None, None))
same([call.connect().number, call.suspend().number, call.resume().number, call.clear().number], [0, 0, 0, 0])
same([outcome.number for _, outcome in call.facility(element)], [aoc.AOC_OUTCOME_IGNORED, aoc.AOC_REFUSED_UNKNOWN_OPERATION])
same(call.facility(TRUNK), [])
same(call.released().number, 0)
same((call.why(), str(call.why())), ((aoc.AOC_REASON_PASSED_OVER, 8), "a figure was ignored or out of phase"))
same(call.fault()[0], aoc.AOC_RULE_KEPT)
same((call.accepted().phase(), len(call.accepted().rows) < len(call.rows)), (aoc.AOC_PHASE_ENDED, True))
again = aoc.Call(call.rows, call.octets)
same(bytes(again.memory), bytes(call.memory))
refused(aoc.AOC_REFUSED_LENGTHS, aoc.Call, call.rows[:-1], call.octets)
kept = aoc.Call()
for event in (kept.setup, kept.connect, kept.clear):
    same(event().number, 0)
same(kept.component(bytearray(FINAL)).number, aoc.AOC_OUTCOME_FINAL)
same(kept.released().number, 0)
same((kept.fault(), str(kept.fault())), ((aoc.AOC_RULE_KEPT, 0), "all rules kept"))
same((kept.marks().absent.e, kept.marks().conflict.e), (0, 0))
same(aoc.price(kept.closing()), (b"EUR", 1500.0, 1.5))

# ---- messages, a board, a month
setup, connect = bytes.fromhex("08 01 05 05"), bytes.fromhex("08 01 85 07")
traced = aoc.call_of_trace([(aoc.AOC_FROM_USER, setup), (aoc.AOC_FROM_NETWORK, connect)])
same(traced.phase(), aoc.AOC_PHASE_ACTIVE)
same(refused(aoc.AOC_REFUSED_FRAMING, aoc.call_of_trace, [(aoc.AOC_FROM_USER, setup), (aoc.AOC_FROM_NETWORK, b"\x08")]).offset, 2)
live = aoc.Call()
same([(taken.event.kind, taken.outcome.number) for taken in live.message(aoc.AOC_FROM_USER, setup) + live.message(aoc.AOC_FROM_NETWORK, connect)],
     [(aoc.AOC_EVENT_SETUP, 0), (aoc.AOC_EVENT_CONNECT, 0)])
same((live.rows, live.octets), (traced.rows, traced.octets))
refused(aoc.AOC_REFUSED_FRAMING, live.message, aoc.AOC_FROM_NETWORK, b"\x08")
disconnect = bytes.fromhex("08 01 85 45") + aoc.element(FINAL)
same(list(aoc.facilities(disconnect)), [aoc.element(FINAL)])
same((aoc.call_key(aoc.AOC_FROM_USER, setup), aoc.call_key(aoc.AOC_FROM_NETWORK, connect), aoc.call_key(aoc.AOC_FROM_NETWORK, setup)), (5, 5, 0x8005))
same(aoc.call_key(aoc.AOC_FROM_USER, b"\x08"), None)
desk = aoc.Board()
outcomes = [taken.outcome.number for message in ((aoc.AOC_FROM_USER, setup), (aoc.AOC_FROM_NETWORK, connect), (aoc.AOC_FROM_NETWORK, disconnect),
                                                 (aoc.AOC_FROM_USER, bytes.fromhex("08 01 05 4D")), (aoc.AOC_FROM_NETWORK, bytes.fromhex("08 01 85 5A")))
            for taken in desk.message(*message)]
same(outcomes, [0, 0, 0, aoc.AOC_OUTCOME_FINAL, aoc.AOC_REFUSED_WRONG_PHASE, aoc.AOC_REFUSED_WRONG_PHASE, 0])
same(aoc.text(desk.collect(5).charge), "EUR 1.500")
desk.replay(9, live)
same(desk.view(9).phase(), aoc.AOC_PHASE_ACTIVE)
refused(aoc.AOC_REFUSED_IN_USE, desk.replay, 9, live)
board = aoc.Board()
same(board.event(7, aoc.event(aoc.AOC_EVENT_CONNECT)).number, aoc.AOC_REFUSED_NOT_HELD)
for event in (aoc.event_of_setup(), aoc.event(aoc.AOC_EVENT_CONNECT), aoc.event(aoc.AOC_EVENT_CLEAR)):
    same(board.event(7, event).number, 0)
same(board.event(7, aoc.event(aoc.AOC_EVENT_COMPONENT), FINAL).number, aoc.AOC_OUTCOME_FINAL)
refused(aoc.AOC_REFUSED_WRONG_PHASE, board.collect, 7)
same(board.event(7, aoc.event(aoc.AOC_EVENT_RELEASED)).number, 0)
same(board.view(7).phase(), aoc.AOC_PHASE_ENDED)
closing = board.collect(7)
same((closing.service, aoc.text(closing.charge)), (aoc.AOC_SERVICE_E, "EUR 1.500"))
refused(aoc.AOC_REFUSED_NOT_HELD, board.view, 7)
month = aoc.Month()
month.post(closing)
month.post(closing)
refused(aoc.AOC_REFUSED_BAD_RECORD, month.post, aoc.aoc_closing())
same([(row.calls, row.sum) for row in month.rows()], [(2, 3000)])
same((month.units(0), month.place(aoc.AOC_SERVICE_E, aoc.AOC_MONTH_NOT_BILLED)), (0, 2))
print(f"bindings: {checks} checks of the package for Python")
