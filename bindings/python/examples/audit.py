"""A host in Python: a night's events of some calls, and what each call is to be charged, or why it has no price.

    python3 audit.py < audit.txt        the events are in examples/ of the repository and of the installed pages"""
import sys

import aoc

KINDS = {"connect": aoc.AOC_EVENT_CONNECT, "clear": aoc.AOC_EVENT_CLEAR, "released": aoc.AOC_EVENT_RELEASED,
         "suspend": aoc.AOC_EVENT_SUSPEND, "resume": aoc.AOC_EVENT_RESUME}


def take(call, event, rest, last):
    """Gives a call the event of a line, and returns the last identifier in use."""
    if event == "setup":
        ids = aoc.identifiers(last)
        outcomes, last = [call.setup("".join(rest), ids)], ids.e
    elif event == "facility":
        outcomes = [outcome for _, outcome in call.facility(bytes.fromhex("".join(rest)))]
    else:
        outcomes = [call.take(aoc.event(KINDS[event]))]
    for outcome in outcomes:
        if outcome.refused:
            print(f"{event}: {outcome}", file=sys.stderr)
    return last


def charge(call):
    closing = call.closing()
    if closing:
        return aoc.text(closing.charge)
    why = call.why()
    return f"no price: {why}" + (f" (event {why.event})" if why.event else "")


def main():
    calls, last = {}, 0
    for line in sys.stdin:
        words = line.split()
        if not words or words[0].startswith("#"):
            continue
        number, room, event, *rest = words
        _, call = calls.setdefault(int(number), (room, aoc.Call()))
        try:
            last = take(call, event, rest, last)
        except aoc.Refused as refused:
            print(f"{event}: {refused}", file=sys.stderr)
    for number, (room, call) in sorted(calls.items()):
        print(f"room {room} call {number}: {charge(call)}")


if __name__ == "__main__":
    main()
