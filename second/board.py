"""A whole switchboard: document 02, request 13, over the account of aoc.py.

Calls are kept by their reference alone: which of the 64 slots a call has shows in no answer, so there are no slots here.
"""

import aoc

LIMIT = 64
WRONG_PHASE, IN_USE, FULL, NOT_HELD = 14, 35, 36, 37


class Board:
    def __init__(self):
        self.calls = {}

    def event(self, reference, kind, ids, octets):
        """(number, service) of an event by its number, with a Setup's identifiers and a component's octets."""
        call = self.calls.get(reference)
        if aoc.KIND.get(kind) == aoc.SETUP:
            if call is not None:
                return IN_USE, 0
            if len(self.calls) == LIMIT:
                return FULL, 0
            call = aoc.Account()
            number = call.event(kind, ids, octets)
            if number == 0:
                self.calls[reference] = call
            return number, 0
        if call is None:
            return NOT_HELD, 0
        return call.event(kind, ids, octets), call.service

    def collect(self, reference):
        """(number, service, charge) of what a call closed with; service 0 for none."""
        call = self.calls.get(reference)
        if call is None:
            return NOT_HELD, 0, None
        if call.phase != aoc.ENDED:
            return WRONG_PHASE, 0, None
        del self.calls[reference]
        return 0, call.closing_service, call.closing

    def view(self, reference):
        """(number, the account's octets)."""
        call = self.calls.get(reference)
        return (NOT_HELD, bytes(1488)) if call is None else (0, call.octets)
