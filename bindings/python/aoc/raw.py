"""The structs, numbers and functions of aoc.h and aoc_text.h under their own names, by ctypes. The headers say what each means.
`load` declares the functions on a library; hosts use the package's own functions instead."""
import ctypes
from ctypes import POINTER as pointer, Structure

U8, U16, U32, U64, SIZE = ctypes.c_uint8, ctypes.c_uint16, ctypes.c_uint32, ctypes.c_uint64, ctypes.c_size_t
DOUBLE, BOOL, OCTETS = ctypes.c_double, ctypes.c_bool, ctypes.c_char_p

# declared by the headers, as bindings/declare.py writes it
AOC_ACCEPTED = 0
AOC_REFUSED_CUT = 1
AOC_REFUSED_LENGTH_FORM = 2
AOC_REFUSED_TOO_LONG = 3
AOC_REFUSED_UNKNOWN_COMPONENT = 4
AOC_REFUSED_TRAILING = 5
AOC_REFUSED_BAD_FRAME = 6
AOC_REFUSED_UNKNOWN_OPERATION = 7
AOC_REFUSED_UNKNOWN_ERROR = 8
AOC_REFUSED_BAD_RECORD = 10
AOC_REFUSED_LONG_RECORD = 11
AOC_REFUSED_NO_ROOM = 12
AOC_REFUSED_BAD_SETUP = 13
AOC_REFUSED_WRONG_PHASE = 14
AOC_REFUSED_BAD_ELEMENT = 15
AOC_REFUSED_BAD_PLACE = 16
AOC_REFUSED_OTHER_PROFILE = 17
AOC_REFUSED_IN_LIST = 34
AOC_REFUSED_IN_USE = 35
AOC_REFUSED_FULL = 36
AOC_REFUSED_NOT_HELD = 37
AOC_REFUSED_UNIT_LIST = 38
AOC_REFUSED_NO_CLOSING = 39
AOC_REFUSED_MONTH_FULL = 46
AOC_REFUSED_CURRENCIES_FULL = 47
AOC_REFUSED_LENGTHS = 48
AOC_REFUSED_FRAMING = 49
AOC_REFUSED_MISSING = 40
AOC_REFUSED_UNEXPECTED = 41
AOC_REFUSED_LACKING = 42
AOC_REFUSED_NOT_SHORTEST = 43
AOC_REFUSED_BAD_CONTENTS = 44
AOC_REFUSED_PAST_LIMIT = 45
AOC_OUTCOME_DONE = 0
AOC_OUTCOME_NEW_RATE = 20
AOC_OUTCOME_NEW_RUNNING = 21
AOC_OUTCOME_FINAL = 22
AOC_OUTCOME_NOT_AVAILABLE = 23
AOC_OUTCOME_GRANTED = 24
AOC_OUTCOME_FAILED = 25
AOC_OUTCOME_IGNORED = 26
AOC_OUTCOME_OUT_OF_PHASE = 27
AOC_OUTCOME_REPEATED = 28
AOC_OUTCOME_CONFLICT = 29
AOC_OUTCOME_NO_REQUEST = 30
AOC_OUTCOME_MISFIT = 31
AOC_OUTCOME_NOT_OURS = 32
AOC_PHASE_IDLE = 0
AOC_PHASE_ESTABLISHMENT = 1
AOC_PHASE_ACTIVE = 2
AOC_PHASE_CLEARING = 3
AOC_PHASE_ENDED = 4
AOC_PHASE_SUSPENDED = 5
AOC_EVENT_SETUP = 1
AOC_EVENT_CONNECT = 2
AOC_EVENT_CLEAR = 3
AOC_EVENT_RELEASED = 4
AOC_EVENT_COMPONENT = 5
AOC_EVENT_SUSPEND = 6
AOC_EVENT_RESUME = 7
AOC_SERVICE_NONE = 0
AOC_SERVICE_S = 1
AOC_SERVICE_D = 2
AOC_SERVICE_E = 3
AOC_FAMILY_NONE = 0
AOC_FAMILY_LINE = 1
AOC_FAMILY_TRUNK = 2
AOC_PROFILE_LINE = 145
AOC_PROFILE_TRUNK = 159
AOC_FRAME_INVOKE = 1
AOC_FRAME_RESULT = 2
AOC_FRAME_ERROR = 3
AOC_FRAME_REJECT = 4
AOC_FRAME_EXTENSION = 10
AOC_OPERATION_CHARGING_REQUEST = 30
AOC_OPERATION_S_CURRENCY = 31
AOC_OPERATION_S_SPECIAL = 32
AOC_OPERATION_D_CURRENCY = 33
AOC_OPERATION_D_UNITS = 34
AOC_OPERATION_E_CURRENCY = 35
AOC_OPERATION_E_UNITS = 36
AOC_OPERATION_CHARGE_REQUEST = 59
AOC_OPERATION_GET_FINAL_CHARGE = 60
AOC_OPERATION_FINAL = 61
AOC_OPERATION_INTERIM = 62
AOC_OPERATION_RATE = 63
AOC_OPERATION_COMPLETE = 64
AOC_OPERATION_DIVERSION = 65
AOC_CHARGING_CASE_S = 0
AOC_CHARGING_CASE_D = 1
AOC_CHARGING_CASE_E = 2
AOC_ERROR_NOT_SUBSCRIBED = 0
AOC_ERROR_NOT_AVAILABLE = 3
AOC_ERROR_NOT_IMPLEMENTED = 4
AOC_ERROR_INVALID_CALL_STATE = 7
AOC_ERROR_INTERACTION = 10
AOC_ERROR_NO_CHARGING_INFO = 26
AOC_ERROR_UNSPECIFIED = 1008
AOC_ERROR_FREE = 1016
AOC_PROBLEM_GENERAL = 128
AOC_PROBLEM_INVOKE = 129
AOC_PROBLEM_RESULT = 130
AOC_PROBLEM_ERROR = 131
AOC_GENERAL_PROBLEM_UNRECOGNIZED_COMPONENT = 0
AOC_GENERAL_PROBLEM_MISTYPED_COMPONENT = 1
AOC_GENERAL_PROBLEM_BADLY_STRUCTURED = 2
AOC_INVOKE_PROBLEM_DUPLICATE = 0
AOC_INVOKE_PROBLEM_UNRECOGNIZED_OPERATION = 1
AOC_INVOKE_PROBLEM_MISTYPED_ARGUMENT = 2
AOC_INVOKE_PROBLEM_RESOURCE_LIMITATION = 3
AOC_INVOKE_PROBLEM_INITIATOR_RELEASING = 4
AOC_INVOKE_PROBLEM_UNRECOGNIZED_LINKED_ID = 5
AOC_INVOKE_PROBLEM_LINKED_RESPONSE_UNEXPECTED = 6
AOC_INVOKE_PROBLEM_UNEXPECTED_CHILD = 7
AOC_RESULT_PROBLEM_UNRECOGNIZED_INVOCATION = 0
AOC_RESULT_PROBLEM_RESPONSE_UNEXPECTED = 1
AOC_RESULT_PROBLEM_MISTYPED = 2
AOC_ERROR_PROBLEM_UNRECOGNIZED_INVOCATION = 0
AOC_ERROR_PROBLEM_RESPONSE_UNEXPECTED = 1
AOC_ERROR_PROBLEM_UNRECOGNIZED_ERROR = 2
AOC_ERROR_PROBLEM_UNEXPECTED_ERROR = 3
AOC_ERROR_PROBLEM_MISTYPED_PARAMETER = 4
AOC_CHARGE_NONE = 0
AOC_CHARGE_FREE = 1
AOC_CHARGE_MONEY = 2
AOC_CHARGE_UNITS = 3
AOC_CHARGE_RATES = 4
AOC_CHARGE_ARRANGEMENT = 5
AOC_TOTAL_NO = 0
AOC_TOTAL_YES = 1
AOC_BILLING_NORMAL = 0
AOC_BILLING_REVERSE = 1
AOC_BILLING_CREDIT_CARD = 2
AOC_BILLING_FORWARDING_UNCONDITIONAL = 3
AOC_BILLING_FORWARDING_BUSY = 4
AOC_BILLING_FORWARDING_NO_REPLY = 5
AOC_BILLING_DEFLECTION = 6
AOC_BILLING_TRANSFER = 7
AOC_MULTIPLIER_THOUSANDTH = 0
AOC_MULTIPLIER_HUNDREDTH = 1
AOC_MULTIPLIER_TENTH = 2
AOC_MULTIPLIER_ONE = 3
AOC_MULTIPLIER_TEN = 4
AOC_MULTIPLIER_HUNDRED = 5
AOC_MULTIPLIER_THOUSAND = 6
AOC_SCALE_HUNDREDTH_SECOND = 0
AOC_SCALE_TENTH_SECOND = 1
AOC_SCALE_SECOND = 2
AOC_SCALE_TEN_SECONDS = 3
AOC_SCALE_MINUTE = 4
AOC_SCALE_HOUR = 5
AOC_SCALE_DAY = 6
AOC_ITEM_COMMUNICATION = 0
AOC_ITEM_ATTEMPT = 1
AOC_ITEM_SETUP = 2
AOC_ITEM_USER_TO_USER = 3
AOC_ITEM_SUPPLEMENTARY = 4
AOC_RATE_DURATION = 1
AOC_RATE_FLAT = 2
AOC_RATE_VOLUME = 3
AOC_RATE_CODE = 4
AOC_RATE_FREE = 5
AOC_RATE_UNKNOWN = 6
AOC_RATE_FREE_FROM_BEGINNING = 7
AOC_DURATION_CONTINUOUS = 0
AOC_DURATION_STEPS = 1
AOC_VOLUME_OCTET = 0
AOC_VOLUME_SEGMENT = 1
AOC_VOLUME_MESSAGE = 2
AOC_ASSOCIATION_NONE = 0
AOC_ASSOCIATION_IDENTIFIER = 1
AOC_ASSOCIATION_NUMBER = 2
AOC_ASSOCIATION_PLANNED_NUMBER = 3
AOC_ASSOCIATION_PRIVATE_NUMBER = 4
AOC_PLAN_UNKNOWN = 0
AOC_PLAN_INTERNATIONAL = 1
AOC_PLAN_NATIONAL = 2
AOC_PLAN_NETWORK_SPECIFIC = 3
AOC_PLAN_SUBSCRIBER = 4
AOC_PLAN_ABBREVIATED = 6
AOC_MODE_RATE = 0
AOC_MODE_RATE_INTERIM = 1
AOC_MODE_RATE_FINAL = 2
AOC_MODE_INTERIM = 3
AOC_MODE_FINAL = 4
AOC_MODE_INTERIM_FINAL = 5
AOC_MODE_RATE_INTERIM_FINAL = 6
AOC_OPTION_FREE = 0
AOC_OPTION_CONTINUE = 1
AOC_OPTION_STOP = 2
AOC_DIVERSION_UNCONDITIONAL = 0
AOC_DIVERSION_BUSY = 1
AOC_DIVERSION_NO_REPLY = 2
AOC_DIVERSION_DEFLECTION = 3
AOC_ENTITY_END = 0
AOC_ENTITY_ANY = 1
AOC_EXTENDED_NOT = 0
AOC_EXTENDED_ONCE = 1
AOC_EXTENDED_LIST = 2
AOC_FIRST_EXTENSION = 170
AOC_FIRST_INTERPRETATION = 139
AOC_FIRST_PROTOCOL_PROFILE = 146
AOC_INTERPRETATION_DISCARD = 0
AOC_INTERPRETATION_CLEAR = 1
AOC_INTERPRETATION_REJECT = 2
AOC_INTERPRETATION_NONE = 255
AOC_LIMIT_COMPONENT_OCTETS = 254
AOC_LIMIT_ELEMENT_OCTETS = 257
AOC_LIMIT_REPLY_OCTETS = 9
AOC_LIMIT_COMPONENTS = 127
AOC_FIRST_PLACE = 3
AOC_LIMIT_UNITS = 32
AOC_LIMIT_RATES = 10
AOC_LIMIT_CURRENCY_OCTETS = 10
AOC_LIMIT_DIGITS = 20
AOC_LIMIT_MODES = 7
AOC_LIMIT_EXTENSION_OCTETS = 242
AOC_LIMIT_CHARGE_TEXT = 1200
AOC_LIMIT_MESSAGE_OCTETS = 260
AOC_LIMIT_MESSAGE_NUMBERS = 1560
AOC_LIMIT_FRONT_OCTETS = 11
AOC_LIMIT_NUMBER = 16777215
AOC_LIMIT_MONTH_FIGURES = 4096
AOC_LIMIT_MONTH_CURRENCIES = 16
AOC_MONTH_TYPES = 17
AOC_MONTH_BILLINGS = 9
AOC_MONTH_NOT_BILLED = 8
AOC_ROW_NUMBERS = 6
AOC_REASON_OPEN = 1
AOC_REASON_PRICED = 2
AOC_REASON_PASSED_OVER = 3
AOC_REASON_NOT_AVAILABLE = 4
AOC_REASON_RUNNING = 5
AOC_REASON_REFUSED = 6
AOC_REASON_NOTHING = 7
AOC_PAIR_NUMBERS = 2
AOC_FROM_USER = 0
AOC_FROM_NETWORK = 1
AOC_LIMIT_CALLS = 64
AOC_RULE_KEPT = 0
AOC_RULE_PLACE = 1
AOC_RULE_FALL = 2
AOC_RULE_FREE = 3
AOC_RULE_FINAL = 4


class aoc_currency(Structure):
    _fields_ = [("count", U8), ("octets", U8 * 10)]


class aoc_money(Structure):
    _fields_ = [("currency", aoc_currency), ("multiplier", U8), ("number", U32)]


class aoc_association(Structure):
    _fields_ = [("id", U16), ("count", U16), ("kind", U8), ("plan", U8), ("digits", U8 * 20)]


class aoc_unit(Structure):
    _fields_ = [("known", U8), ("type", U8)]


class aoc_rate(Structure):
    _fields_ = [("item", U8), ("kind", U8), ("detail", U8), ("stepped", U8), ("scale", U8), ("step_scale", U8), ("multiplier", U8), ("currency", aoc_currency)]


class aoc_rate_numbers(Structure):
    _fields_ = [("number", U32), ("time", U32), ("step", U32)]


class aoc_charge(Structure):
    _fields_ = [("money", aoc_money), ("association", aoc_association), ("kind", U8), ("total", U8), ("billed", U8), ("billing", U8), ("arrangement", U8), ("count", U8), ("numbers", U32 * 32), ("octets", U8 * 192)]


class aoc_record(Structure):
    _fields_ = [("frame", U8), ("unnamed", U8), ("id", U16), ("operation", U8), ("error", U8), ("problem", U8), ("detail", U8), ("charge", aoc_charge)]


class aoc_answer(Structure):
    _fields_ = [("refusal", U32), ("offset", U32), ("record", aoc_record)]


class aoc_trunk(Structure):
    _fields_ = [("frame", U8), ("unnamed", U8), ("id", U16), ("error", U16), ("operation", U8), ("problem", U8), ("asked", U8), ("modes", U8 * 7), ("user", aoc_association), ("detail", U8), ("entity", U8), ("zero", U8 * 4), ("extended", U8), ("extent", U8), ("extension", U8 * 242), ("charge", aoc_charge)]


class aoc_either(Structure):
    _fields_ = [("refusal", U32), ("offset", U32), ("family", U32), ("record", aoc_record), ("trunk", aoc_trunk)]


class aoc_written(Structure):
    _fields_ = [("refusal", U32), ("count", U32)]


class aoc_services(Structure):
    _fields_ = [("s", U8), ("d", U8), ("e", U8)]


class aoc_identifiers(Structure):
    _fields_ = [("s", U16), ("d", U16), ("e", U16)]


class aoc_event(Structure):
    _fields_ = [("kind", U8), ("asked", aoc_services), ("s", U16), ("d", U16), ("e", U16)]


class aoc_outcome(Structure):
    _fields_ = [("number", U8), ("service", U8)]


class aoc_account(Structure):
    _fields_ = [("phase", U8), ("asked", aoc_services), ("s", U16), ("d", U16), ("e", U16), ("absent", aoc_services), ("conflict", aoc_services), ("rate", aoc_charge), ("running", aoc_charge), ("d_final", aoc_charge), ("e_final", aoc_charge)]


class aoc_closing(Structure):
    _fields_ = [("service", U32), ("charge", aoc_charge)]


class aoc_marks(Structure):
    _fields_ = [("absent", aoc_services), ("conflict", aoc_services)]


class aoc_pending(Structure):
    _fields_ = [("asked", aoc_services), ("unused", U8), ("s", U16), ("d", U16), ("e", U16)]


class aoc_unit_entry(Structure):
    _fields_ = [("known", U8), ("type", U8), ("number", U32)]


class aoc_rate_entry(Structure):
    _fields_ = [("item", U8), ("kind", U8), ("detail", U8), ("stepped", U8), ("scale", U8), ("step_scale", U8), ("time", U32), ("step", U32), ("money", aoc_money)]


class aoc_why_answer(Structure):
    _fields_ = [("refusal", U32), ("reason", U32), ("event", U64)]


class aoc_trace_answer(Structure):
    _fields_ = [("refusal", U64), ("message", U64), ("events", U64), ("octets", U64)]


class aoc_plain_outcome_answer(Structure):
    _fields_ = [("refusal", U16), ("outcome", aoc_outcome)]


class aoc_plain_phase_answer(Structure):
    _fields_ = [("refusal", U16), ("phase", U16)]


class aoc_plain_pending_answer(Structure):
    _fields_ = [("refusal", U16), ("pending", aoc_pending)]


class aoc_plain_marks_answer(Structure):
    _fields_ = [("refusal", U16), ("marks", aoc_marks)]


class aoc_plain_charge_answer(Structure):
    _fields_ = [("refusal", U32), ("charge", aoc_charge)]


class aoc_plain_closing_answer(Structure):
    _fields_ = [("refusal", U32), ("closing", aoc_closing)]


class aoc_priced(Structure):
    _fields_ = [("refusal", U32), ("is_free", U8), ("currency", aoc_currency), ("thousandths", DOUBLE), ("quotient", DOUBLE)]


class aoc_board(Structure):
    _fields_ = [("keys", U32 * 64), ("calls", aoc_account * 64)]


class aoc_collected(Structure):
    _fields_ = [("refusal", U32), ("closing", aoc_closing)]


class aoc_viewed(Structure):
    _fields_ = [("refusal", U32), ("account", aoc_account)]


class aoc_fault_answer(Structure):
    _fields_ = [("refusal", U32), ("rule", U32), ("event", U64)]


class aoc_month_currency(Structure):
    _fields_ = [("currency", aoc_currency), ("unused", U8), ("calls", U32), ("sum", U64)]


class aoc_month(Structure):
    _fields_ = [("added", U32), ("count", U32), ("absent", U32), ("free_calls", U32), ("units", U64 * 17), ("rows", aoc_month_currency * 16), ("table", U32 * 9 * 2)]


class aoc_month_added(Structure):
    _fields_ = [("refusal", U64), ("month", aoc_month)]


FUNCTIONS = {
    "aoc_layout_5": (U32,),
    "aoc_version": (U32,),
    "aoc_read": (U32, OCTETS, SIZE, pointer(aoc_answer)),
    "aoc_write": (aoc_written, pointer(aoc_record), pointer(U8), SIZE),
    "aoc_reply": (aoc_written, OCTETS, SIZE, pointer(U8), SIZE),
    "aoc_next": (BOOL, OCTETS, SIZE, pointer(SIZE), pointer(aoc_answer)),
    "aoc_write_element": (aoc_written, OCTETS, SIZE, pointer(U8), SIZE),
    "aoc_write_element_by": (aoc_written, U8, OCTETS, SIZE, pointer(U8), SIZE),
    "aoc_request": (aoc_written, U8, U16, pointer(U8), SIZE),
    "aoc_read_by": (U32, U8, OCTETS, SIZE, pointer(aoc_either)),
    "aoc_next_by": (BOOL, OCTETS, SIZE, pointer(SIZE), pointer(aoc_either)),
    "aoc_write_by": (aoc_written, U8, pointer(aoc_either), pointer(U8), SIZE),
    "aoc_reply_by": (aoc_written, U8, OCTETS, SIZE, pointer(U8), SIZE),
    "aoc_is_for_exchange": (BOOL, pointer(aoc_either), OCTETS, SIZE),
    "aoc_interpretation_in": (U8, OCTETS, SIZE),
    "aoc_interpretation_of": (U8, U8),
    "aoc_write_front": (aoc_written, U8, pointer(U8), SIZE),
    "aoc_write_trunk_element": (aoc_written, U8, OCTETS, SIZE, pointer(U8), SIZE),
    "aoc_charge_request": (aoc_written, U16, OCTETS, SIZE, pointer(U8), SIZE),
    "aoc_final_charge_request": (aoc_written, U16, pointer(U8), SIZE),
    "aoc_complete_request": (aoc_written, U16, pointer(aoc_association), pointer(U8), SIZE),
    "aoc_diversion_request": (aoc_written, U16, pointer(aoc_association), U8, pointer(U8), SIZE),
    "aoc_is_refusal": (BOOL, U32),
    "aoc_thousandths": (U64, U32, U8),
    "aoc_unit_at": (aoc_unit_entry, pointer(aoc_charge), SIZE),
    "aoc_rate_at": (aoc_rate_entry, pointer(aoc_charge), SIZE),
    "aoc_next_identifier": (U16, U16),
    "aoc_three_identifiers": (aoc_identifiers, U16),
    "aoc_no_services": (aoc_services,),
    "aoc_with_service": (aoc_services, aoc_services, U8),
    "aoc_has_service": (BOOL, aoc_services, U8),
    "aoc_identifier_of": (U16, aoc_identifiers, U8),
    "aoc_case_of": (U8, U8),
    "aoc_fresh": (aoc_account,),
    "aoc_step": (aoc_outcome, pointer(aoc_account), aoc_event, OCTETS, SIZE),
    "aoc_event_of": (aoc_event, U8),
    "aoc_event_of_setup": (aoc_event, aoc_services, aoc_identifiers),
    "aoc_setup": (aoc_outcome, pointer(aoc_account), aoc_services, aoc_identifiers),
    "aoc_connect": (aoc_outcome, pointer(aoc_account)),
    "aoc_clear": (aoc_outcome, pointer(aoc_account)),
    "aoc_released": (aoc_outcome, pointer(aoc_account)),
    "aoc_component": (aoc_outcome, pointer(aoc_account), OCTETS, SIZE),
    "aoc_suspend": (aoc_outcome, pointer(aoc_account)),
    "aoc_resume": (aoc_outcome, pointer(aoc_account)),
    "aoc_rate_of": (aoc_charge, pointer(aoc_account)),
    "aoc_running_of": (aoc_charge, pointer(aoc_account)),
    "aoc_closing_of": (aoc_closing, pointer(aoc_account)),
    "aoc_marks_of": (aoc_marks, pointer(aoc_account)),
    "aoc_pending_of": (aoc_pending, pointer(aoc_account)),
    "aoc_phase_of": (U8, pointer(aoc_account)),
    "aoc_row_of": (None, aoc_event, U16, pointer(U16)),
    "aoc_event_at": (aoc_event, pointer(U16)),
    "aoc_take": (aoc_outcome, pointer(aoc_account), aoc_event, OCTETS, SIZE, pointer(U16)),
    "aoc_replay": (U32, pointer(U16), SIZE, OCTETS, SIZE, pointer(aoc_account)),
    "aoc_why": (aoc_why_answer, pointer(U16), SIZE, OCTETS, SIZE),
    "aoc_trace_events": (aoc_trace_answer, pointer(U32), SIZE, OCTETS, SIZE, pointer(U16), SIZE, pointer(U8), SIZE),
    "aoc_message_events": (aoc_trace_answer, U32, OCTETS, SIZE, pointer(U16), SIZE, pointer(U8), SIZE),
    "aoc_call_key": (BOOL, U32, OCTETS, SIZE, pointer(U16)),
    "aoc_next_facility": (BOOL, OCTETS, SIZE, pointer(SIZE), pointer(SIZE)),
    "aoc_plain_outcome": (aoc_plain_outcome_answer, pointer(U16), SIZE, OCTETS, SIZE, SIZE),
    "aoc_plain_phase": (aoc_plain_phase_answer, pointer(U16), SIZE, OCTETS, SIZE),
    "aoc_plain_pending": (aoc_plain_pending_answer, pointer(U16), SIZE, OCTETS, SIZE),
    "aoc_plain_rate": (aoc_plain_charge_answer, pointer(U16), SIZE, OCTETS, SIZE),
    "aoc_plain_running": (aoc_plain_charge_answer, pointer(U16), SIZE, OCTETS, SIZE),
    "aoc_plain_closing": (aoc_plain_closing_answer, pointer(U16), SIZE, OCTETS, SIZE),
    "aoc_plain_marks": (aoc_plain_marks_answer, pointer(U16), SIZE, OCTETS, SIZE),
    "aoc_price": (aoc_priced, aoc_closing),
    "aoc_board_clear": (None, pointer(aoc_board)),
    "aoc_board_event": (aoc_outcome, pointer(aoc_board), U16, aoc_event, OCTETS, SIZE),
    "aoc_board_take": (aoc_outcome, pointer(aoc_board), U16, aoc_event, OCTETS, SIZE, pointer(U16)),
    "aoc_board_replay": (U32, pointer(aoc_board), U16, pointer(U16), SIZE, OCTETS, SIZE),
    "aoc_board_collect": (aoc_collected, pointer(aoc_board), U16),
    "aoc_board_view": (aoc_viewed, pointer(aoc_board), U16),
    "aoc_fault": (aoc_fault_answer, pointer(U16), SIZE, OCTETS, SIZE),
    "aoc_accepted_events": (aoc_trace_answer, pointer(U16), SIZE, OCTETS, SIZE, pointer(U16), SIZE, pointer(U8), SIZE),
    "aoc_fault_of_accepted": (aoc_fault_answer, pointer(U16), SIZE, OCTETS, SIZE, pointer(U16), SIZE, pointer(U8), SIZE),
    "aoc_month_empty": (aoc_month,),
    "aoc_month_add": (aoc_month_added, aoc_month, aoc_closing),
    "aoc_month_post": (U32, pointer(aoc_month), pointer(aoc_closing)),
    "aoc_month_rows": (SIZE, pointer(aoc_month)),
    "aoc_month_row": (aoc_month_currency, pointer(aoc_month), SIZE),
    "aoc_month_units": (U64, pointer(aoc_month), SIZE),
    "aoc_month_place": (U32, pointer(aoc_month), U32, U32),
    "aoc_refusal_text": (OCTETS, U32),
    "aoc_outcome_text": (OCTETS, U32),
    "aoc_phase_text": (OCTETS, U32),
    "aoc_reason_text": (OCTETS, U32),
    "aoc_rule_text": (OCTETS, U32),
    "aoc_billing_text": (OCTETS, U32),
    "aoc_item_text": (OCTETS, U32),
    "aoc_volume_text": (OCTETS, U32),
    "aoc_plan_text": (OCTETS, U32),
    "aoc_event_text": (OCTETS, U32),
    "aoc_service_text": (OCTETS, U32),
    "aoc_family_text": (OCTETS, U32),
    "aoc_frame_text": (OCTETS, U32),
    "aoc_operation_text": (OCTETS, U32),
    "aoc_error_text": (OCTETS, U32),
    "aoc_interpretation_text": (OCTETS, U32),
    "aoc_print_charge": (SIZE, OCTETS, SIZE, pointer(aoc_charge)),
    "aoc_print_currency": (SIZE, OCTETS, SIZE, pointer(aoc_currency)),
    "aoc_print_money": (SIZE, OCTETS, SIZE, pointer(aoc_money)),
}
# end of what the headers declare


__all__ = [name for name in globals() if name.lower().startswith("aoc_")]


def load(path):
    """The library with its functions declared. One of another layout, or an older one, lacks a function."""
    library = ctypes.CDLL(path)
    for name, (result, *arguments) in FUNCTIONS.items():
        try:
            function = getattr(library, name)
        except AttributeError:
            raise ImportError(f"{path} has no {name}: it is of another version than this package") from None
        function.restype, function.argtypes = result, arguments
    return library
