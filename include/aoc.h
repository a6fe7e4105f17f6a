/* Advice of Charge (ETS 300 182-1) for a host in C or C++: the library libaoc.a, for x86-64. The library for aarch64 is the same
 * proved module under another back end: tested, and not the proof's target (docs/TRUST.md).
 *
 * A function marked "Proved." is an export of the library. For any octets, records and accounts it is proved to return the one
 * answer that its comment describes (docs/CONTRACTS.md). It allocates nothing, stores nothing between calls and touches no memory
 * but that of its arguments, so calls on different memory may run in different threads.
 * A function marked "Inline" is C in this header, and the mark says which kind: it passes its arguments to a proved function; it
 * looks into a struct, whatever that holds; it computes; or it prints. A static analysis shows that no octets, records, accounts,
 * numbers or buffer sizes give it undefined behaviour; that it does what its comment says is tested (docs/TRUST.md).
 *
 * What the host owes: a pointer is valid for the length beside it (with length 0 it may be null), an account's pointer is valid
 * for one account, and memory that a call writes overlaps nothing else that is passed to the same call.
 *
 * The numbers of refusals and outcomes, and what each means, are those of documents 01 and 02 (docs/READINGS.md). Where a
 * function refuses, every other field of its answer is zero. docs/ARCHITECTURE.md explains the life of a call, docs/HOST.md
 * shows it in C; aoc_text.h has words for the numbers. */
#ifndef AOC_H
#define AOC_H

#include <stdbool.h>
#include <stddef.h>
#include <stdint.h>
#include <string.h>

#define AOC_VERSION 50002       /* 5.0.2: ten thousand times the first number, a hundred times the second, the third */
#define AOC_VERSION_TEXT "5.0.2"

#ifdef __cplusplus
extern "C" {
#endif

/* An inline function is compiled into each file that includes the header. One C file of the installed library has the macro
 * empty, and so has each of these functions under its own name, for languages that see the linker's names alone. */
#ifndef AOC_INLINE
#define AOC_INLINE static inline
#endif

/* A result that must be looked at: a compiler that can do it warns where one is dropped. (void) silences that, with every compiler
 * here; it would not silence gcc's warn_unused_result, and so gcc has the attribute of C23 in older C too. */
#ifndef AOC_MUST_USE
#if (defined(__cplusplus) && __cplusplus >= 201703L) || (defined(__STDC_VERSION__) && __STDC_VERSION__ >= 202311L)
#define AOC_MUST_USE [[nodiscard]]
#elif defined(__clang__)
#define AOC_MUST_USE __attribute__((warn_unused_result))
#elif defined(__GNUC__) && __GNUC__ >= 10
#define AOC_MUST_USE __extension__ [[nodiscard]]
#else
#define AOC_MUST_USE
#endif
#endif

/* ------------------------------------------------------------------ numbers */

/* A field that holds one of these numbers has a fixed width. Cast it to the type that is named here, and the compiler warns
 * of a switch that leaves a case out: switch ((aoc_phase)aoc_phase_of(&call)) { .. }
 *
 * The families with words in aoc_text.h are tables: a row is a number's name, the number, and its words. */
#define AOC_ROW_NAME(name, number, words) name = number,
#define AOC_ROW_CASE(name, number, words) case name:
#define AOC_ROW_WORDS(name, number, words) case name: return words;

/* Refusals. AOC_ACCEPTED, 0, is none. */
#define AOC_REFUSALS(ROW)                                                                              \
    ROW(AOC_REFUSED_CUT, 1, "the octets end too early")                                                \
    ROW(AOC_REFUSED_LENGTH_FORM, 2, "a length octet of 83 to FF, or of 80 on a primitive element")     \
    ROW(AOC_REFUSED_TOO_LONG, 3, "over 254 octets")                                                    \
    ROW(AOC_REFUSED_UNKNOWN_COMPONENT, 4, "the first octet is not A1 to A4, nor AA of a trunk")        \
    ROW(AOC_REFUSED_TRAILING, 5, "octets after the component")                                         \
    ROW(AOC_REFUSED_BAD_FRAME, 6, "a failure outside the argument or result")                          \
    ROW(AOC_REFUSED_UNKNOWN_OPERATION, 7, "an unknown operation")                                      \
    ROW(AOC_REFUSED_UNKNOWN_ERROR, 8, "an unknown error")                                              \
    ROW(AOC_REFUSED_BAD_RECORD, 10, "a field out of its range, or not zero where it is not used")      \
    ROW(AOC_REFUSED_LONG_RECORD, 11, "a record whose shortest form has over 254 octets")               \
    ROW(AOC_REFUSED_NO_ROOM, 12, "the buffer is too short")                                            \
    ROW(AOC_REFUSED_BAD_SETUP, 13, "two requests with one identifier")                                 \
    ROW(AOC_REFUSED_WRONG_PHASE, 14, "an event that is not allowed in this phase")                     \
    ROW(AOC_REFUSED_BAD_ELEMENT, 15, "a malformed Facility element")                                   \
    ROW(AOC_REFUSED_BAD_PLACE, 16, "a place where no component begins")                                \
    ROW(AOC_REFUSED_OTHER_PROFILE, 17, "a profile octet whose family is not read")                     \
    ROW(AOC_REFUSED_IN_LIST, 34, "an event of the list is refused")                                    \
    ROW(AOC_REFUSED_IN_USE, 35, "a Setup for a call reference that is held")                           \
    ROW(AOC_REFUSED_FULL, 36, "64 calls are held")                                                     \
    ROW(AOC_REFUSED_NOT_HELD, 37, "a call reference that is not held")                                 \
    ROW(AOC_REFUSED_UNIT_LIST, 38, "a closing figure in units")                                        \
    ROW(AOC_REFUSED_NO_CLOSING, 39, "no closing figure")                                               \
    ROW(AOC_REFUSED_MONTH_FULL, 46, "a month that has all its 4096 figures")                           \
    ROW(AOC_REFUSED_CURRENCIES_FULL, 47, "a seventeenth currency in a month")                          \
    ROW(AOC_REFUSED_LENGTHS, 48, "lengths that do not add up")                                         \
    ROW(AOC_REFUSED_FRAMING, 49, "a message that is not framed")                                       \
    AOC_ARGUMENT_REFUSALS(ROW)

/* Those of an argument or result: reading gives them with the offset of an octet. */
#define AOC_ARGUMENT_REFUSALS(ROW)                                                                     \
    ROW(AOC_REFUSED_MISSING, 40, "an element is missing, or a list is empty")                          \
    ROW(AOC_REFUSED_UNEXPECTED, 41, "an unexpected tag, or something left over")                       \
    ROW(AOC_REFUSED_LACKING, 42, "length octets, contents or end marker are missing")                  \
    ROW(AOC_REFUSED_NOT_SHORTEST, 43, "contents that are not shortest, or empty")                      \
    ROW(AOC_REFUSED_BAD_CONTENTS, 44, "contents that are not allowed")                                 \
    ROW(AOC_REFUSED_PAST_LIMIT, 45, "an entry past its list's limit")

typedef enum { AOC_ACCEPTED = 0, AOC_REFUSALS(AOC_ROW_NAME) } aoc_refusal;

/* Outcomes of a component that is given to an account. AOC_OUTCOME_DONE, 0, is that of any other event that is not refused. */
#define AOC_OUTCOMES(ROW)                                                                              \
    ROW(AOC_OUTCOME_DONE, 0, "done")                                                                   \
    ROW(AOC_OUTCOME_NEW_RATE, 20, "a new rate")                                                        \
    ROW(AOC_OUTCOME_NEW_RUNNING, 21, "a new running figure")                                           \
    ROW(AOC_OUTCOME_FINAL, 22, "the first final of its service")                                       \
    ROW(AOC_OUTCOME_NOT_AVAILABLE, 23, "not available, marked for its service")                        \
    ROW(AOC_OUTCOME_GRANTED, 24, "a request granted")                                                  \
    ROW(AOC_OUTCOME_FAILED, 25, "a request failed")                                                    \
    ROW(AOC_OUTCOME_IGNORED, 26, "ignored while its service has a request pending")                    \
    ROW(AOC_OUTCOME_OUT_OF_PHASE, 27, "out of phase")                                                  \
    ROW(AOC_OUTCOME_REPEATED, 28, "a final that is the same as the first")                             \
    ROW(AOC_OUTCOME_CONFLICT, 29, "a final that differs from the first, marked for its service")       \
    ROW(AOC_OUTCOME_NO_REQUEST, 30, "an answer to no pending request")                                 \
    ROW(AOC_OUTCOME_MISFIT, 31, "a result that does not fit its request")                              \
    ROW(AOC_OUTCOME_NOT_OURS, 32, "a request, which only a user sends")

typedef enum { AOC_OUTCOMES(AOC_ROW_NAME) } aoc_outcome_number;

/* Phases of a call. */
#define AOC_PHASES(ROW)                                                                                \
    ROW(AOC_PHASE_IDLE, 0, "not set up")                                                               \
    ROW(AOC_PHASE_ESTABLISHMENT, 1, "being set up")                                                    \
    ROW(AOC_PHASE_ACTIVE, 2, "connected")                                                              \
    ROW(AOC_PHASE_CLEARING, 3, "clearing")                                                             \
    ROW(AOC_PHASE_ENDED, 4, "ended")                                                                   \
    ROW(AOC_PHASE_SUSPENDED, 5, "parked")

typedef enum { AOC_PHASES(AOC_ROW_NAME) } aoc_phase;

/* An event's `kind`. */
#define AOC_EVENTS(ROW)                                                                                \
    ROW(AOC_EVENT_SETUP, 1, "set-up")                                                                  \
    ROW(AOC_EVENT_CONNECT, 2, "connect")                                                               \
    ROW(AOC_EVENT_CLEAR, 3, "clear")                                                                   \
    ROW(AOC_EVENT_RELEASED, 4, "released")                                                             \
    ROW(AOC_EVENT_COMPONENT, 5, "component")                                                           \
    ROW(AOC_EVENT_SUSPEND, 6, "suspend")                                                               \
    ROW(AOC_EVENT_RESUME, 7, "resume")

typedef enum { AOC_EVENTS(AOC_ROW_NAME) } aoc_event_kind;

/* Services. */
#define AOC_SERVICES(ROW)                                                                              \
    ROW(AOC_SERVICE_NONE, 0, "no service")                                                             \
    ROW(AOC_SERVICE_S, 1, "charges at set-up")                                                         \
    ROW(AOC_SERVICE_D, 2, "charges during the call")                                                   \
    ROW(AOC_SERVICE_E, 3, "charges at the end")

typedef enum { AOC_SERVICES(AOC_ROW_NAME) } aoc_service;

/* The families of components, and the profile octet of each: the third octet of the Facility element that a component came in. */
#define AOC_FAMILIES(ROW)                                                                              \
    ROW(AOC_FAMILY_NONE, 0, "no family")                                                               \
    ROW(AOC_FAMILY_LINE, 1, "a public line (ETS 300 182-1)")                                           \
    ROW(AOC_FAMILY_TRUNK, 2, "a trunk between private exchanges (ECMA-212)")

typedef enum { AOC_FAMILIES(AOC_ROW_NAME) } aoc_family;
enum { AOC_PROFILE_LINE = 0x91, AOC_PROFILE_TRUNK = 0x9F };

/* A record's `frame`; AOC_FRAME_EXTENSION is a trunk's alone. The words of frames, operations and errors are the names of
 * ETS 300 182-1, of ECMA-212 and of the standards they cite. */
#define AOC_FRAMES(ROW)                                                                                \
    ROW(AOC_FRAME_INVOKE, 1, "invoke")                                                                 \
    ROW(AOC_FRAME_RESULT, 2, "returnResult")                                                           \
    ROW(AOC_FRAME_ERROR, 3, "returnError")                                                             \
    ROW(AOC_FRAME_REJECT, 4, "reject")                                                                 \
    ROW(AOC_FRAME_EXTENSION, 10, "networkFacilityExtension")

typedef enum { AOC_FRAMES(AOC_ROW_NAME) } aoc_frame;

/* A record's `operation`: up to 36 of a public line, from 59 on of a trunk. */
#define AOC_OPERATIONS(ROW)                                                                            \
    ROW(AOC_OPERATION_CHARGING_REQUEST, 30, "chargingRequest")                                         \
    ROW(AOC_OPERATION_S_CURRENCY, 31, "aOCSCurrency")                                                  \
    ROW(AOC_OPERATION_S_SPECIAL, 32, "aOCSSpecialArr")                                                 \
    ROW(AOC_OPERATION_D_CURRENCY, 33, "aOCDCurrency")                                                  \
    ROW(AOC_OPERATION_D_UNITS, 34, "aOCDChargingUnit")                                                 \
    ROW(AOC_OPERATION_E_CURRENCY, 35, "aOCECurrency")                                                  \
    ROW(AOC_OPERATION_E_UNITS, 36, "aOCEChargingUnit")                                                 \
    ROW(AOC_OPERATION_CHARGE_REQUEST, 59, "chargeRequest")                                             \
    ROW(AOC_OPERATION_GET_FINAL_CHARGE, 60, "getFinalCharge")                                          \
    ROW(AOC_OPERATION_FINAL, 61, "aocFinal")                                                           \
    ROW(AOC_OPERATION_INTERIM, 62, "aocInterim")                                                       \
    ROW(AOC_OPERATION_RATE, 63, "aocRate")                                                             \
    ROW(AOC_OPERATION_COMPLETE, 64, "aocComplete")                                                     \
    ROW(AOC_OPERATION_DIVERSION, 65, "aocDivChargeReq")

typedef enum { AOC_OPERATIONS(AOC_ROW_NAME) } aoc_operation;

/* What an AOC_OPERATION_CHARGING_REQUEST asks for: the `detail` of its invoke. Not the numbers of the services. */
typedef enum { AOC_CHARGING_CASE_S = 0, AOC_CHARGING_CASE_D = 1, AOC_CHARGING_CASE_E = 2 } aoc_charging_case;

/* A record's `error`: 0, 3, 4, 7 and 26 of a public line, 3, 10, 1008 and 1016 of a trunk. */
#define AOC_ERRORS(ROW)                                                                                \
    ROW(AOC_ERROR_NOT_SUBSCRIBED, 0, "notSubscribed")                                                  \
    ROW(AOC_ERROR_NOT_AVAILABLE, 3, "notAvailable")                                                    \
    ROW(AOC_ERROR_NOT_IMPLEMENTED, 4, "notImplemented")                                                \
    ROW(AOC_ERROR_INVALID_CALL_STATE, 7, "invalidCallState")                                           \
    ROW(AOC_ERROR_INTERACTION, 10, "supplementaryServiceInteractionNotAllowed")                        \
    ROW(AOC_ERROR_NO_CHARGING_INFO, 26, "noChargingInfoAvailable")                                     \
    ROW(AOC_ERROR_UNSPECIFIED, 1008, "unspecified")                                                    \
    ROW(AOC_ERROR_FREE, 1016, "freeOfCharge")

typedef enum { AOC_ERRORS(AOC_ROW_NAME) } aoc_error;

/* A reject's `problem`, and its `detail` under each of them. */
typedef enum {
    AOC_PROBLEM_GENERAL = 0x80,
    AOC_PROBLEM_INVOKE = 0x81,
    AOC_PROBLEM_RESULT = 0x82,
    AOC_PROBLEM_ERROR = 0x83
} aoc_problem;
typedef enum {
    AOC_GENERAL_PROBLEM_UNRECOGNIZED_COMPONENT = 0,
    AOC_GENERAL_PROBLEM_MISTYPED_COMPONENT = 1,
    AOC_GENERAL_PROBLEM_BADLY_STRUCTURED = 2
} aoc_general_problem;
typedef enum {
    AOC_INVOKE_PROBLEM_DUPLICATE = 0,
    AOC_INVOKE_PROBLEM_UNRECOGNIZED_OPERATION = 1,
    AOC_INVOKE_PROBLEM_MISTYPED_ARGUMENT = 2,
    AOC_INVOKE_PROBLEM_RESOURCE_LIMITATION = 3,
    AOC_INVOKE_PROBLEM_INITIATOR_RELEASING = 4,
    AOC_INVOKE_PROBLEM_UNRECOGNIZED_LINKED_ID = 5,
    AOC_INVOKE_PROBLEM_LINKED_RESPONSE_UNEXPECTED = 6,
    AOC_INVOKE_PROBLEM_UNEXPECTED_CHILD = 7
} aoc_invoke_problem;
typedef enum {
    AOC_RESULT_PROBLEM_UNRECOGNIZED_INVOCATION = 0,
    AOC_RESULT_PROBLEM_RESPONSE_UNEXPECTED = 1,
    AOC_RESULT_PROBLEM_MISTYPED = 2
} aoc_result_problem;
typedef enum {
    AOC_ERROR_PROBLEM_UNRECOGNIZED_INVOCATION = 0,
    AOC_ERROR_PROBLEM_RESPONSE_UNEXPECTED = 1,
    AOC_ERROR_PROBLEM_UNRECOGNIZED_ERROR = 2,
    AOC_ERROR_PROBLEM_UNEXPECTED_ERROR = 3,
    AOC_ERROR_PROBLEM_MISTYPED_PARAMETER = 4
} aoc_error_problem;

/* A charge's `kind`. */
typedef enum {
    AOC_CHARGE_NONE = 0,        /* of a component: reported not available; of an account: there is none */
    AOC_CHARGE_FREE = 1,
    AOC_CHARGE_MONEY = 2,
    AOC_CHARGE_UNITS = 3,
    AOC_CHARGE_RATES = 4,
    AOC_CHARGE_ARRANGEMENT = 5  /* a special arrangement, 1 to 10 */
} aoc_charge_kind;

/* A charge's `total`, of operations 33 and 34. */
typedef enum { AOC_TOTAL_NO = 0, AOC_TOTAL_YES = 1 } aoc_total;

/* A charge's `billing`. Past AOC_BILLING_CREDIT_CARD it is for operations 35 and 36 alone. */
#define AOC_BILLINGS(ROW)                                                                              \
    ROW(AOC_BILLING_NORMAL, 0, "normal billing")                                                       \
    ROW(AOC_BILLING_REVERSE, 1, "reverse charging")                                                    \
    ROW(AOC_BILLING_CREDIT_CARD, 2, "credit card")                                                     \
    ROW(AOC_BILLING_FORWARDING_UNCONDITIONAL, 3, "call forwarding unconditional")                      \
    ROW(AOC_BILLING_FORWARDING_BUSY, 4, "call forwarding busy")                                        \
    ROW(AOC_BILLING_FORWARDING_NO_REPLY, 5, "call forwarding no reply")                                \
    ROW(AOC_BILLING_DEFLECTION, 6, "call deflection")                                                  \
    ROW(AOC_BILLING_TRANSFER, 7, "call transfer")

typedef enum { AOC_BILLINGS(AOC_ROW_NAME) } aoc_billing;

/* An amount's multiplier, and a time's scale. */
typedef enum {
    AOC_MULTIPLIER_THOUSANDTH = 0,
    AOC_MULTIPLIER_HUNDREDTH = 1,
    AOC_MULTIPLIER_TENTH = 2,
    AOC_MULTIPLIER_ONE = 3,
    AOC_MULTIPLIER_TEN = 4,
    AOC_MULTIPLIER_HUNDRED = 5,
    AOC_MULTIPLIER_THOUSAND = 6
} aoc_multiplier;
typedef enum {
    AOC_SCALE_HUNDREDTH_SECOND = 0,
    AOC_SCALE_TENTH_SECOND = 1,
    AOC_SCALE_SECOND = 2,
    AOC_SCALE_TEN_SECONDS = 3,
    AOC_SCALE_MINUTE = 4,
    AOC_SCALE_HOUR = 5,
    AOC_SCALE_DAY = 6
} aoc_scale;

/* A rate's `item`, its `kind`, and its `detail` where it is a duration or a volume. */
#define AOC_ITEMS(ROW)                                                                                 \
    ROW(AOC_ITEM_COMMUNICATION, 0, "communication")                                                    \
    ROW(AOC_ITEM_ATTEMPT, 1, "call attempt")                                                           \
    ROW(AOC_ITEM_SETUP, 2, "call set-up")                                                              \
    ROW(AOC_ITEM_USER_TO_USER, 3, "user-to-user information")                                          \
    ROW(AOC_ITEM_SUPPLEMENTARY, 4, "supplementary service")

typedef enum { AOC_ITEMS(AOC_ROW_NAME) } aoc_item;
typedef enum {
    AOC_RATE_DURATION = 1,
    AOC_RATE_FLAT = 2,
    AOC_RATE_VOLUME = 3,
    AOC_RATE_CODE = 4,          /* `detail` is the code, 1 to 10 */
    AOC_RATE_FREE = 5,
    AOC_RATE_UNKNOWN = 6,
    AOC_RATE_FREE_FROM_BEGINNING = 7    /* of a trunk */
} aoc_rate_kind;
typedef enum { AOC_DURATION_CONTINUOUS = 0, AOC_DURATION_STEPS = 1 } aoc_duration;

#define AOC_VOLUMES(ROW)                                                                               \
    ROW(AOC_VOLUME_OCTET, 0, "octet")                                                                  \
    ROW(AOC_VOLUME_SEGMENT, 1, "segment")                                                              \
    ROW(AOC_VOLUME_MESSAGE, 2, "message")

typedef enum { AOC_VOLUMES(AOC_ROW_NAME) } aoc_volume;

/* An association's `kind`, and the `plan` of AOC_ASSOCIATION_PLANNED_NUMBER and AOC_ASSOCIATION_PRIVATE_NUMBER. */
typedef enum {
    AOC_ASSOCIATION_NONE = 0,
    AOC_ASSOCIATION_IDENTIFIER = 1,
    AOC_ASSOCIATION_NUMBER = 2,
    AOC_ASSOCIATION_PLANNED_NUMBER = 3,
    AOC_ASSOCIATION_PRIVATE_NUMBER = 4  /* of a trunk: a number of a private plan */
} aoc_association_kind;

#define AOC_PLANS(ROW)                                                                                 \
    ROW(AOC_PLAN_UNKNOWN, 0, "unknown")                                                                \
    ROW(AOC_PLAN_INTERNATIONAL, 1, "international")                                                    \
    ROW(AOC_PLAN_NATIONAL, 2, "national")                                                              \
    ROW(AOC_PLAN_NETWORK_SPECIFIC, 3, "network specific")                                              \
    ROW(AOC_PLAN_SUBSCRIBER, 4, "subscriber")                                                          \
    ROW(AOC_PLAN_ABBREVIATED, 6, "abbreviated")

typedef enum { AOC_PLANS(AOC_ROW_NAME) } aoc_plan;

/* What a trunk's record has beside: the `modes` of an AOC_OPERATION_CHARGE_REQUEST invoke, and the `detail` of its result; the
 * `detail` of an AOC_OPERATION_COMPLETE result, and of an AOC_OPERATION_DIVERSION invoke; `detail` (source) and `entity`
 * (destination) of an AOC_FRAME_EXTENSION; and `extended`. */
typedef enum {
    AOC_MODE_RATE = 0,
    AOC_MODE_RATE_INTERIM = 1,
    AOC_MODE_RATE_FINAL = 2,
    AOC_MODE_INTERIM = 3,
    AOC_MODE_FINAL = 4,
    AOC_MODE_INTERIM_FINAL = 5,
    AOC_MODE_RATE_INTERIM_FINAL = 6
} aoc_mode;
typedef enum { AOC_OPTION_FREE = 0, AOC_OPTION_CONTINUE = 1, AOC_OPTION_STOP = 2 } aoc_option;
typedef enum {
    AOC_DIVERSION_UNCONDITIONAL = 0,
    AOC_DIVERSION_BUSY = 1,
    AOC_DIVERSION_NO_REPLY = 2,
    AOC_DIVERSION_DEFLECTION = 3
} aoc_diversion;
typedef enum { AOC_ENTITY_END = 0, AOC_ENTITY_ANY = 1 } aoc_entity;
typedef enum { AOC_EXTENDED_NOT = 0, AOC_EXTENDED_ONCE = 1, AOC_EXTENDED_LIST = 2 } aoc_extended;

/* First octets of components of a trunk that are for the exchange and not for its users: the network facility extension, the
 * interpretation and the network protocol profile. */
enum { AOC_FIRST_EXTENSION = 0xAA, AOC_FIRST_INTERPRETATION = 0x8B, AOC_FIRST_PROTOCOL_PROFILE = 0x92 };

/* The value of an interpretation: what an exchange does with an invoke of the same element that no service of it knows. Without
 * an interpretation it is rejected. The words are the names of ECMA-165, which has the numbers too. */
#define AOC_INTERPRETATIONS(ROW)                                                                       \
    ROW(AOC_INTERPRETATION_DISCARD, 0, "discardAnyUnrecognisedInvokePdu")                              \
    ROW(AOC_INTERPRETATION_CLEAR, 1, "clearCallIfAnyInvokePduNotRecognised")                           \
    ROW(AOC_INTERPRETATION_REJECT, 2, "rejectAnyUnrecognisedInvokePdu")                                \
    ROW(AOC_INTERPRETATION_NONE, 255, "no interpretation")

typedef enum { AOC_INTERPRETATIONS(AOC_ROW_NAME) } aoc_interpretation;

/* Limits. */
enum {
    AOC_LIMIT_COMPONENT_OCTETS = 254,
    AOC_LIMIT_ELEMENT_OCTETS = 257,     /* of a whole Facility element */
    AOC_LIMIT_REPLY_OCTETS = 9,         /* of a reject in reply */
    AOC_LIMIT_COMPONENTS = 127,         /* of a Facility element */
    AOC_FIRST_PLACE = 3,                /* where the first component of a Facility element begins */
    AOC_LIMIT_UNITS = 32,
    AOC_LIMIT_RATES = 10,
    AOC_LIMIT_CURRENCY_OCTETS = 10,
    AOC_LIMIT_DIGITS = 20,
    AOC_LIMIT_MODES = 7,
    AOC_LIMIT_EXTENSION_OCTETS = 242,
    AOC_LIMIT_CHARGE_TEXT = 1200,       /* room for the whole text of any charge: see aoc_print_charge */
    AOC_LIMIT_MESSAGE_OCTETS = 260,     /* what the data link of a D channel carries in one message, */
    AOC_LIMIT_MESSAGE_NUMBERS = 1560,   /* and six numbers for each: the buffers for aoc_message_events */
    AOC_LIMIT_FRONT_OCTETS = 11,        /* of what aoc_write_front writes */
    AOC_LIMIT_NUMBER = 16777215,        /* of an amount, units, a time */
    AOC_LIMIT_MONTH_FIGURES = 4096,
    AOC_LIMIT_MONTH_CURRENCIES = 16,
    AOC_MONTH_TYPES = 17,               /* of units: 1 to 16, and 0 for none */
    AOC_MONTH_BILLINGS = 9,             /* aoc_billing, and AOC_MONTH_NOT_BILLED for none */
    AOC_MONTH_NOT_BILLED = 8
};

/* ------------------------------------------------------------------ structs */

/* 1 to 10 octets, each below 80 (hex); the places past the count are zero. Of a trunk none too: the private network's own. */
typedef struct {
    uint8_t count;
    uint8_t octets[AOC_LIMIT_CURRENCY_OCTETS];
} aoc_currency;

/* The number times ten to the multiplier, in thousandths: see aoc_thousandths. */
typedef struct {
    aoc_currency currency;
    uint8_t multiplier;
    uint32_t number;
} aoc_money;

/* Which other call a charge belongs to: an identifier, or a number of 1 to 20 digits and spaces. */
typedef struct {
    uint16_t id;
    uint16_t count;             /* of digits */
    uint8_t kind;
    uint8_t plan;
    uint8_t digits[AOC_LIMIT_DIGITS];
} aoc_association;

/* An entry of a list of units; its number is apart, in the charge's unit_numbers. aoc_unit_at has both. */
typedef struct {
    uint8_t known;              /* 1: the number is given; 0: not available */
    uint8_t type;               /* 1 to 16, or 0 for none */
} aoc_unit;

/* An entry of a list of rates; its numbers are apart, in the charge's rate_numbers. aoc_rate_at has both. */
typedef struct {
    uint8_t item;
    uint8_t kind;
    uint8_t detail;             /* a duration's type, a volume's unit, or a code */
    uint8_t stepped;            /* 1: a duration with a step (granularity) */
    uint8_t scale;              /* of the time */
    uint8_t step_scale;
    uint8_t multiplier;
    aoc_currency currency;
} aoc_rate;

typedef struct {
    uint32_t number;            /* of the amount */
    uint32_t time;
    uint32_t step;
} aoc_rate_numbers;

/* A charge as it is received. By its kind:
 *   AOC_CHARGE_MONEY        money; total in operations 33 and 34; billing where billed is 1; an association in 35 and 36
 *   AOC_CHARGE_UNITS        count entries of units and unit_numbers; the same besides
 *   AOC_CHARGE_FREE         an association in operations 35 and 36
 *   AOC_CHARGE_RATES        count entries of rates and rate_numbers
 *   AOC_CHARGE_ARRANGEMENT  arrangement
 * All that is not used is zero. */
typedef struct {
    aoc_money money;
    aoc_association association;
    uint8_t kind;
    uint8_t total;
    uint8_t billed;
    uint8_t billing;
    uint8_t arrangement;
    uint8_t count;
    union {
        uint32_t numbers[32];
        uint32_t unit_numbers[AOC_LIMIT_UNITS];
        aoc_rate_numbers rate_numbers[AOC_LIMIT_RATES];
    };
    union {
        uint8_t octets[192];
        aoc_unit units[AOC_LIMIT_UNITS];
        aoc_rate rates[AOC_LIMIT_RATES];
    };
} aoc_charge;

/* A component. Identifiers are 16 bits in two's complement: (int16_t)id is the number, -32,768 to 32,767. */
typedef struct {
    uint8_t frame;
    uint8_t unnamed;            /* 1: a reject with NULL in place of the identifier */
    uint16_t id;
    uint8_t operation;
    uint8_t error;
    uint8_t problem;
    uint8_t detail;             /* an AOC_OPERATION_CHARGING_REQUEST invoke: aoc_charging_case, which is no aoc_service;
                                 * a reject: aoc_general_problem and its neighbours, by `problem`; else 0 */
    aoc_charge charge;
} aoc_record;

typedef struct {
    uint32_t refusal;           /* AOC_ACCEPTED, 1 to 8, or 40 to 45 */
    uint32_t offset;            /* with 40 to 45, which octet, the first as 0; else 0 */
    aoc_record record;
} aoc_answer;

/* A component of a trunk. All that is not used is zero, and `zero` always.
 * user: the charged user of AOC_OPERATION_COMPLETE, the diverting user of AOC_OPERATION_DIVERSION, the source address of an
 * AOC_FRAME_EXTENSION: no AOC_ASSOCIATION_IDENTIFIER. charge: AOC_CHARGE_NONE, AOC_CHARGE_FREE or AOC_CHARGE_MONEY of
 * AOC_OPERATION_FINAL and AOC_OPERATION_INTERIM, AOC_CHARGE_NONE or AOC_CHARGE_RATES of AOC_OPERATION_RATE; its association is that
 * of AOC_OPERATION_FINAL, AOC_OPERATION_COMPLETE and AOC_OPERATION_DIVERSION, and the destination address of an
 * AOC_FRAME_EXTENSION. extension: the contents of a manufacturer's extension in their normal form, every length in its shortest
 * octets. Others are no record: aoc_write_by refuses them, AOC_REFUSED_BAD_RECORD. */
typedef struct {
    uint8_t frame;
    uint8_t unnamed;            /* 1: a reject with NULL in place of the identifier */
    uint16_t id;
    uint16_t error;
    uint8_t operation;
    uint8_t problem;
    uint8_t asked;              /* how many modes */
    uint8_t modes[AOC_LIMIT_MODES];
    aoc_association user;
    uint8_t detail;             /* an AOC_OPERATION_CHARGE_REQUEST result: aoc_mode; an AOC_OPERATION_COMPLETE result: aoc_option;
                                 * an AOC_OPERATION_DIVERSION invoke: aoc_diversion; an AOC_FRAME_EXTENSION: aoc_entity of the
                                 * source; a reject: aoc_general_problem and its neighbours, by `problem`; else 0 */
    uint8_t entity;             /* an AOC_FRAME_EXTENSION: aoc_entity of the destination */
    uint8_t zero[4];
    uint8_t extended;           /* aoc_extended */
    uint8_t extent;             /* how many octets of extension */
    uint8_t extension[AOC_LIMIT_EXTENSION_OCTETS];
    aoc_charge charge;
} aoc_trunk;

/* A component of one family or the other: the record of the other one is zero. */
typedef struct {
    uint32_t refusal;           /* AOC_ACCEPTED, AOC_REFUSED_OTHER_PROFILE, 1 to 8, or 40 to 45 */
    uint32_t offset;            /* with 40 to 45, which octet, the first as 0; else 0 */
    uint32_t family;            /* aoc_family: that of the profile octet, accepted or not */
    aoc_record record;
    aoc_trunk trunk;
} aoc_either;

typedef struct {
    uint32_t refusal;
    uint32_t count;             /* of octets written */
} aoc_written;

/* A set of services, a mark for each: 0 is out of the set, any other mark is in it. */
typedef struct {
    uint8_t s;
    uint8_t d;
    uint8_t e;
} aoc_services;

/* An identifier for each service. */
typedef struct {
    uint16_t s;
    uint16_t d;
    uint16_t e;
} aoc_identifiers;

/* A Setup has the services asked for and their requests' identifiers; the other events leave them unused. */
typedef struct {
    uint8_t kind;
    aoc_services asked;
    uint16_t s;
    uint16_t d;
    uint16_t e;
} aoc_event;

typedef struct {
    uint8_t number;             /* an outcome; or, where aoc_is_refusal(number), a refusal */
    uint8_t service;            /* which service the outcome is of, or AOC_SERVICE_NONE */
} aoc_outcome;

/* One call's account. It is the host's memory: start it with aoc_fresh, change it by events alone, and read it by the
 * functions below. */
typedef struct {
    uint8_t phase;
    aoc_services asked;
    uint16_t s;
    uint16_t d;
    uint16_t e;
    aoc_services absent;
    aoc_services conflict;
    aoc_charge rate;
    aoc_charge running;
    aoc_charge d_final;
    aoc_charge e_final;
} aoc_account;

typedef struct {
    uint32_t service;           /* AOC_SERVICE_E, AOC_SERVICE_D, or AOC_SERVICE_NONE for no closing figure */
    aoc_charge charge;
} aoc_closing;

typedef struct {
    aoc_services absent;        /* reported not available */
    aoc_services conflict;      /* had a final that differs from the first */
} aoc_marks;

typedef struct {
    aoc_services asked;         /* the services with a request pending */
    uint8_t unused;
    uint16_t s;
    uint16_t d;
    uint16_t e;
} aoc_pending;

/* ------------------------------------------------------------------ the version */

/* Proved. The AOC_VERSION of the archive that is linked. A host compares it with the header's at its start. */
uint32_t aoc_version(void);

/* ------------------------------------------------------------------ components */

/* Inline, over a proved function. Reads one component into an answer, whatever the answer held. The record is what the octets
 * mean, each length in any of its forms; or the refusal is that of the first failure, and the record is zero. It returns the
 * refusal. With AOC_REFUSED_MISSING the offset is where the contents of the enclosing element end, with 41 to 45 the offset of the
 * failing element's tag: at least 8, and at most the length. The answer is written on a refusal too. */
AOC_INLINE aoc_refusal aoc_read(const uint8_t *octets, size_t length, aoc_answer *answer);

/* Inline, over a proved function. Writes a record's shortest form: its octets are the first `count` of the buffer, at most
 * 254, and the others are unchanged. Or it refuses, with the first of AOC_REFUSED_BAD_RECORD, AOC_REFUSED_LONG_RECORD and
 * AOC_REFUSED_NO_ROOM that applies, and the whole buffer is unchanged. A record that was read is never refused
 * AOC_REFUSED_BAD_RECORD or AOC_REFUSED_LONG_RECORD, and what is written reads back as the record. */
AOC_MUST_USE
AOC_INLINE aoc_written aoc_write(const aoc_record *record, uint8_t *buffer, size_t room);

/* Proved. The reject to send for the octets of a component, written as aoc_write writes: for one that is refused and does not
 * begin with A4. Otherwise the count is 0: there is nothing to send. Refusal: AOC_REFUSED_NO_ROOM. */
AOC_MUST_USE
aoc_written aoc_reply(const uint8_t *octets, size_t length, uint8_t *buffer, size_t room);

/* Inline, over a proved function. Iterates over the components of a whole Facility element. A place is an offset from its first
 * octet (1C); the first component begins at AOC_FIRST_PLACE. The function reads the component at the place into an answer, as
 * aoc_read does, moves the place to the offset after it, and returns true. A component that is refused does not end the iteration.
 * It returns false, with the place unchanged and a zero record, at the end (AOC_ACCEPTED), for a malformed element
 * (AOC_REFUSED_BAD_ELEMENT, whatever the place) and for a place where no component begins (AOC_REFUSED_BAD_PLACE).
 * Each component of an element of a trunk (profile octet 9F) is AOC_REFUSED_OTHER_PROFILE: aoc_next_by reads both families.
 *
 *     size_t place = AOC_FIRST_PLACE, from = place;
 *     for (; aoc_next(element, length, &place, &answer); from = place) { .. element + from, place - from are its octets .. }
 *
 * The last call, which finds the end, checks the whole element once more. A loop may stop where the place is the length:
 * while (place < length && aoc_next(..)). Its first call reports a malformed element; with three octets or fewer it makes none. */
AOC_MUST_USE
AOC_INLINE bool aoc_next(const uint8_t *octets, size_t length, size_t *place, aoc_answer *answer);

/* Proved. Writes the Facility element round components that are end to end: 1C, its length, 91 and the octets unchanged, three
 * octets more. The components may be any that aoc_next iterates over, read or refused: aoc_next returns the same ones in the same
 * order. AOC_REFUSED_BAD_ELEMENT for octets that no element can have: none, over 254, or no components end to end; then
 * AOC_REFUSED_NO_ROOM. A refusal leaves the buffer unchanged; otherwise the octets behind the element are unchanged. */
AOC_MUST_USE
aoc_written aoc_write_element(const uint8_t *octets, size_t length, uint8_t *buffer, size_t room);

/* Proved. The same by the profile octet, which is written in place of 91: AOC_REFUSED_OTHER_PROFILE, before all else, for another
 * octet than AOC_PROFILE_LINE and AOC_PROFILE_TRUNK. aoc_next_by returns the same components. What is in front of a trunk's
 * components (aoc_write_front) is passed together with them. */
AOC_MUST_USE
aoc_written aoc_write_element_by(uint8_t profile, const uint8_t *octets, size_t length, uint8_t *buffer, size_t room);

/* Inline, over a proved function. Writes the request for a service, with its identifier, as aoc_write does: an
 * AOC_OPERATION_CHARGING_REQUEST invoke. AOC_REFUSED_BAD_RECORD for a number that is no service. */
AOC_MUST_USE
AOC_INLINE aoc_written aoc_request(uint8_t service, uint16_t id, uint8_t *buffer, size_t room);

/* ------------------------------------------------------------------ components of trunks, by their profile octet */

/* A component that comes over QSIG, from another private exchange, is read with the third octet of its element: 91 reads it as
 * aoc_read does, 9F by ECMA-212's table. The account of a call takes those of 91 only. */

/* Inline, over a proved function. As aoc_read, with the family that the profile octet names; AOC_REFUSED_OTHER_PROFILE, before all
 * else, for another octet than AOC_PROFILE_LINE and AOC_PROFILE_TRUNK. */
AOC_INLINE aoc_refusal aoc_read_by(uint8_t profile, const uint8_t *octets, size_t length, aoc_either *answer);

/* Inline, over a proved function. As aoc_next, with the family that the element's own third octet names. */
AOC_MUST_USE
AOC_INLINE bool aoc_next_by(const uint8_t *octets, size_t length, size_t *place, aoc_either *answer);

/* Inline, over a proved function. As aoc_write, of the record of the family that the profile octet names; the other record is not
 * looked at. AOC_REFUSED_OTHER_PROFILE, before all else, for another octet. */
AOC_MUST_USE
AOC_INLINE aoc_written aoc_write_by(uint8_t profile, const aoc_either *either, uint8_t *buffer, size_t room);

/* Proved. As aoc_reply: AOC_REFUSED_OTHER_PROFILE and nothing written for another profile octet, before all else; and with
 * AOC_PROFILE_TRUNK nothing to send for a network facility extension (first octet AA) that is AOC_REFUSED_BAD_FRAME. The reject
 * goes back in an element with the profile octet that was received (aoc_write_element_by).
 * Two kinds of component are for the exchange and not for its users: those whose first octet is 8B (interpretation) or 92
 * (network protocol profile), both AOC_REFUSED_UNKNOWN_COMPONENT. A HOST SKIPS THEM AND SENDS NO REJECT FOR THEM, though this
 * function, which follows the documents literally, writes one. aoc_is_for_exchange finds them, and operations of other services. */
AOC_MUST_USE
aoc_written aoc_reply_by(uint8_t profile, const uint8_t *octets, size_t length, uint8_t *buffer, size_t room);

/* Inline, looks into an answer. Whether a component, whose octets got this answer, is for the exchange and not for the charge
 * client: the host sends no reject for it and passes it on. On a trunk these are the extension, the interpretation and the network
 * protocol profile (AOC_FIRST_EXTENSION and its neighbours), and what another service of the exchange may know:
 * AOC_REFUSED_UNKNOWN_OPERATION, AOC_REFUSED_UNKNOWN_ERROR, an invoke with a linked identifier, and a result with nothing but its
 * identifier, which no operation of the charge client has. Where no service knows an invoke, aoc_interpretation_in says what to
 * do. Results, errors and rejects that are read may answer another service's invoke too: their `id` says so. On a public line it
 * is false. */
AOC_INLINE bool aoc_is_for_exchange(const aoc_either *answer, const uint8_t *octets, size_t length);

/* Inline, computes. What the sender of a whole Facility element wants done with an invoke in it that nobody knows: the
 * aoc_interpretation of the element's first interpretation; AOC_INTERPRETATION_NONE where there is none, its value is none of
 * ECMA-165's, or the element is not a trunk's. AOC_INTERPRETATION_DISCARD: send nothing. AOC_INTERPRETATION_CLEAR: clear the
 * call.
 * AOC_INTERPRETATION_REJECT and AOC_INTERPRETATION_NONE: send aoc_reply_by's reject. */
AOC_INLINE uint8_t aoc_interpretation_in(const uint8_t *octets, size_t length);

/* Inline, computes. The interpretation that ECMA-212 wants in front of an invoke of an operation: AOC_INTERPRETATION_DISCARD for
 * AOC_OPERATION_FINAL, AOC_OPERATION_INTERIM, AOC_OPERATION_RATE and AOC_OPERATION_DIVERSION, AOC_INTERPRETATION_CLEAR for
 * AOC_OPERATION_GET_FINAL_CHARGE, else AOC_INTERPRETATION_NONE. */
AOC_INLINE uint8_t aoc_interpretation_of(uint8_t operation);

/* Inline, computes. Writes what comes in front of a trunk's components, as aoc_write does: the network facility extension from
 * an end exchange to an end exchange, and the interpretation, unless that is AOC_INTERPRETATION_NONE. AOC_REFUSED_BAD_RECORD for
 * a number that is no aoc_interpretation, then AOC_REFUSED_NO_ROOM. An extension with addresses is written by aoc_write_by
 * (AOC_FRAME_EXTENSION). */
AOC_MUST_USE
AOC_INLINE aoc_written aoc_write_front(uint8_t interpretation, uint8_t *buffer, size_t room);

/* Inline, over a proved function. Writes a trunk's Facility element in one call: 1C, its length, 9F, what aoc_write_front writes,
 * and the components as they are. Refusals are those of aoc_write_front, then those of aoc_write_element_by. */
AOC_MUST_USE
AOC_INLINE aoc_written aoc_write_trunk_element(uint8_t interpretation, const uint8_t *octets, size_t length, uint8_t *buffer,
                                               size_t room);

/* Inline, over a proved function. Write a trunk's requests with their identifier, as aoc_write_by does, without an extension or
 * an association: an AOC_OPERATION_CHARGE_REQUEST invoke with so many modes (aoc_mode; AOC_REFUSED_BAD_RECORD for more than
 * seven, or for a number that is no mode); an AOC_OPERATION_GET_FINAL_CHARGE invoke; an AOC_OPERATION_COMPLETE invoke with the
 * charged user's number; an AOC_OPERATION_DIVERSION invoke with the diverting user's number and an aoc_diversion. */
AOC_MUST_USE
AOC_INLINE aoc_written aoc_charge_request(uint16_t id, const uint8_t *modes, size_t count, uint8_t *buffer, size_t room);
AOC_MUST_USE
AOC_INLINE aoc_written aoc_final_charge_request(uint16_t id, uint8_t *buffer, size_t room);
AOC_MUST_USE
AOC_INLINE aoc_written aoc_complete_request(uint16_t id, const aoc_association *user, uint8_t *buffer, size_t room);
AOC_MUST_USE
AOC_INLINE aoc_written aoc_diversion_request(uint16_t id, const aoc_association *user, uint8_t diversion, uint8_t *buffer,
                                             size_t room);

/* ------------------------------------------------------------------ values */

/* Inline, computes. Whether a number is a refusal: of an outcome, `number`; of any other answer, `refusal`. */
AOC_INLINE bool aoc_is_refusal(uint32_t number);

/* Proved. An amount in thousandths: the number times 1, 10, .. 1,000,000 by its multiplier 0 to 6; 0 for a multiplier over 6.
 * Of an amount that was read it is at most 16,777,215,000,000. */
uint64_t aoc_thousandths(uint32_t number, uint8_t multiplier);

/* Inline, looks into a charge. An entry of its list, whole; all zero where the list has no such entry. */
typedef struct {
    uint8_t known;              /* 1: the number is given; 0: not available */
    uint8_t type;               /* 1 to 16, or 0 for none */
    uint32_t number;
} aoc_unit_entry;

typedef struct {
    uint8_t item;
    uint8_t kind;
    uint8_t detail;             /* a duration's type, a volume's unit, or a code */
    uint8_t stepped;            /* 1: a duration with a step */
    uint8_t scale;              /* of the time */
    uint8_t step_scale;
    uint32_t time;
    uint32_t step;
    aoc_money money;
} aoc_rate_entry;

AOC_INLINE aoc_unit_entry aoc_unit_at(const aoc_charge *charge, size_t index);
AOC_INLINE aoc_rate_entry aoc_rate_at(const aoc_charge *charge, size_t index);

/* Proved. The identifier one up; after 32,767 comes -32,768. */
uint16_t aoc_next_identifier(uint16_t id);

/* Proved. The three identifiers after this one, in the order S, D, E; no two are the same. */
aoc_identifiers aoc_three_identifiers(uint16_t last);

/* Proved. The empty set of services; a set with one service more; whether a service is in a set. A number that is no service
 * adds nothing and is in no set. */
aoc_services aoc_no_services(void);
AOC_MUST_USE
aoc_services aoc_with_service(aoc_services set, uint8_t service);
bool aoc_has_service(aoc_services set, uint8_t service);

/* Inline, looks into a struct. The identifier of a service among three; 0 for a number that is no service. */
AOC_INLINE uint16_t aoc_identifier_of(aoc_identifiers ids, uint8_t service);

/* Inline, computes. What a request for a service asks for, an aoc_charging_case: not the service's own number. It is 255, with
 * which no record is written, for a number that is no service. */
AOC_INLINE uint8_t aoc_case_of(uint8_t service);

/* ------------------------------------------------------------------ one call's account */

/* Proved. The account of a call that has had no event. */
aoc_account aoc_fresh(void);

/* Proved. Takes one event and updates the account. The octets are those of AOC_EVENT_COMPONENT; other events leave them
 * unread. A refused event (aoc_is_refusal) leaves the account unchanged. For an account that started fresh and was given any list
 * of events, the outcome and all that can be read from the account are what the specification picks out of that list. */
AOC_MUST_USE
aoc_outcome aoc_step(aoc_account *account, aoc_event event, const uint8_t *octets, size_t length);

/* Inline, computes. The event of a kind, with nothing beside it; that of a Setup. */
AOC_INLINE aoc_event aoc_event_of(uint8_t kind);
AOC_INLINE aoc_event aoc_event_of_setup(aoc_services asked, aoc_identifiers ids);

/* Proved. The events, one function for each, each as aoc_step takes it. A CONNECT's components are given before aoc_connect, a
 * clearing message's after aoc_clear. A Setup has a request for each service asked for; the identifier of another service is
 * not looked at. */
AOC_MUST_USE
aoc_outcome aoc_setup(aoc_account *account, aoc_services asked, aoc_identifiers ids);
AOC_MUST_USE
aoc_outcome aoc_connect(aoc_account *account);
AOC_MUST_USE
aoc_outcome aoc_clear(aoc_account *account);
AOC_MUST_USE
aoc_outcome aoc_released(aoc_account *account);
AOC_MUST_USE
aoc_outcome aoc_component(aoc_account *account, const uint8_t *octets, size_t length);

/* Proved. A call in AOC_PHASE_ACTIVE is parked and resumed, as often as wanted. While it is parked, every component that can be
 * read has AOC_OUTCOME_OUT_OF_PHASE and changes nothing; aoc_clear works from there too. */
AOC_MUST_USE
aoc_outcome aoc_suspend(aoc_account *account);
AOC_MUST_USE
aoc_outcome aoc_resume(aoc_account *account);

/* Proved. They read the account without a copy of it. The rate of the last AOC_OUTCOME_NEW_RATE or granted S request, the running
 * figure of the last AOC_OUTCOME_NEW_RUNNING: kind AOC_CHARGE_NONE where there is none. */
aoc_charge aoc_rate_of(const aoc_account *account);
aoc_charge aoc_running_of(const aoc_account *account);

/* Proved. The figure to post: none before AOC_PHASE_ENDED; then the final of E, else that of D, else none. */
aoc_closing aoc_closing_of(const aoc_account *account);

/* Proved. The lasting marks; the requests still pending; the phase. */
aoc_marks aoc_marks_of(const aoc_account *account);
aoc_pending aoc_pending_of(const aoc_account *account);
uint8_t aoc_phase_of(const aoc_account *account);

/* ------------------------------------------------------------------ a call's event list */

/* An event list is rows of six numbers, and the octets of all its events end to end. A row: the event's kind; the services
 * asked for, 1 S, 2 D, 4 E added up; the identifiers of S, D and E; how many of the octets are the event's. */
enum { AOC_ROW_NUMBERS = 6 };

/* Inline, computes. The row of an event that has `count` octets. Do not cut a longer length down to 65,535: an event of more octets,
 * which aoc_component refuses, can be in no list. */
AOC_INLINE void aoc_row_of(aoc_event event, uint16_t count, uint16_t *row);

/* Inline, computes. The event of a row, without its octets: the inverse of aoc_row_of, whatever the row's six numbers are. */
AOC_INLINE aoc_event aoc_event_at(const uint16_t *row);

/* Inline, over a proved function. Takes one event as aoc_step does, and fills its row. To extend the call's list, append this row
 * to the rows, and the first row[5] of the octets to the octets: all of an event's octets, but none where the event is no
 * AOC_EVENT_COMPONENT, and 65,535 at most, since further ones change no outcome. */
AOC_MUST_USE
AOC_INLINE aoc_outcome aoc_take(aoc_account *account, aoc_event event, const uint8_t *octets, size_t length, uint16_t *row);

/* Inline, computes: it cuts the list into its events and passes each to aoc_step. The account of a call that starts with no event
 * and has the events of the list: a host stores the list over a restart, and this makes the account from it again.
 * AOC_REFUSED_LENGTHS for arrays that are no event list; the account is then aoc_fresh's. `numbers` is six times the rows. */
AOC_MUST_USE
AOC_INLINE aoc_refusal aoc_replay(const uint16_t *rows, size_t numbers, const uint8_t *octets, size_t length, aoc_account *account);

/* Why a call has no price. */
#define AOC_REASONS(ROW)                                                                               \
    ROW(AOC_REASON_OPEN, 1, "still open")                                                              \
    ROW(AOC_REASON_PRICED, 2, "there is a closing figure")                                             \
    ROW(AOC_REASON_PASSED_OVER, 3, "a figure was ignored or out of phase")                             \
    ROW(AOC_REASON_NOT_AVAILABLE, 4, "told not available")                                             \
    ROW(AOC_REASON_RUNNING, 5, "only running figures")                                                 \
    ROW(AOC_REASON_REFUSED, 6, "a component was refused")                                              \
    ROW(AOC_REASON_NOTHING, 7, "nothing usable came in time")

typedef enum { AOC_REASONS(AOC_ROW_NAME) } aoc_reason;

typedef struct {
    uint32_t refusal;           /* AOC_REFUSED_LENGTHS for arrays that are no event list, and then the rest is 0 */
    uint32_t reason;            /* aoc_reason */
    uint64_t event;             /* the event's number, from 1; 0 for none */
} aoc_why_answer;

/* Proved. For a call that starts with no event and has the events of the list: the first reason, in the order above, that holds,
 * and its earliest event; for AOC_REASON_PRICED the event that gave the closing figure. `numbers` is six times the rows. */
aoc_why_answer aoc_why(const uint16_t *rows, size_t numbers, const uint8_t *octets, size_t length);

/* ------------------------------------------------------------------ whole messages from the line */

/* A trace of one call is the octets of its layer 3 messages end to end, and for each message a pair of numbers: how many of
 * the octets it has, and its direction. */
enum { AOC_PAIR_NUMBERS = 2, AOC_FROM_USER = 0, AOC_FROM_NETWORK = 1 };

typedef struct {
    uint64_t refusal;           /* AOC_ACCEPTED, AOC_REFUSED_LENGTHS, AOC_REFUSED_FRAMING or AOC_REFUSED_NO_ROOM */
    uint64_t message;           /* with AOC_REFUSED_FRAMING the first message that is not framed, from 1; else 0 */
    uint64_t events;            /* how many rows, */
    uint64_t octets;            /* and how many octets the event list has; 0 where the trace is refused */
} aoc_trace_answer;

/* Proved. The events of a trace, written as an event list: the rows at the front of `rows`, the octets at the front of `out`; what
 * is behind them is unchanged. AOC_REFUSED_LENGTHS where the lengths do not add up to the octets, or a pair is not whole; then
 * AOC_REFUSED_FRAMING; then AOC_REFUSED_NO_ROOM where `row_room` is less than six numbers (AOC_ROW_NUMBERS), or `out_room` less
 * than one octet, for each octet of the trace: no list needs more. A refusal leaves both buffers unchanged. Any direction but
 * AOC_FROM_USER is the network. Messages with another reference than the first one's give no event. */
AOC_MUST_USE
aoc_trace_answer aoc_trace_events(const uint32_t *pairs, size_t numbers, const uint8_t *octets, size_t length, uint16_t *rows,
                                  size_t row_room, uint8_t *out, size_t out_room);

/* Inline, over a proved function. The same for one message as it goes out or comes in, while the call goes on: its events in the
 * right order, which the host gives to the call's account or board (aoc_event_at). `direction` is AOC_FROM_USER for what the
 * host's own side sends. Pass buffers of six numbers and one octet for each octet of the message: on a D channel
 * AOC_LIMIT_MESSAGE_NUMBERS and AOC_LIMIT_MESSAGE_OCTETS.
 * What differs from the trace of a whole call:
 *   Each DISCONNECT, RELEASE and RELEASE COMPLETE gives a Clear, not only the first of the call. A second one is
 *   AOC_REFUSED_WRONG_PHASE and changes nothing.
 *   The reference is compared with no other: aoc_call_key says which call the message belongs to.
 *   The Setup has the requests of the SETUP that is passed: pass it as it is sent, with its Facility element.
 *   AOC_REFUSED_FRAMING concerns this message alone; the call goes on.
 * No message gives a Suspend or a Resume: the host gives those. */
AOC_MUST_USE
AOC_INLINE aoc_trace_answer aoc_message_events(uint32_t direction, const uint8_t *octets, size_t length, uint16_t *rows,
                                               size_t row_room, uint8_t *out, size_t out_room);

/* Inline, computes. The key under which a board holds the call of a message: the value of the message's call reference, and 8000
 * (hex) more where the network began the call. The reference's flag and the direction say which side did: it sends flag 0. So both
 * directions have one key, and a call that the network began is never confused with one of the user's with the same value. Such a
 * call has no Setup, so that each event of it is AOC_REFUSED_NOT_HELD. A reference of one octet and one of two octets with the same
 * value are the same. False, and the key unchanged, for a message of no call: without a reference (the dummy), with the value 0
 * (the global one), or whose octets end before the reference does or do not begin as a message.
 * Each line (a D channel, and a terminal on it) has references of its own: a host with several lines keeps a board for each, or a
 * map from line and key to numbers of its own. */
AOC_MUST_USE
AOC_INLINE bool aoc_call_key(uint32_t direction, const uint8_t *octets, size_t length, uint16_t *key);

/* Inline, computes. Iterates over the Facility elements of a message that is framed, of both families and malformed ones too: it
 * finds the first that begins at or after the place and is under no shift. True, with the offset where it begins and the place after
 * it; or false, with both unchanged. Begin with place 0. aoc_message_events already has the components of public lines; this is for
 * those of trunks.
 *
 *     size_t place = 0, from = 0;
 *     while (aoc_next_facility(message, length, &place, &from)) { .. message + from, place - from are its octets .. } */
AOC_MUST_USE
AOC_INLINE bool aoc_next_facility(const uint8_t *octets, size_t length, size_t *place, size_t *from);

/* ------------------------------------------------------------------ the plain engine */

/* Each of these answers is found by reading the event list again; no account is used. `refusal` is AOC_REFUSED_LENGTHS for arrays
 * that are no event list, and then the rest is zero. */
typedef struct {
    uint16_t refusal;
    aoc_outcome outcome;
} aoc_plain_outcome_answer;

typedef struct {
    uint16_t refusal;
    uint16_t phase;             /* aoc_phase */
} aoc_plain_phase_answer;

typedef struct {
    uint16_t refusal;
    aoc_pending pending;
} aoc_plain_pending_answer;

typedef struct {
    uint16_t refusal;
    aoc_marks marks;
} aoc_plain_marks_answer;

typedef struct {
    uint32_t refusal;
    aoc_charge charge;          /* kind AOC_CHARGE_NONE where there is none */
} aoc_plain_charge_answer;

typedef struct {
    uint32_t refusal;
    aoc_closing closing;
} aoc_plain_closing_answer;

/* Proved. Each is what an account answers that starts fresh and takes the events of the list in turn: the outcome of event
 * `event`, from 1 (zero for a number that is no event's); and after the last one the phase, the pending requests, the rate,
 * the running and the closing figure, and the marks. `numbers` is six times the rows. The time grows with the square of the
 * events; for an outcome it grows with the events before it. */
aoc_plain_outcome_answer aoc_plain_outcome(const uint16_t *rows, size_t numbers, const uint8_t *octets, size_t length, size_t event);
aoc_plain_phase_answer aoc_plain_phase(const uint16_t *rows, size_t numbers, const uint8_t *octets, size_t length);
aoc_plain_pending_answer aoc_plain_pending(const uint16_t *rows, size_t numbers, const uint8_t *octets, size_t length);
aoc_plain_charge_answer aoc_plain_rate(const uint16_t *rows, size_t numbers, const uint8_t *octets, size_t length);
aoc_plain_charge_answer aoc_plain_running(const uint16_t *rows, size_t numbers, const uint8_t *octets, size_t length);
aoc_plain_closing_answer aoc_plain_closing(const uint16_t *rows, size_t numbers, const uint8_t *octets, size_t length);
aoc_plain_marks_answer aoc_plain_marks(const uint16_t *rows, size_t numbers, const uint8_t *octets, size_t length);

/* ------------------------------------------------------------------ prices as doubles */

typedef struct {
    uint32_t refusal;           /* AOC_ACCEPTED, or a refusal: then the rest is zero */
    uint8_t is_free;            /* 1 for free: then the rest is zero */
    aoc_currency currency;      /* as received, spaces too */
    double thousandths;         /* exact */
    double quotient;            /* thousandths / 1000.0, rounded once */
} aoc_priced;

/* Proved. A closing figure for a screen that takes doubles. AOC_REFUSED_NO_CLOSING where its service is AOC_SERVICE_NONE, then
 * AOC_REFUSED_BAD_RECORD where the service is not D's or E's, or the charge is none or could not be written under that service,
 * then AOC_REFUSED_UNIT_LIST. So a trunk's figure in the private network's own currency, which has no octets, is
 * AOC_REFUSED_BAD_RECORD: what that currency is, the host has to know. */
aoc_priced aoc_price(aoc_closing closing);

/* ------------------------------------------------------------------ a switchboard */

/* A table of up to 64 calls by call reference, a number of 16 bits (aoc_call_key makes it). A reference is held from its accepted
 * Setup until the closing figure of the call has been collected. The table is the host's memory (95,488 octets: static or from the
 * heap rather than on a stack); a new one is all zeros. No answer depends on the slot in which a call is stored, and what other
 * calls do changes no answer but AOC_REFUSED_FULL. Any octets are a table, and each call of a function has one answer on them. */
enum { AOC_LIMIT_CALLS = 64 };

typedef struct {
    uint32_t keys[AOC_LIMIT_CALLS];     /* 0 where the place is free, else one more than the reference */
    aoc_account calls[AOC_LIMIT_CALLS]; /* zeros where the place is free */
} aoc_board;

/* Inline, computes. A table with no call: all zeros, as `static aoc_board board;` and calloc give it too. */
AOC_INLINE void aoc_board_clear(aoc_board *board);

/* Proved. An event of a reference; `octets` are those of a component, none with another event. A Setup is AOC_REFUSED_IN_USE,
 * then AOC_REFUSED_FULL, then as on a fresh account: accepted, or AOC_REFUSED_BAD_SETUP. Any other event is
 * AOC_REFUSED_NOT_HELD, or what aoc_step answers on the call's own account. A refusal leaves the table unchanged; otherwise the
 * octets of other calls are unchanged. */
AOC_MUST_USE
aoc_outcome aoc_board_event(aoc_board *board, uint16_t reference, aoc_event event, const uint8_t *octets, size_t length);

/* Inline, over a proved function. Takes one event as aoc_board_event does, and fills its row, as aoc_take does. */
AOC_MUST_USE
AOC_INLINE aoc_outcome aoc_board_take(aoc_board *board, uint16_t reference, aoc_event event, const uint8_t *octets, size_t length,
                                      uint16_t *row);

/* Inline, computes: it cuts the list into its events and passes each to aoc_board_event. Gives a board the events of a call's list
 * in turn: a host stores the list of each call over a restart, and this puts one list after another on a new board. The account
 * is then aoc_replay's; after a list whose Setup was not accepted nothing is held. AOC_REFUSED_LENGTHS for arrays that are no
 * event list, then AOC_REFUSED_IN_USE where the reference is held, then AOC_REFUSED_FULL: the board is then unchanged. */
AOC_MUST_USE
AOC_INLINE aoc_refusal aoc_board_replay(aoc_board *board, uint16_t reference, const uint16_t *rows, size_t numbers,
                                        const uint8_t *octets, size_t length);

typedef struct {
    uint32_t refusal;    /* AOC_ACCEPTED, AOC_REFUSED_NOT_HELD or AOC_REFUSED_WRONG_PHASE */
    aoc_closing closing; /* as aoc_closing_of gives it; AOC_SERVICE_NONE and zeros where there is none, and on refusal */
} aoc_collected;

/* Proved. The closing figure of a call that has ended, or its lack; the reference is then free for another call. Before the end
 * AOC_REFUSED_WRONG_PHASE, and the table is unchanged. */
AOC_MUST_USE
aoc_collected aoc_board_collect(aoc_board *board, uint16_t reference);

typedef struct {
    uint32_t refusal;    /* AOC_ACCEPTED or AOC_REFUSED_NOT_HELD */
    aoc_account account; /* a copy of the call's account, from which aoc_rate_of and its like read; zeros on refusal */
} aoc_viewed;

/* Proved. What a reference holds. Nothing is changed. */
aoc_viewed aoc_board_view(const aoc_board *board, uint16_t reference);

/* ------------------------------------------------------------------ whether the exchange kept the rules */

/* The rules that an exchange has to keep. 1 to 3 concern the charges during the call (D's); 1 and 3 also those that were not
 * counted. Counted means outcome AOC_OUTCOME_NEW_RUNNING or AOC_OUTCOME_FINAL. */
#define AOC_RULES(ROW)                                                                                 \
    ROW(AOC_RULE_KEPT, 0, "all rules kept")                                                            \
    ROW(AOC_RULE_PLACE, 1, "an amount out of place: subtotals while connected, totals while clearing") \
    ROW(AOC_RULE_FALL, 2, "an amount below the last one in the same currency")                         \
    ROW(AOC_RULE_FREE, 3, "an amount after the call was told free of charge")                          \
    ROW(AOC_RULE_FINAL, 4, "a final that differs from the first")

typedef enum { AOC_RULES(AOC_ROW_NAME) } aoc_rule;

typedef struct {
    uint32_t refusal;           /* AOC_REFUSED_LENGTHS for arrays that are no event list, and then the rest is 0;
                                 * AOC_REFUSED_IN_LIST with the first event that the account refuses, and no rule */
    uint32_t rule;              /* aoc_rule: the first, in the order above, that the event breaks */
    uint64_t event;             /* the first event that breaks a rule, from 1; 0 for none */
} aoc_fault_answer;

/* Proved. For a call that starts with no event and has the events of the list: whether the exchange kept the rules. A list with a
 * refused event is not checked: aoc_fault_of_accepted leaves such events out. The time is at most quadratic in the list: linear
 * while its amounts are in one or two currencies. With three or more it reads the list again for each amount, and the sender
 * chooses the currencies.
 * THE LIST IS THE HOST'S, AND SO ARE ITS MISTAKES. A DISCONNECT's components that were given before aoc_clear break AOC_RULE_PLACE
 * here, though the exchange kept it: take a call's events from aoc_message_events or aoc_trace_events, which have the right order.
 * An event that was dropped from a list is not checked: an amount out of phase that is left out is evidence lost.
 * AOC_RULE_FALL also applies to a total of zero that follows a free mark: EUR 500, free, a total of EUR 0 literally breaks it,
 * though ETS 300 182-1 has the network send that zero. */
aoc_fault_answer aoc_fault(const uint16_t *rows, size_t numbers, const uint8_t *octets, size_t length);

/* Inline, computes: it cuts the list into its events and passes each to aoc_step. The list without its refused events, written as
 * aoc_trace_events writes one; the others have the outcomes that they had. AOC_REFUSED_LENGTHS for arrays that are no event list,
 * then AOC_REFUSED_NO_ROOM for less room than the list's `numbers` and `length`; the buffers are then unchanged. `message` is 0. */
AOC_MUST_USE
AOC_INLINE aoc_trace_answer aoc_accepted_events(const uint16_t *rows, size_t numbers, const uint8_t *octets, size_t length,
                                                uint16_t *kept, size_t row_room, uint8_t *out, size_t out_room);

/* Inline, computes, over aoc_accepted_events and aoc_fault. As aoc_fault, for a list that may have refused events: they are left
 * out, but `event` counts them. The buffers are filled as aoc_accepted_events fills them, with the same refusals. */
AOC_MUST_USE
AOC_INLINE aoc_fault_answer aoc_fault_of_accepted(const uint16_t *rows, size_t numbers, const uint8_t *octets, size_t length,
                                                  uint16_t *kept, size_t row_room, uint8_t *out, size_t out_room);

/* ------------------------------------------------------------------ a month's figures */

/* A currency of a month, as first received; two that differ in trailing spaces alone are one. */
typedef struct {
    aoc_currency currency;
    uint8_t unused;             /* 0 */
    uint32_t calls;
    uint64_t sum;               /* in thousandths, exact */
} aoc_month_currency;

/* The totals of the closing figures that were added. Begin with aoc_month_empty. */
typedef struct {
    uint32_t added;             /* how many figures, at most AOC_LIMIT_MONTH_FIGURES */
    uint32_t count;             /* of currencies, at most AOC_LIMIT_MONTH_CURRENCIES; the rows past it are zero */
    uint32_t absent;            /* entries of units that were not available: in no sum */
    uint32_t free_calls;
    uint64_t units[AOC_MONTH_TYPES];    /* the sum of numbers for each type, 0 for none */
    aoc_month_currency rows[AOC_LIMIT_MONTH_CURRENCIES];    /* in order of first appearance */
    uint32_t table[2][AOC_MONTH_BILLINGS];      /* how many figures: D's, then E's, by billing */
} aoc_month;

typedef struct {
    uint64_t refusal;           /* AOC_ACCEPTED, or a refusal: then the month is unchanged */
    aoc_month month;
} aoc_month_added;

/* Proved. A month without figures. */
aoc_month aoc_month_empty(void);

/* Proved. Adds one closing figure. AOC_REFUSED_BAD_RECORD where it is none or out of range, as for aoc_price (a currency of no
 * octets too), then AOC_REFUSED_MONTH_FULL, then AOC_REFUSED_CURRENCIES_FULL for money in a seventeenth currency: such a figure
 * is not added. */
AOC_MUST_USE
aoc_month_added aoc_month_add(aoc_month month, aoc_closing closing);

/* Inline, over a proved function. The same on a month in the host's memory. It returns the refusal. */
AOC_MUST_USE
AOC_INLINE aoc_refusal aoc_month_post(aoc_month *month, const aoc_closing *closing);

/* Inline, looks into a month, whatever it holds: how many rows there are to be read; the row at an index, zeros past them; the sum
 * of a type of units; the figures of a service and a billing. 0 for a type, service or billing that has no place. */
AOC_INLINE size_t aoc_month_rows(const aoc_month *month);
AOC_INLINE aoc_month_currency aoc_month_row(const aoc_month *month, size_t index);
AOC_INLINE uint64_t aoc_month_units(const aoc_month *month, size_t type);
AOC_INLINE uint32_t aoc_month_place(const aoc_month *month, uint32_t service, uint32_t billing);

#include "aoc_parts.h"

#ifdef __cplusplus
}
#endif

#endif
