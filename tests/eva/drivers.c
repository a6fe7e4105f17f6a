/* A driver for each inline function of the headers, for Frama-C's Eva (tests/eva.sh): it calls the function with any values in every
 * struct, number, pair of pointer and length, and room. Eva then follows the function for all of them at once, and tells of each
 * statement that could have undefined behaviour, and of each export that could be called against its contract (contracts.h).
 *
 * A new inline function NAME of the headers: write `static void drive_NAME(void)` here. tests/eva.sh makes the program that calls the
 * driver of each function that the headers mark AOC_INLINE, and fails where one is missing; of the other functions of the headers,
 * which those call, it asks that the analysis reaches them. An export that NAME calls needs a contract in contracts.h. */
#include "contracts.h"
#include "aoc_text.h"
#include "__fc_builtin.h"

/* ------------------------------------------------------------------ any values */

#define MANY 0x100000000        /* 4 GB: one more than 32 bits hold */
enum { ROWS = 10000000, LENGTHS = 20 };

static uint8_t memory[MANY];

static void any(void *to, size_t n)
{
    Frama_C_make_unknown(to, n);
}

#define ANY(object) any(&(object), sizeof(object))

static uint8_t any_8(void)
{
    return Frama_C_unsigned_char_interval(0, UINT8_MAX);
}

static uint16_t any_16(void)
{
    return Frama_C_unsigned_short_interval(0, UINT16_MAX);
}

static uint32_t any_32(void)
{
    return Frama_C_unsigned_int_interval(0, UINT32_MAX);
}

static size_t any_size(size_t most)
{
    return Frama_C_unsigned_long_interval(0, most);
}

/* What was lent to be filled is filled. */
static void filled(const void *from, size_t n)
{
    const uint8_t *octets = from;
    /*@ assert \initialized(octets + (0 .. n - 1)); */
}

#define FILLED(object) filled(&(object), sizeof(object))

/* What is made an aoc_refusal is a number of it, as C++ asks. */
static void refusal(aoc_refusal number)
{
    /*@ assert number <= AOC_REFUSED_FRAMING; */
}

/* With each pair of `octets` and `length`: null and 0; any length up to that of an array; and short ones, each at an array's end. */
#define SHORT_OCTETS(n, ...)                                                \
    {                                                                       \
        uint8_t lent[n];                                                    \
        const uint8_t *octets = lent;                                       \
        size_t length = n;                                                  \
        any(lent, n);                                                       \
        __VA_ARGS__                                                         \
    }
#define WITH_OCTETS(...)                                                    \
    do {                                                                    \
        any(memory, sizeof memory);                                         \
        {                                                                   \
            const uint8_t *octets = NULL;                                   \
            size_t length = 0;                                              \
            __VA_ARGS__                                                     \
        }                                                                   \
        {                                                                   \
            const uint8_t *octets = memory;                                 \
            size_t length = any_size(MANY);                                 \
            __VA_ARGS__                                                     \
        }                                                                   \
        {                                                                   \
            const uint8_t *octets = memory + MANY;                          \
            size_t length = 0;                                              \
            __VA_ARGS__                                                     \
        }                                                                   \
        SHORT_OCTETS(1, __VA_ARGS__)                                        \
        SHORT_OCTETS(2, __VA_ARGS__)                                        \
    } while (0)

/* Each short length by itself, at an array's end: for what Eva follows only where the length is one number. */
#define WITH_LENGTHS(...)                                                   \
    do {                                                                    \
        any(memory, sizeof memory);                                         \
        WITH_LENGTH(0, __VA_ARGS__)                                         \
        WITH_LENGTH(1, __VA_ARGS__)                                         \
        WITH_LENGTH(2, __VA_ARGS__)                                         \
        WITH_LENGTH(3, __VA_ARGS__)                                         \
        WITH_LENGTH(4, __VA_ARGS__)                                         \
        WITH_LENGTH(5, __VA_ARGS__)                                         \
        WITH_LENGTH(6, __VA_ARGS__)                                         \
        WITH_LENGTH(7, __VA_ARGS__)                                         \
        WITH_LENGTH(8, __VA_ARGS__)                                         \
        WITH_LENGTH(9, __VA_ARGS__)                                         \
        WITH_LENGTH(12, __VA_ARGS__)                                        \
    } while (0)
#define WITH_LENGTH(n, ...)                                                 \
    {                                                                       \
        const uint8_t *octets = memory + MANY - n;                          \
        size_t length = n;                                                  \
        __VA_ARGS__                                                         \
    }

/* The same of a `buffer` and its `room`, where nothing was stored. */
#define SHORT_ROOM(type, n, ...)                                            \
    {                                                                       \
        type lent[n], *buffer = lent;                                       \
        size_t room = n;                                                    \
        __VA_ARGS__                                                         \
    }
#define WITH_ROOM(type, most, ...)                                          \
    do {                                                                    \
        {                                                                   \
            type *buffer = NULL;                                            \
            size_t room = 0;                                                \
            __VA_ARGS__                                                     \
        }                                                                   \
        {                                                                   \
            type lent[most], *buffer = lent;                                \
            size_t room = any_size(most);                                   \
            __VA_ARGS__                                                     \
        }                                                                   \
        {                                                                   \
            type lent[1], *buffer = lent + 1;                               \
            size_t room = 0;                                                \
            __VA_ARGS__                                                     \
        }                                                                   \
        SHORT_ROOM(type, 1, __VA_ARGS__)                                    \
        SHORT_ROOM(type, 2, __VA_ARGS__)                                    \
        SHORT_ROOM(type, 3, __VA_ARGS__)                                    \
        SHORT_ROOM(type, 4, __VA_ARGS__)                                    \
    } while (0)

/* ------------------------------------------------------------------ components */

static void drive_aoc_read(void)
{
    WITH_OCTETS(aoc_answer answer; refusal(aoc_read(octets, length, &answer)); FILLED(answer););
}

static void drive_aoc_next(void)
{
    WITH_OCTETS(aoc_answer answer; size_t place = any_size(SIZE_MAX); aoc_next(octets, length, &place, &answer); FILLED(answer););
}

static void drive_aoc_read_by(void)
{
    WITH_OCTETS(aoc_either answer; refusal(aoc_read_by(any_8(), octets, length, &answer)); FILLED(answer););
}

static void drive_aoc_next_by(void)
{
    WITH_OCTETS(aoc_either answer; size_t place = any_size(SIZE_MAX); aoc_next_by(octets, length, &place, &answer); FILLED(answer););
}

static void drive_aoc_write(void)
{
    aoc_record record;
    ANY(record);
    WITH_ROOM(uint8_t, MANY, aoc_write(&record, buffer, room););
}

static void drive_aoc_write_by(void)
{
    aoc_either either;
    ANY(either);
    WITH_ROOM(uint8_t, MANY, aoc_write_by(any_8(), &either, buffer, room););
}

static void drive_aoc_request(void)
{
    WITH_ROOM(uint8_t, MANY, aoc_request(any_8(), any_16(), buffer, room););
}

static void drive_aoc_charge_request(void)
{
    WITH_OCTETS(uint8_t lent_room[300]; aoc_charge_request(any_16(), octets, length, lent_room, any_size(300)););
    uint8_t modes[AOC_LIMIT_MODES];
    ANY(modes);
    WITH_ROOM(uint8_t, MANY, aoc_charge_request(any_16(), modes, any_size(AOC_LIMIT_MODES), buffer, room););
}

static void drive_aoc_final_charge_request(void)
{
    WITH_ROOM(uint8_t, MANY, aoc_final_charge_request(any_16(), buffer, room););
}

static void drive_aoc_complete_request(void)
{
    aoc_association user;
    ANY(user);
    WITH_ROOM(uint8_t, MANY, aoc_complete_request(any_16(), &user, buffer, room););
}

static void drive_aoc_diversion_request(void)
{
    aoc_association user;
    ANY(user);
    WITH_ROOM(uint8_t, MANY, aoc_diversion_request(any_16(), &user, any_8(), buffer, room););
}

static void drive_aoc_is_for_exchange(void)
{
    aoc_either answer;
    ANY(answer);
    WITH_OCTETS(aoc_is_for_exchange(&answer, octets, length););
    WITH_LENGTHS(aoc_is_for_exchange(&answer, octets, length););
}

static void drive_aoc_interpretation_in(void)
{
    WITH_OCTETS(aoc_interpretation_in(octets, length););
    WITH_LENGTHS(aoc_interpretation_in(octets, length););
}

static void drive_aoc_interpretation_of(void)
{
    aoc_interpretation_of(any_8());
}

static void drive_aoc_write_front(void)
{
    WITH_ROOM(uint8_t, MANY, aoc_write_front(any_8(), buffer, room););
}

static void drive_aoc_write_trunk_element(void)
{
    WITH_OCTETS(uint8_t lent_room[300]; aoc_write_trunk_element(any_8(), octets, length, lent_room, any_size(300)););
    any(memory, sizeof memory);
    WITH_ROOM(uint8_t, MANY, aoc_write_trunk_element(any_8(), memory, any_size(MANY), buffer, room););
}

/* ------------------------------------------------------------------ values */

static void drive_aoc_is_refusal(void)
{
    aoc_is_refusal(any_32());
}

static void drive_aoc_unit_at(void)
{
    aoc_charge charge;
    ANY(charge);
    aoc_unit_at(&charge, any_size(SIZE_MAX));
}

static void drive_aoc_rate_at(void)
{
    aoc_charge charge;
    ANY(charge);
    aoc_rate_at(&charge, any_size(SIZE_MAX));
}

static void drive_aoc_identifier_of(void)
{
    aoc_identifiers ids;
    ANY(ids);
    aoc_identifier_of(ids, any_8());
}

static void drive_aoc_case_of(void)
{
    aoc_case_of(any_8());
}

/* ------------------------------------------------------------------ events and event lists */

static void drive_aoc_event_of(void)
{
    aoc_event event = aoc_event_of(any_8());
    FILLED(event);
}

static void drive_aoc_event_of_setup(void)
{
    aoc_services asked;
    aoc_identifiers ids;
    ANY(asked);
    ANY(ids);
    aoc_event event = aoc_event_of_setup(asked, ids);
    FILLED(event);
}

static void drive_aoc_row_of(void)
{
    aoc_event event;
    uint16_t row[AOC_ROW_NUMBERS];
    ANY(event);
    aoc_row_of(event, any_16(), row);
    FILLED(row);
}

static void drive_aoc_event_at(void)
{
    uint16_t row[AOC_ROW_NUMBERS];
    ANY(row);
    aoc_event event = aoc_event_at(row);
    FILLED(event);
}

static void drive_aoc_take(void)
{
    aoc_event event;
    ANY(event);
    WITH_OCTETS(aoc_account account; uint16_t row[AOC_ROW_NUMBERS]; ANY(account); aoc_take(&account, event, octets, length, row);
                FILLED(row););
}

/* A list of up to ten million events, any numbers in its rows, the last one not whole; and of up to 20 octets: each length by itself,
 * for which Eva goes through the values of `left` one by one (SPLITS of eva.py). */
static void drive_aoc_replay(void)
{
    uint16_t rows[AOC_ROW_NUMBERS * ROWS + 5];
    ANY(rows);
    size_t numbers = any_size(AOC_ROW_NUMBERS * ROWS + 5);
    aoc_account account;
    any(memory, sizeof memory);
    /*@ loop unroll 21; */
    for (size_t length = 0; length <= LENGTHS; length++) {
        refusal(aoc_replay(rows, numbers, memory + MANY - length, length, &account));
        FILLED(account);
        aoc_replay(NULL, 0, memory + MANY - length, length, &account);
        FILLED(account);
    }
    aoc_replay(rows, numbers, NULL, 0, &account);
    FILLED(account);
    aoc_replay(NULL, 0, NULL, 0, &account);
    FILLED(account);
}

/* Of lists without their refused events: up to three octets, and room that holds anything. */
static uint16_t list[AOC_ROW_NUMBERS * ROWS + 5], kept[AOC_ROW_NUMBERS * ROWS + 5];

#define WITH_LISTS(...)                                                     \
    do {                                                                    \
        any(memory, sizeof memory);                                         \
        ANY(list);                                                          \
        WITH_LIST(0, __VA_ARGS__)                                           \
        WITH_LIST(1, __VA_ARGS__)                                           \
        WITH_LIST(2, __VA_ARGS__)                                           \
        WITH_LIST(3, __VA_ARGS__)                                           \
    } while (0)
#define WITH_LIST(n, ...)                                                   \
    {                                                                       \
        uint8_t lent[n + 1], *out = lent + 1;                               \
        const uint8_t *octets = memory + MANY - n;                          \
        any(lent, sizeof lent);                                             \
        size_t length = n, out_room = any_size(n), row_room = any_size(AOC_ROW_NUMBERS * ROWS + 5);     \
        size_t numbers = any_size(AOC_ROW_NUMBERS * ROWS + 5);              \
        __VA_ARGS__                                                         \
    }

static void drive_aoc_accepted_events(void)
{
    aoc_accepted_events(NULL, 0, NULL, 0, NULL, 0, NULL, 0);
    WITH_LISTS(aoc_accepted_events(list, numbers, octets, length, kept, row_room, out, out_room););
}

static void drive_aoc_fault_of_accepted(void)
{
    aoc_fault_of_accepted(NULL, 0, NULL, 0, NULL, 0, NULL, 0);
    WITH_LISTS(aoc_fault_of_accepted(list, numbers, octets, length, kept, row_room, out, out_room););
}

/* ------------------------------------------------------------------ messages */

static void drive_aoc_message_events(void)
{
    WITH_OCTETS(uint16_t rows[60]; uint8_t out[10];
                aoc_message_events(any_32(), octets, length, rows, any_size(60), out, any_size(10));
                aoc_message_events(any_32(), octets, length, NULL, 0, NULL, 0););
}

static void drive_aoc_call_key(void)
{
    uint16_t key;
    WITH_OCTETS(aoc_call_key(any_32(), octets, length, &key););
    WITH_LENGTHS(aoc_call_key(any_32(), octets, length, &key););
}

static void drive_aoc_next_facility(void)
{
    WITH_OCTETS(size_t place = any_size(SIZE_MAX); size_t from; aoc_next_facility(octets, length, &place, &from););
    WITH_LENGTHS(size_t place = any_size(SIZE_MAX); size_t from; aoc_next_facility(octets, length, &place, &from););
}

/* ------------------------------------------------------------------ a switchboard, a month */

static void drive_aoc_board_take(void)
{
    static aoc_board board;
    aoc_event event;
    ANY(event);
    WITH_OCTETS(uint16_t row[AOC_ROW_NUMBERS]; ANY(board); aoc_board_take(&board, any_16(), event, octets, length, row); FILLED(row););
}

static void drive_aoc_board_replay(void)
{
    static aoc_board board;
    ANY(board);
    aoc_board_replay(&board, any_16(), NULL, 0, NULL, 0);
    ANY(list);
    WITH_LENGTHS(refusal(aoc_board_replay(&board, any_16(), list, any_size(AOC_ROW_NUMBERS * ROWS + 5), octets, length)););
}

static void drive_aoc_board_clear(void)
{
    aoc_board board;
    aoc_board_clear(&board);
    FILLED(board);
}

static void drive_aoc_month_post(void)
{
    aoc_month month;
    aoc_closing closing;
    ANY(month);
    ANY(closing);
    refusal(aoc_month_post(&month, &closing));
    FILLED(month);
}

static void drive_aoc_month_rows(void)
{
    aoc_month month;
    ANY(month);
    aoc_month_rows(&month);
}

static void drive_aoc_month_row(void)
{
    aoc_month month;
    ANY(month);
    aoc_month_currency row = aoc_month_row(&month, any_size(SIZE_MAX));
    FILLED(row);
}

static void drive_aoc_month_units(void)
{
    aoc_month month;
    ANY(month);
    aoc_month_units(&month, any_size(SIZE_MAX));
}

static void drive_aoc_month_place(void)
{
    aoc_month month;
    ANY(month);
    aoc_month_place(&month, any_32(), any_32());
}

/* ------------------------------------------------------------------ words: each is a string, never null */

#define WORDS(name)                                                         \
    static void drive_##name(void)                                          \
    {                                                                       \
        strlen(name(any_32()));                                             \
    }
WORDS(aoc_refusal_text)
WORDS(aoc_outcome_text)
WORDS(aoc_phase_text)
WORDS(aoc_reason_text)
WORDS(aoc_rule_text)
WORDS(aoc_billing_text)
WORDS(aoc_item_text)
WORDS(aoc_volume_text)
WORDS(aoc_plan_text)
WORDS(aoc_event_text)
WORDS(aoc_service_text)
WORDS(aoc_family_text)
WORDS(aoc_frame_text)
WORDS(aoc_operation_text)
WORDS(aoc_error_text)
WORDS(aoc_interpretation_text)

/* ------------------------------------------------------------------ printing */

static void drive_aoc_print_charge(void)
{
    aoc_charge charge;
    ANY(charge);
    WITH_ROOM(char, MANY, aoc_print_charge(buffer, room, &charge););
}

static void drive_aoc_print_currency(void)
{
    aoc_currency currency;
    ANY(currency);
    WITH_ROOM(char, MANY, aoc_print_currency(buffer, room, &currency););
}

static void drive_aoc_print_money(void)
{
    aoc_money money;
    ANY(money);
    WITH_ROOM(char, MANY, aoc_print_money(buffer, room, &money););
}
