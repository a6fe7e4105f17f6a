/* What the analysis of the headers' inline C (tests/eva.sh) takes the library's exports to be: of each one what the host owes, what
 * it may write, and the ranges that its Rattle contract gives (crates/aoc/src/lib.rt, by the definitions of crates/NAME/specs). A
 * theorem is named where a range is not in the definition itself. No clause may promise more than that: a wrong one would hide a fault.
 *
 * A new export: put its prototype here as the header has it, and a contract in front. tests/eva.sh fails where one is missing. */
#include "aoc.h"

/* Octets or numbers to be read, memory to be written; with length 0 the pointer may be null. What is written overlaps nothing else. */
#define LENT(p, n) ((n) == 0 || \valid_read((p) + (0 .. (n) - 1)) && \initialized((p) + (0 .. (n) - 1)))
#define LENT_TO(p, n) ((n) == 0 || \valid((p) + (0 .. (n) - 1)))
#define APART(p, n, q, m) ((n) == 0 || (m) == 0 || \separated((p) + (0 .. (n) - 1), (q) + (0 .. (m) - 1)))

/* A record's parts and a trunk's: the pointers, and all that they point to. */
#define LINE_PARTS front, figure, numbers, rows
#define TRUNK_PARTS trunk_front, extension, trunk_figure, trunk_numbers, trunk_rows
#define LINE (*front)[0 .. 7], (*figure)[0 .. 47], (*numbers)[0 .. 31], (*rows)[0 .. 191]
#define TRUNK (*trunk_front)[0 .. 47], (*extension)[0 .. 243], (*trunk_figure)[0 .. 47], (*trunk_numbers)[0 .. 31], (*trunk_rows)[0 .. 191]
#define LINE_FILLED                                                                                    \
    (\initialized(&(*front)[0 .. 7]) && \initialized(&(*figure)[0 .. 47]) &&                           \
     \initialized(&(*numbers)[0 .. 31]) && \initialized(&(*rows)[0 .. 191]))
#define TRUNK_FILLED                                                                                   \
    (\initialized(&(*trunk_front)[0 .. 47]) && \initialized(&(*extension)[0 .. 243]) &&                       \
     \initialized(&(*trunk_figure)[0 .. 47]) && \initialized(&(*trunk_numbers)[0 .. 31]) &&            \
     \initialized(&(*trunk_rows)[0 .. 191]))
#define LINE_TO (\valid(front) && \valid(figure) && \valid(numbers) && \valid(rows))
#define TRUNK_TO                                                                                       \
    (\valid(trunk_front) && \valid(extension) && \valid(trunk_figure) && \valid(trunk_numbers) && \valid(trunk_rows))
#define LINE_FROM (\valid_read(front) && \valid_read(figure) && \valid_read(numbers) && \valid_read(rows) && LINE_FILLED)
#define TRUNK_FROM                                                                                     \
    (\valid_read(trunk_front) && \valid_read(extension) && \valid_read(trunk_figure) && \valid_read(trunk_numbers) && \
     \valid_read(trunk_rows) && TRUNK_FILLED)

/* ------------------------------------------------------------------ the version, the layout's number */

/*@ assigns \result \from \nothing;
    ensures \result == AOC_VERSION; */
uint32_t aoc_version(void);

/*@ assigns \result \from \nothing;
    ensures \result == 2; */
uint32_t aoc_layout_5(void);

/* ------------------------------------------------------------------ components */

/* `answers`, `offset_inside`, `offset_small` (types/proofs/Theorems.antt); readOf fixes every octet of the parts */
/*@ requires octets: LENT(octets, length);
    requires parts: LINE_TO && \separated(LINE_PARTS);
    requires apart: length == 0 || \separated(octets + (0 .. length - 1), LINE_PARTS);
    assigns \result, LINE \from octets[0 .. length - 1], length;
    ensures filled: LINE_FILLED;
    ensures \result.refusal <= 8 || 40 <= \result.refusal <= 45;
    ensures \result.offset <= 254 && \result.offset <= length; */
aoc_refusal_at aoc_read_into(const uint8_t *octets, size_t length, uint8_t (*front)[8], uint8_t (*figure)[48],
                             uint32_t (*numbers)[32], uint8_t (*rows)[192]);

/* `one_of_four` (element_pass/proofs/Through.antt), and `answers` */
/*@ requires octets: LENT(octets, length);
    requires parts: LINE_TO && \separated(LINE_PARTS);
    requires apart: length == 0 || \separated(octets + (0 .. length - 1), LINE_PARTS);
    assigns \result, LINE \from octets[0 .. length - 1], length, place;
    ensures filled: LINE_FILLED;
    ensures \result.after == 0 || place < \result.after <= length;
    ensures \result.ended <= 1;
    ensures \result.answer.refusal <= 17 || 40 <= \result.answer.refusal <= 45; */
aoc_next_answer aoc_next_into(const uint8_t *octets, size_t length, size_t place, uint8_t (*front)[8], uint8_t (*figure)[48],
                              uint32_t (*numbers)[32], uint8_t (*rows)[192]);

/* write_of */
/*@ requires lists: \valid_read(numbers) && \valid_read(rows) && \initialized(&(*numbers)[0 .. 31]) && \initialized(&(*rows)[0 .. 191]);
    requires figure: \valid_read(figure) && \initialized(&(*figure)[0 .. 47]);
    requires buffer: LENT_TO(buffer, room);
    requires apart: room == 0 || \separated(buffer + (0 .. room - 1), figure, numbers, rows);
    assigns \result, buffer[0 .. room - 1]
        \from front, (*figure)[0 .. 47], (*numbers)[0 .. 31], (*rows)[0 .. 191], room, buffer[0 .. room - 1];
    ensures \result.refusal == 0 || 10 <= \result.refusal <= 12;
    ensures \result.count <= 254 && \result.count <= room; */
aoc_written aoc_write_from(aoc_front front, const uint8_t (*figure)[48], const uint32_t (*numbers)[32],
                           const uint8_t (*rows)[192], uint8_t *buffer, size_t room);

/* `replies`, `only_12` (reply/proofs/Replies.antt) */
/*@ requires octets: LENT(octets, length);
    requires buffer: LENT_TO(buffer, room);
    requires apart: APART(octets, length, buffer, room);
    assigns \result, buffer[0 .. room - 1] \from octets[0 .. length - 1], length, room, buffer[0 .. room - 1];
    ensures \result.refusal == 0 || \result.refusal == 12;
    ensures \result.count <= 9 && \result.count <= room; */
aoc_written aoc_reply(const uint8_t *octets, size_t length, uint8_t *buffer, size_t room);

/* element_into */
/*@ requires octets: LENT(octets, length);
    requires buffer: LENT_TO(buffer, room);
    requires apart: APART(octets, length, buffer, room);
    assigns \result, buffer[0 .. room - 1] \from octets[0 .. length - 1], length, room, buffer[0 .. room - 1];
    ensures \result.refusal == 0 || \result.refusal == 12 || \result.refusal == 15;
    ensures \result.count <= 257 && \result.count <= room; */
aoc_written aoc_write_element(const uint8_t *octets, size_t length, uint8_t *buffer, size_t room);

/* element_by */
/*@ requires octets: LENT(octets, length);
    requires buffer: LENT_TO(buffer, room);
    requires apart: APART(octets, length, buffer, room);
    assigns \result, buffer[0 .. room - 1] \from profile, octets[0 .. length - 1], length, room, buffer[0 .. room - 1];
    ensures \result.refusal == 0 || \result.refusal == 12 || \result.refusal == 15 || \result.refusal == 17;
    ensures \result.count <= 257 && \result.count <= room; */
aoc_written aoc_write_element_by(uint8_t profile, const uint8_t *octets, size_t length, uint8_t *buffer, size_t room);

/* ------------------------------------------------------------------ by their profile octet */

/* readBy, which fixes every octet of the parts (`spare` the four that hold nothing); `answers`, and `refusal`
 * (trunk_types/proofs/Theorems.antt) */
/*@ requires octets: LENT(octets, length);
    requires parts: LINE_TO && TRUNK_TO && \separated(LINE_PARTS, TRUNK_PARTS);
    requires apart: length == 0 || \separated(octets + (0 .. length - 1), LINE_PARTS, TRUNK_PARTS);
    assigns \result, LINE, TRUNK \from profile, octets[0 .. length - 1], length;
    ensures filled: LINE_FILLED && TRUNK_FILLED;
    ensures \result.refusal <= 8 || \result.refusal == 17 || 40 <= \result.refusal <= 45;
    ensures \result.family <= 2; */
aoc_judged aoc_read_by_into(uint8_t profile, const uint8_t *octets, size_t length, uint8_t (*front)[8], uint8_t (*figure)[48],
                            uint32_t (*numbers)[32], uint8_t (*rows)[192], uint8_t (*trunk_front)[48], uint8_t (*extension)[244],
                            uint8_t (*trunk_figure)[48], uint32_t (*trunk_numbers)[32], uint8_t (*trunk_rows)[192]);

/* `one_of_four` (element_pass/proofs/Through.antt), `answers` and `refusal` */
/*@ requires octets: LENT(octets, length);
    requires parts: LINE_TO && TRUNK_TO && \separated(LINE_PARTS, TRUNK_PARTS);
    requires apart: length == 0 || \separated(octets + (0 .. length - 1), LINE_PARTS, TRUNK_PARTS);
    assigns \result, LINE, TRUNK \from octets[0 .. length - 1], length, place;
    ensures filled: LINE_FILLED && TRUNK_FILLED;
    ensures \result.after == 0 || place < \result.after <= length;
    ensures \result.ended <= 1 && \result.answer.family <= 2;
    ensures \result.answer.refusal <= 17 || 40 <= \result.answer.refusal <= 45; */
aoc_next_by_answer aoc_next_by_into(const uint8_t *octets, size_t length, size_t place, uint8_t (*front)[8], uint8_t (*figure)[48],
                                    uint32_t (*numbers)[32], uint8_t (*rows)[192], uint8_t (*trunk_front)[48], uint8_t (*extension)[244],
                                    uint8_t (*trunk_figure)[48], uint32_t (*trunk_numbers)[32], uint8_t (*trunk_rows)[192]);

/* write_by */
/*@ requires parts: LINE_FROM && TRUNK_FROM;
    requires buffer: LENT_TO(buffer, room);
    requires apart: room == 0 || \separated(buffer + (0 .. room - 1), LINE_PARTS, TRUNK_PARTS);
    assigns \result, buffer[0 .. room - 1] \from profile, LINE, TRUNK, room, buffer[0 .. room - 1];
    ensures \result.refusal == 0 || 10 <= \result.refusal <= 12 || \result.refusal == 17;
    ensures \result.count <= 254 && \result.count <= room; */
aoc_written aoc_write_by_from(uint8_t profile, const uint8_t (*front)[8], const uint8_t (*figure)[48], const uint32_t (*numbers)[32],
                              const uint8_t (*rows)[192], const uint8_t (*trunk_front)[48], const uint8_t (*extension)[244],
                              const uint8_t (*trunk_figure)[48], const uint32_t (*trunk_numbers)[32],
                              const uint8_t (*trunk_rows)[192], uint8_t *buffer, size_t room);

/* reply_profile, with `given_12` (reply/proofs/Replies.antt); a reply of any family is written by write_of */
/*@ requires octets: LENT(octets, length);
    requires buffer: LENT_TO(buffer, room);
    requires apart: APART(octets, length, buffer, room);
    assigns \result, buffer[0 .. room - 1] \from profile, octets[0 .. length - 1], length, room, buffer[0 .. room - 1];
    ensures \result.refusal == 0 || 10 <= \result.refusal <= 12 || \result.refusal == 17;
    ensures \result.count <= 254 && \result.count <= room; */
aoc_written aoc_reply_by(uint8_t profile, const uint8_t *octets, size_t length, uint8_t *buffer, size_t room);

/* ------------------------------------------------------------------ values */

/* `product`, `bounded`; powers */
/*@ assigns \result \from number, multiplier;
    ensures \result <= number * 1000000;
    ensures number <= 16777215 ==> \result <= 16777215000000;
    ensures multiplier > 6 ==> \result == 0; */
uint64_t aoc_thousandths(uint32_t number, uint8_t multiplier);

/* nextOf */
/*@ assigns \result \from id;
    ensures \result == (id + 1) % 65536; */
uint16_t aoc_next_identifier(uint16_t id);

/*@ assigns \result \from last;
    ensures \result.s == (last + 1) % 65536 && \result.d == (last + 2) % 65536 && \result.e == (last + 3) % 65536; */
aoc_identifiers aoc_three_identifiers(uint16_t last);

/* empty_set, with, has */
/*@ assigns \result \from \nothing;
    ensures \result.s == 0 && \result.d == 0 && \result.e == 0; */
aoc_services aoc_no_services(void);

/*@ assigns \result \from set, service;
    ensures \result.s == 1 || \result.s == set.s;
    ensures \result.d == 1 || \result.d == set.d;
    ensures \result.e == 1 || \result.e == set.e; */
aoc_services aoc_with_service(aoc_services set, uint8_t service);

/*@ assigns \result \from set, service;
    ensures \result == 0 || \result == 1;
    ensures service == 0 || service > 3 ==> \result == 0; */
bool aoc_has_service(aoc_services set, uint8_t service);

/* ------------------------------------------------------------------ one call's account */

/* fresh */
/*@ assigns \result \from \nothing;
    ensures \result.phase == 0; */
aoc_account aoc_fresh(void);

/* judge: the service of an outcome is none, S, D or E; `answers` for its number, an octet */
/*@ requires account: \valid(account) && \initialized(account);
    requires octets: LENT(octets, length);
    requires apart: length == 0 || \separated(octets + (0 .. length - 1), account);
    assigns \result, *account \from *account, event, octets[0 .. length - 1], length;
    ensures \result.number <= 45 && \result.service <= 3; */
aoc_outcome aoc_step(aoc_account *account, aoc_event event, const uint8_t *octets, size_t length);

/*@ requires account: \valid(account) && \initialized(account);
    assigns \result, *account \from *account, asked, ids;
    ensures \result.number <= 45 && \result.service <= 3; */
aoc_outcome aoc_setup(aoc_account *account, aoc_services asked, aoc_identifiers ids);

/*@ requires account: \valid(account) && \initialized(account);
    assigns \result, *account \from *account;
    ensures \result.number <= 45 && \result.service <= 3; */
aoc_outcome aoc_connect(aoc_account *account);

/*@ requires account: \valid(account) && \initialized(account);
    assigns \result, *account \from *account;
    ensures \result.number <= 45 && \result.service <= 3; */
aoc_outcome aoc_clear(aoc_account *account);

/*@ requires account: \valid(account) && \initialized(account);
    assigns \result, *account \from *account;
    ensures \result.number <= 45 && \result.service <= 3; */
aoc_outcome aoc_released(aoc_account *account);

/*@ requires account: \valid(account) && \initialized(account);
    requires octets: LENT(octets, length);
    requires apart: length == 0 || \separated(octets + (0 .. length - 1), account);
    assigns \result, *account \from *account, octets[0 .. length - 1], length;
    ensures \result.number <= 45 && \result.service <= 3; */
aoc_outcome aoc_component(aoc_account *account, const uint8_t *octets, size_t length);

/*@ requires account: \valid(account) && \initialized(account);
    assigns \result, *account \from *account;
    ensures \result.number <= 45 && \result.service <= 3; */
aoc_outcome aoc_suspend(aoc_account *account);

/*@ requires account: \valid(account) && \initialized(account);
    assigns \result, *account \from *account;
    ensures \result.number <= 45 && \result.service <= 3; */
aoc_outcome aoc_resume(aoc_account *account);

/* What is read off an account of any values is any value, but for closingOf's service. */
/*@ requires account: \valid_read(account) && \initialized(account);
    assigns \result \from *account; */
aoc_charge aoc_rate_of(const aoc_account *account);

/*@ requires account: \valid_read(account) && \initialized(account);
    assigns \result \from *account; */
aoc_charge aoc_running_of(const aoc_account *account);

/*@ requires account: \valid_read(account) && \initialized(account);
    assigns \result \from *account;
    ensures \result.service == 0 || \result.service == 2 || \result.service == 3; */
aoc_closing aoc_closing_of(const aoc_account *account);

/*@ requires account: \valid_read(account) && \initialized(account);
    assigns \result \from *account; */
aoc_marks aoc_marks_of(const aoc_account *account);

/*@ requires account: \valid_read(account) && \initialized(account);
    assigns \result \from *account;
    ensures \result.unused == 0; */
aoc_pending aoc_pending_of(const aoc_account *account);

/*@ requires account: \valid_read(account) && \initialized(account);
    assigns \result \from *account; */
uint8_t aoc_phase_of(const aoc_account *account);

/* ------------------------------------------------------------------ event lists, traces */

/* why_of */
/*@ requires rows: LENT(rows, numbers);
    requires octets: LENT(octets, length);
    assigns \result \from rows[0 .. numbers - 1], numbers, octets[0 .. length - 1], length;
    ensures \result.refusal == 0 || \result.refusal == 48;
    ensures \result.reason <= 7; */
aoc_why_answer aoc_why(const uint16_t *rows, size_t numbers, const uint8_t *octets, size_t length);

/* laidOf */
/*@ requires pairs: LENT(pairs, numbers);
    requires octets: LENT(octets, length);
    requires rows: LENT_TO(rows, row_room);
    requires out: LENT_TO(out, out_room);
    requires rows_apart: APART(rows, row_room, pairs, numbers) && APART(rows, row_room, octets, length);
    requires out_apart: APART(out, out_room, pairs, numbers) && APART(out, out_room, octets, length) && APART(out, out_room, rows, row_room);
    assigns \result, rows[0 .. row_room - 1], out[0 .. out_room - 1]
        \from pairs[0 .. numbers - 1], numbers, octets[0 .. length - 1], length, row_room, out_room, rows[0 .. row_room - 1],
              out[0 .. out_room - 1];
    ensures \result.refusal == 0 || \result.refusal == 12 || \result.refusal == 48 || \result.refusal == 49;
    ensures \result.events * 6 <= row_room && \result.octets <= out_room; */
aoc_trace_answer aoc_trace_events(const uint32_t *pairs, size_t numbers, const uint8_t *octets, size_t length, uint16_t *rows,
                                  size_t row_room, uint8_t *out, size_t out_room);

/* plain_outcome and its like; leads_to: a phase of a history is 0 to 5 */
/*@ requires rows: LENT(rows, numbers);
    requires octets: LENT(octets, length);
    assigns \result \from rows[0 .. numbers - 1], numbers, octets[0 .. length - 1], length, event;
    ensures \result.refusal == 0 || \result.refusal == 48;
    ensures \result.outcome.number <= 45 && \result.outcome.service <= 3; */
aoc_plain_outcome_answer aoc_plain_outcome(const uint16_t *rows, size_t numbers, const uint8_t *octets, size_t length, size_t event);

/*@ requires rows: LENT(rows, numbers);
    requires octets: LENT(octets, length);
    assigns \result \from rows[0 .. numbers - 1], numbers, octets[0 .. length - 1], length;
    ensures \result.refusal == 0 || \result.refusal == 48;
    ensures \result.phase <= 5; */
aoc_plain_phase_answer aoc_plain_phase(const uint16_t *rows, size_t numbers, const uint8_t *octets, size_t length);

/*@ requires rows: LENT(rows, numbers);
    requires octets: LENT(octets, length);
    assigns \result \from rows[0 .. numbers - 1], numbers, octets[0 .. length - 1], length;
    ensures \result.refusal == 0 || \result.refusal == 48;
    ensures \result.pending.unused == 0; */
aoc_plain_pending_answer aoc_plain_pending(const uint16_t *rows, size_t numbers, const uint8_t *octets, size_t length);

/*@ requires rows: LENT(rows, numbers);
    requires octets: LENT(octets, length);
    assigns \result \from rows[0 .. numbers - 1], numbers, octets[0 .. length - 1], length;
    ensures \result.refusal == 0 || \result.refusal == 48; */
aoc_plain_charge_answer aoc_plain_rate(const uint16_t *rows, size_t numbers, const uint8_t *octets, size_t length);

/*@ requires rows: LENT(rows, numbers);
    requires octets: LENT(octets, length);
    assigns \result \from rows[0 .. numbers - 1], numbers, octets[0 .. length - 1], length;
    ensures \result.refusal == 0 || \result.refusal == 48; */
aoc_plain_charge_answer aoc_plain_running(const uint16_t *rows, size_t numbers, const uint8_t *octets, size_t length);

/*@ requires rows: LENT(rows, numbers);
    requires octets: LENT(octets, length);
    assigns \result \from rows[0 .. numbers - 1], numbers, octets[0 .. length - 1], length;
    ensures \result.refusal == 0 || \result.refusal == 48;
    ensures \result.closing.service == 0 || \result.closing.service == 2 || \result.closing.service == 3; */
aoc_plain_closing_answer aoc_plain_closing(const uint16_t *rows, size_t numbers, const uint8_t *octets, size_t length);

/*@ requires rows: LENT(rows, numbers);
    requires octets: LENT(octets, length);
    assigns \result \from rows[0 .. numbers - 1], numbers, octets[0 .. length - 1], length;
    ensures \result.refusal == 0 || \result.refusal == 48; */
aoc_plain_marks_answer aoc_plain_marks(const uint16_t *rows, size_t numbers, const uint8_t *octets, size_t length);

/* fault_at */
/*@ requires rows: LENT(rows, numbers);
    requires octets: LENT(octets, length);
    assigns \result \from rows[0 .. numbers - 1], numbers, octets[0 .. length - 1], length;
    ensures \result.refusal == 0 || \result.refusal == 34 || \result.refusal == 48;
    ensures \result.rule <= 4; */
aoc_fault_answer aoc_fault(const uint16_t *rows, size_t numbers, const uint8_t *octets, size_t length);

/* ------------------------------------------------------------------ prices, a switchboard, a month */

/* price_of */
/*@ assigns \result \from closing;
    ensures \result.refusal == 0 || \result.refusal == 10 || \result.refusal == 38 || \result.refusal == 39;
    ensures \result.is_free <= 1; */
aoc_priced aoc_price(aoc_closing closing);

/* event_on: 35, 36, 37 beside what the step answers */
/*@ requires board: \valid(board) && \initialized(board);
    requires octets: LENT(octets, length);
    requires apart: length == 0 || \separated(octets + (0 .. length - 1), board);
    assigns \result, *board \from *board, reference, event, octets[0 .. length - 1], length;
    ensures \result.number <= 45 && \result.service <= 3; */
aoc_outcome aoc_board_event(aoc_board *board, uint16_t reference, aoc_event event, const uint8_t *octets, size_t length);

/* collect_on, view_on */
/*@ requires board: \valid(board) && \initialized(board);
    assigns \result, *board \from *board, reference;
    ensures \result.refusal == 0 || \result.refusal == 14 || \result.refusal == 37;
    ensures \result.closing.service == 0 || \result.closing.service == 2 || \result.closing.service == 3; */
aoc_collected aoc_board_collect(aoc_board *board, uint16_t reference);

/*@ requires board: \valid_read(board) && \initialized(board);
    assigns \result \from *board, reference;
    ensures \result.refusal == 0 || \result.refusal == 37; */
aoc_viewed aoc_board_view(const aoc_board *board, uint16_t reference);

/* empty_month */
/*@ assigns \result \from \nothing;
    ensures \result.added == 0 && \result.count == 0 && \result.absent == 0 && \result.free_calls == 0; */
aoc_month aoc_month_empty(void);

/* add_of: of a month of any values any values are left */
/*@ assigns \result \from month, closing;
    ensures \result.refusal == 0 || \result.refusal == 10 || \result.refusal == 46 || \result.refusal == 47; */
aoc_month_added aoc_month_add(aoc_month month, aoc_closing closing);
