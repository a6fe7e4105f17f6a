/* Words for the numbers of aoc.h, and a charge as readable text. All of it is inline C; aoc.h says what that means. It allocates
 * nothing, uses no locale and none of <stdio.h>, and reads no further than a charge's arrays, whatever the charge holds. */
#ifndef AOC_TEXT_H
#define AOC_TEXT_H

#include "aoc.h"

#ifdef __cplusplus
extern "C" {
#endif

/* Inline, computes. The words of a number's row in aoc.h; for a number that has no row there, words that say so. Never null. */
AOC_INLINE const char *aoc_refusal_text(uint32_t refusal)
{
    switch (refusal) {
    case AOC_ACCEPTED: return "accepted";
        AOC_REFUSALS(AOC_ROW_WORDS)
    default: return "no refusal of this library";
    }
}

/* Of an outcome's `number`: of a refusal too. */
AOC_INLINE const char *aoc_outcome_text(uint32_t number)
{
    switch (number) {
        AOC_OUTCOMES(AOC_ROW_WORDS)
    default: return aoc_refusal_text(number);
    }
}

AOC_INLINE const char *aoc_phase_text(uint32_t phase)
{
    switch (phase) {
        AOC_PHASES(AOC_ROW_WORDS)
    default: return "no phase of this library";
    }
}

AOC_INLINE const char *aoc_reason_text(uint32_t reason)
{
    switch (reason) {
        AOC_REASONS(AOC_ROW_WORDS)
    default: return "no reason of this library";
    }
}

AOC_INLINE const char *aoc_rule_text(uint32_t rule)
{
    switch (rule) {
        AOC_RULES(AOC_ROW_WORDS)
    default: return "no rule of this library";
    }
}

AOC_INLINE const char *aoc_billing_text(uint32_t billing)
{
    switch (billing) {
        AOC_BILLINGS(AOC_ROW_WORDS)
    default: return "unknown billing";
    }
}

AOC_INLINE const char *aoc_item_text(uint32_t item)
{
    switch (item) {
        AOC_ITEMS(AOC_ROW_WORDS)
    default: return "unknown item";
    }
}

AOC_INLINE const char *aoc_volume_text(uint32_t volume)
{
    switch (volume) {
        AOC_VOLUMES(AOC_ROW_WORDS)
    default: return "unknown volume";
    }
}

AOC_INLINE const char *aoc_plan_text(uint32_t plan)
{
    switch (plan) {
        AOC_PLANS(AOC_ROW_WORDS)
    default: return "unknown";
    }
}

AOC_INLINE const char *aoc_event_text(uint32_t kind)
{
    switch (kind) {
        AOC_EVENTS(AOC_ROW_WORDS)
    default: return "no event of this library";
    }
}

AOC_INLINE const char *aoc_service_text(uint32_t service)
{
    switch (service) {
        AOC_SERVICES(AOC_ROW_WORDS)
    default: return "no service of this library";
    }
}

AOC_INLINE const char *aoc_family_text(uint32_t family)
{
    switch (family) {
        AOC_FAMILIES(AOC_ROW_WORDS)
    default: return "no family of this library";
    }
}

AOC_INLINE const char *aoc_frame_text(uint32_t frame)
{
    switch (frame) {
        AOC_FRAMES(AOC_ROW_WORDS)
    default: return "no frame of this library";
    }
}

AOC_INLINE const char *aoc_operation_text(uint32_t operation)
{
    switch (operation) {
        AOC_OPERATIONS(AOC_ROW_WORDS)
    default: return "no operation of this library";
    }
}

AOC_INLINE const char *aoc_error_text(uint32_t error)
{
    switch (error) {
        AOC_ERRORS(AOC_ROW_WORDS)
    default: return "no error of this library";
    }
}

AOC_INLINE const char *aoc_interpretation_text(uint32_t interpretation)
{
    switch (interpretation) {
        AOC_INTERPRETATIONS(AOC_ROW_WORDS)
    default: return "no interpretation of this library";
    }
}

/* Inline, prints. Writes a charge into the buffer as a person reads it, with a null at its end, and never past the room. Where the
 * room is too short, as much as fits, with ".." as its last two characters, so that a cut figure does not look like a whole one. It
 * returns the length of the whole text without the null, so room must be more: AOC_LIMIT_CHARGE_TEXT is, for any charge. Examples:
 *   EUR 1.500, total, normal billing
 *   30 units of type 1, units not available of type 2
 *   free, of call 7
 *   communication EUR 0.060 per 1 min; call set-up EUR 0.100
 *   special arrangement 3
 *   own currency 0.500
 *   not available
 * A subtotal has no word: a charge of the end of a call has the same mark. In a currency, `?` is an octet that is no printed
 * character of ASCII; spaces at its end are not printed, since they make no other currency (the record has them). "own
 * currency" is a trunk's currency of no octets: the private network's own, whose name is not sent. "not available" is
 * AOC_CHARGE_NONE, of a component and of an account without such a figure: it does not say that a call costs nothing. */
AOC_INLINE size_t aoc_print_charge(char *buffer, size_t room, const aoc_charge *charge);

/* The same of a currency, and of an amount: EUR, and EUR 1.500, or own currency 0.500. A host that knows the type of its figure
 * needs no more. */
AOC_INLINE size_t aoc_print_currency(char *buffer, size_t room, const aoc_currency *currency);
AOC_INLINE size_t aoc_print_money(char *buffer, size_t room, const aoc_money *money);

/* ------------------------------------------------------------------ how it is written */

typedef struct {
    char *to;
    size_t room;
    size_t length;              /* of the whole text so far */
} aoc_text;

/* The last place of the room is aoc_end_text's, whatever was put there. */
static inline void aoc_put_character(aoc_text *text, char c)
{
    if (text->length < text->room)
        text->to[text->length] = c;
    text->length++;
}

static inline void aoc_put_words(aoc_text *text, const char *words)
{
    while (*words)
        aoc_put_character(text, *words++);
}

/* The null at the end; before it ".." where the text is cut. */
static inline size_t aoc_end_text(aoc_text *text)
{
    if (text->room)
        text->to[text->length < text->room ? text->length : text->room - 1] = 0;
    if (text->length >= text->room && text->room >= 2)
        text->to[text->room - 2] = '.';
    if (text->length >= text->room && text->room >= 3)
        text->to[text->room - 3] = '.';
    return text->length;
}

static inline void aoc_put_octets(aoc_text *text, const uint8_t *octets, size_t count, size_t most)
{
    for (size_t i = 0; i < count && i < most; i++)
        aoc_put_character(text, octets[i] >= 0x20 && octets[i] < 0x7F ? AOC_TO(char, octets[i]) : '?');
}

/* The last `places` digits come after a point. */
static inline void aoc_put_number(aoc_text *text, uint64_t number, unsigned places)
{
    char digits[24] = {0};
    unsigned count = 0;
    do {
        digits[count++] = AOC_TO(char, '0' + AOC_TO(char, number % 10));
        number /= 10;
    } while ((number || count <= places) && count < sizeof digits);
    while (count > 0) {
        if (count == places)
            aoc_put_character(text, '.');
        aoc_put_character(text, digits[--count]);
    }
}

static inline void aoc_put_signed(aoc_text *text, uint16_t id)
{
    if (id >= 0x8000) {
        aoc_put_character(text, '-');
        aoc_put_number(text, AOC_TO(uint64_t, 0x10000 - id), 0);
    } else {
        aoc_put_number(text, id, 0);
    }
}

/* A currency without the spaces at its end, and whether there is any of it. That of no octets is the private network's own. */
static inline bool aoc_put_currency(aoc_text *text, const aoc_currency *currency)
{
    size_t most = AOC_LIMIT_CURRENCY_OCTETS, count = currency->count < most ? currency->count : most;
    if (count == 0) {
        aoc_put_words(text, "own currency");
        return true;
    }
    while (count > 0 && currency->octets[count - 1] == ' ')
        count--;
    aoc_put_octets(text, currency->octets, count, AOC_LIMIT_CURRENCY_OCTETS);
    return count > 0;
}

static inline void aoc_put_money(aoc_text *text, const aoc_money *money)
{
    if (aoc_put_currency(text, &money->currency))
        aoc_put_character(text, ' ');
    aoc_put_number(text, aoc_thousandths(money->number, money->multiplier), 3);
}

static inline void aoc_put_units(aoc_text *text, const aoc_charge *charge)
{
    for (size_t i = 0; i < charge->count && i < AOC_LIMIT_UNITS; i++) {
        aoc_unit_entry unit = aoc_unit_at(charge, i);
        if (i)
            aoc_put_words(text, ", ");
        if (unit.known) {
            aoc_put_number(text, unit.number, 0);
            aoc_put_words(text, unit.number == 1 ? " unit" : " units");
        } else {
            aoc_put_words(text, "units not available");
        }
        if (unit.type) {
            aoc_put_words(text, " of type ");
            aoc_put_number(text, unit.type, 0);
        }
    }
}

static inline void aoc_put_time(aoc_text *text, uint32_t time, uint8_t scale)
{
    switch (scale) {
    case AOC_SCALE_HUNDREDTH_SECOND: aoc_put_number(text, time, 2); break;
    case AOC_SCALE_TENTH_SECOND: aoc_put_number(text, time, 1); break;
    case AOC_SCALE_TEN_SECONDS: aoc_put_number(text, AOC_TO(uint64_t, time) * 10, 0); break;
    default: aoc_put_number(text, time, 0); break;
    }
    switch (scale) {
    case AOC_SCALE_MINUTE: aoc_put_words(text, " min"); break;
    case AOC_SCALE_HOUR: aoc_put_words(text, " h"); break;
    case AOC_SCALE_DAY: aoc_put_words(text, " d"); break;
    default: aoc_put_words(text, " s"); break;
    }
}

static inline void aoc_put_duration(aoc_text *text, const aoc_rate_entry *rate)
{
    aoc_put_money(text, &rate->money);
    aoc_put_words(text, " per ");
    aoc_put_time(text, rate->time, rate->scale);
    if (rate->detail == AOC_DURATION_STEPS)
        aoc_put_words(text, " begun");
    if (rate->stepped) {
        aoc_put_words(text, " in steps of ");
        aoc_put_time(text, rate->step, rate->step_scale);
    }
}

static inline void aoc_put_rate(aoc_text *text, const aoc_rate_entry *rate)
{
    aoc_put_words(text, aoc_item_text(rate->item));
    aoc_put_character(text, ' ');
    switch (rate->kind) {
    case AOC_RATE_DURATION:
        aoc_put_duration(text, rate);
        break;
    case AOC_RATE_FLAT:
        aoc_put_money(text, &rate->money);
        break;
    case AOC_RATE_VOLUME:
        aoc_put_money(text, &rate->money);
        aoc_put_words(text, " per ");
        aoc_put_words(text, aoc_volume_text(rate->detail));
        break;
    case AOC_RATE_CODE:
        aoc_put_words(text, "special code ");
        aoc_put_number(text, rate->detail, 0);
        break;
    case AOC_RATE_FREE:
        aoc_put_words(text, "free");
        break;
    case AOC_RATE_FREE_FROM_BEGINNING:
        aoc_put_words(text, "free from the beginning");
        break;
    default:
        aoc_put_words(text, "not available");
        break;
    }
}

static inline void aoc_put_rates(aoc_text *text, const aoc_charge *charge)
{
    for (size_t i = 0; i < charge->count && i < AOC_LIMIT_RATES; i++) {
        aoc_rate_entry rate = aoc_rate_at(charge, i);
        if (i)
            aoc_put_words(text, "; ");
        aoc_put_rate(text, &rate);
    }
}

static inline void aoc_put_association(aoc_text *text, const aoc_association *association)
{
    switch (association->kind) {
    case AOC_ASSOCIATION_NONE:
        return;
    case AOC_ASSOCIATION_IDENTIFIER:
        aoc_put_words(text, ", of call ");
        aoc_put_signed(text, association->id);
        return;
    case AOC_ASSOCIATION_PLANNED_NUMBER:
        aoc_put_words(text, ", of ");
        aoc_put_words(text, aoc_plan_text(association->plan));
        aoc_put_words(text, " number ");
        break;
    case AOC_ASSOCIATION_PRIVATE_NUMBER:
        aoc_put_words(text, ", of private number ");
        break;
    default:
        aoc_put_words(text, ", of number ");
        break;
    }
    aoc_put_octets(text, association->digits, association->count, AOC_LIMIT_DIGITS);
}

AOC_INLINE size_t aoc_print_charge(char *buffer, size_t room, const aoc_charge *charge)
{
    aoc_text text = {buffer, room, 0};
    switch (charge->kind) {
    case AOC_CHARGE_FREE:
        aoc_put_words(&text, "free");
        break;
    case AOC_CHARGE_MONEY:
        aoc_put_money(&text, &charge->money);
        break;
    case AOC_CHARGE_UNITS:
        aoc_put_units(&text, charge);
        break;
    case AOC_CHARGE_RATES:
        aoc_put_rates(&text, charge);
        break;
    case AOC_CHARGE_ARRANGEMENT:
        aoc_put_words(&text, "special arrangement ");
        aoc_put_number(&text, charge->arrangement, 0);
        break;
    case AOC_CHARGE_NONE:
        aoc_put_words(&text, "not available");
        break;
    default:
        aoc_put_words(&text, "a charge of no known kind");
        break;
    }
    if (charge->total)
        aoc_put_words(&text, ", total");
    if (charge->billed) {
        aoc_put_words(&text, ", ");
        aoc_put_words(&text, aoc_billing_text(charge->billing));
    }
    aoc_put_association(&text, &charge->association);
    return aoc_end_text(&text);
}

AOC_INLINE size_t aoc_print_currency(char *buffer, size_t room, const aoc_currency *currency)
{
    aoc_text text = {buffer, room, 0};
    aoc_put_currency(&text, currency);
    return aoc_end_text(&text);
}

AOC_INLINE size_t aoc_print_money(char *buffer, size_t room, const aoc_money *money)
{
    aoc_text text = {buffer, room, 0};
    aoc_put_money(&text, money);
    return aoc_end_text(&text);
}

#ifdef __cplusplus
}
#endif

#endif
