/* The words of aoc_text.h, the entries of a charge's lists, and which numbers are refusals. */
#include "check.h"
#include "components.h"
#include "aoc_text.h"

enum { VALID = sizeof valid / sizeof *valid, LONG = 1024 };

static aoc_charge charge_of(const char *name)
{
    for (size_t i = 0; i < VALID; i++) {
        uint8_t octets[300];
        if (!strcmp(valid[i].name, name))
            return read_octets(octets, unhex(valid[i].hex, octets)).record.charge;
    }
    check(0, "no such component", name);
    return read_octets(NULL, 0).record.charge;
}

/* In every room: as much of the text as fits, with two points where it is cut, a null at its end, nothing past the room, and the
 * whole length as the answer. */
static void check_room(const aoc_charge *charge, const char *text, size_t length, size_t room, const char *of)
{
    char *buffer = (char *)make_room(room);
    size_t fits = room > length ? length : room ? room - 1 : 0, points = fits == length ? 0 : fits < 2 ? fits : 2;
    CHECK(aoc_print_charge(buffer, room, charge) == length, of);
    CHECK(all(buffer - GUARD, GUARD, MARK) && !memcmp(buffer, text, fits - points), of);
    CHECK(all(buffer + fits - points, points, '.'), of);
    CHECK(!room || (!buffer[fits] && all(buffer + fits + 1, room - fits - 1, MARK)), of);
}

static void check_printed(const aoc_charge *charge, const char *text, const char *of)
{
    size_t length = strlen(text);
    CHECK(aoc_print_charge(NULL, 0, charge) == length, text);
    for (size_t room = 0; room <= length + 2; room++)
        check_room(charge, text, length, room, of);
}

static void check_component(const char *name, const char *text)
{
    aoc_charge charge = charge_of(name);
    check_printed(&charge, text, name);
}

static void test_charges(void)
{
    check_component("request S", "not available");
    check_component("rates, not available", "not available");
    check_component("arrangement", "special arrangement 10");
    check_component("D amount, subtotal", "EUR 0.500");
    check_component("D amount, total, billed", "?UR 16777215000.000, total, credit card");
    check_component("D free", "free");
    check_component("D units, subtotal", "12 units, units not available, 0 units of type 16, units not available of type 1");
    check_component("D units, total, billed", "16777215 units, total, normal billing");
    check_component("E amount", "EUR 0.500");
    check_component("E amount, billed, by identifier", "EUR 0.500, call transfer, of call -32768");
    check_component("E amount, by number", "EUR 0.500, of number 0123456789 123456789");
    check_component("E free, by planned number", "free, of abbreviated number 7");
    check_component("E units", "12 units");
    check_component("E units, billed, by planned number",
                    "12 units of type 1, units not available of type 2, call forwarding unconditional, of unknown number 49 30 5550");
    check_component("E units free, by identifier", "free, of call 255");
    check_component("result, rates", "communication EUR 0.100");
    check_component("rates, every kind",
                    "communication EUR 16777215000.000 per 100 s begun in steps of 16777215 d; call attempt EURO 0.001 per 0.00 s; "
                    "call set-up ABCDEFGHIJ 128.000; user-to-user information ? 0.000 per message; "
                    "supplementary service special code 10; communication free; call attempt not available");

    aoc_charge one = charge_of("E units");
    one.unit_numbers[0] = 1;
    check_printed(&one, "1 unit", "one unit");
    aoc_charge money = charge_of("D amount, subtotal");
    money.money.number = 15;
    money.money.multiplier = AOC_MULTIPLIER_TENTH;
    money.total = AOC_TOTAL_YES;
    money.billed = 1;
    check_printed(&money, "EUR 1.500, total, normal billing", "the example of the header");
    aoc_charge rate = charge_of("result, rates");
    static const char *const times[] = {"0.07 s", "0.7 s", "7 s", "70 s", "7 min", "7 h", "7 d", "7 s"};
    for (uint8_t scale = 0; scale < 8; scale++) {
        char text[64] = "communication EUR 0.100 per ";
        rate.rates[0].kind = AOC_RATE_DURATION;
        rate.rates[0].scale = scale;
        rate.rate_numbers[0].time = 7;
        memcpy(text + strlen(text), times[scale], strlen(times[scale]) + 1);
        check_printed(&rate, text, "a time");
    }
}

/* What only a trunk's charge has. */
static void test_trunks(void)
{
    aoc_charge money = charge_of("D amount, subtotal"), rate = charge_of("result, rates");
    memset(&money.money.currency, 0, sizeof money.money.currency);
    money.association.kind = AOC_ASSOCIATION_PRIVATE_NUMBER;
    money.association.count = 2;
    memcpy(money.association.digits, "67", 2);
    check_printed(&money, "own currency 0.500, of private number 67", "the private network's currency, a private number");
    memset(&rate.rates[0].currency, 0, sizeof rate.rates[0].currency);
    check_printed(&rate, "communication own currency 0.100", "a rate in the private network's currency");
    aoc_charge none = charge_of("request S");
    none.association = money.association;
    check_printed(&none, "not available, of private number 67", "a final that is not available");
    none.kind = 6;
    check_printed(&none, "a charge of no known kind, of private number 67", "no kind");
    rate.rates[0].kind = AOC_RATE_FREE_FROM_BEGINNING;
    check_printed(&rate, "communication free from the beginning", "free from the beginning");
    CHECK(!strcmp(aoc_family_text(AOC_FAMILY_TRUNK), "a trunk between private exchanges (ECMA-212)"), "families");
    CHECK(strcmp(aoc_family_text(AOC_FAMILY_LINE), aoc_family_text(3)) && strcmp(aoc_family_text(0), aoc_family_text(3)), "families");
}

/* The longest texts that there are fit in the room that the header names: lists at their limits, numbers of ten digits. */
static void test_longest(void)
{
    static char text[1 << 16];
    aoc_charge charge;
    size_t longest = 0;
    for (unsigned turn = 0; turn < 4 * 256; turn++) {
        uint8_t small = (uint8_t)(turn / 4);
        memset(&charge, 0xFF, sizeof charge);
        charge.kind = turn & 1 ? AOC_CHARGE_UNITS : AOC_CHARGE_RATES;
        charge.billing = AOC_BILLING_FORWARDING_UNCONDITIONAL;
        charge.association.kind = AOC_ASSOCIATION_PLANNED_NUMBER;
        charge.association.plan = AOC_PLAN_NETWORK_SPECIFIC;
        for (size_t i = 0; turn & 1 && i < AOC_LIMIT_UNITS; i++)
            charge.units[i].known = (uint8_t)(turn & 2);
        for (size_t i = 0; !(turn & 1) && i < AOC_LIMIT_RATES; i++) {
            charge.rates[i].item = AOC_ITEM_USER_TO_USER;
            charge.rates[i].kind = AOC_RATE_DURATION;
            charge.rates[i].detail = AOC_DURATION_STEPS;
            charge.rates[i].scale = charge.rates[i].step_scale = small % 8;
            charge.rates[i].multiplier = small / 8 % 8;
            charge.rates[i].currency.count = turn & 2 ? 0 : 255;        /* the private network's own has the most words */
        }
        size_t length = aoc_print_charge(text, sizeof text, &charge);
        CHECK(length < AOC_LIMIT_CHARGE_TEXT, "the longest text");
        longest = length > longest ? length : longest;
    }
    CHECK(longest > 1000, "a long text");
}

/* A charge of any octets, at the end of what may be read: it is printed within the room, and the lists are not left. */
static void test_nonsense(void)
{
    static char text[1 << 16];
    for (int turn = 0; turn < 20000; turn++) {
        uint8_t octets[sizeof(aoc_charge)];
        for (size_t i = 0; i < sizeof octets; i++)
            octets[i] = (uint8_t)(chance() >> 20);
        aoc_charge *charge = (aoc_charge *)(edges[0] - sizeof octets);
        memcpy(charge, octets, sizeof octets);
        charge->kind = (uint8_t)(turn % 8);
        size_t length = aoc_print_charge(text, sizeof text, charge);
        CHECK(length < AOC_LIMIT_CHARGE_TEXT && strlen(text) == length, "a charge of any octets");
        check_room(charge, text, length, chance() % (length + 2), "a charge of any octets");
        for (size_t i = 0; i < 300; i++) {
            aoc_unit_entry unit = aoc_unit_at(charge, i);
            aoc_rate_entry entry = aoc_rate_at(charge, i);
            int has_unit = charge->kind == AOC_CHARGE_UNITS && i < charge->count && i < 32;
            int has_rate = charge->kind == AOC_CHARGE_RATES && i < charge->count && i < 10;
            if (has_unit)
                CHECK(unit.known == charge->octets[2 * i] && unit.type == charge->octets[2 * i + 1] &&
                          unit.number == charge->numbers[i], "a unit");
            else
                CHECK(!unit.known && !unit.type && !unit.number, "no unit");
            if (has_rate)
                CHECK(!memcmp(&entry.item, charge->octets + 18 * i, 6) && entry.money.multiplier == charge->octets[18 * i + 6] &&
                          !memcmp(&entry.money.currency, charge->octets + 18 * i + 7, 11) &&
                          entry.money.number == charge->numbers[3 * i] && entry.time == charge->numbers[3 * i + 1] &&
                          entry.step == charge->numbers[3 * i + 2], "a rate");
            else
                CHECK(all(&entry.item, 6, 0) && !entry.time && !entry.step && all(&entry.money, sizeof entry.money, 0), "no rate");
        }
    }
}

/* Through pointers that the compiler does not look behind. */
static int differ(const char *volatile a, const char *volatile b)
{
    return strcmp(a, b) != 0;
}

/* Every number has words; a refusal is no outcome, and what is neither says so. */
static void test_words(void)
{
    static const char nothing[] = "no refusal of this library", no_phase[] = "no phase of this library";
    int refusals = 0, outcomes = 0, phases = 0;
    for (uint32_t n = 0; n < 1000; n++) {
        int refused = aoc_is_refusal(n), known = differ(aoc_refusal_text(n), nothing);
        CHECK(known == (refused || n == AOC_ACCEPTED), "a refusal");
        int outcome = differ(aoc_outcome_text(n), aoc_refusal_text(n));
        CHECK(!(outcome && refused), "an outcome");
        refusals += refused;
        outcomes += outcome;
        phases += differ(aoc_phase_text(n), no_phase);
    }
#define COUNT_ROW(name, number, words) +1
    CHECK(refusals == 0 AOC_REFUSALS(COUNT_ROW) && outcomes == 0 AOC_OUTCOMES(COUNT_ROW) && phases == 0 AOC_PHASES(COUNT_ROW), "tables");
#undef COUNT_ROW
    CHECK(!aoc_is_refusal(AOC_ACCEPTED) && !aoc_is_refusal(AOC_OUTCOME_NEW_RATE) && aoc_is_refusal(AOC_REFUSED_CUT), "refusals");
    CHECK(aoc_is_refusal(AOC_REFUSED_BAD_ELEMENT) && !aoc_is_refusal(AOC_OUTCOME_NOT_OURS), "refusals");
    CHECK(!differ(aoc_refusal_text(AOC_REFUSED_NO_ROOM), "the buffer is too short"), "words");
    CHECK(!differ(aoc_outcome_text(AOC_OUTCOME_FINAL), "the first final of its service"), "words");
    CHECK(!differ(aoc_outcome_text(AOC_REFUSED_WRONG_PHASE), aoc_refusal_text(AOC_REFUSED_WRONG_PHASE)), "words");
    CHECK(!differ(aoc_phase_text(AOC_PHASE_CLEARING), "clearing"), "words");
}

/* The archive is that of the header, and the text of the version has its numbers. */
static void test_version(void)
{
    unsigned long numbers[3] = {0, 0, 0};
    const char *text = AOC_VERSION_TEXT;
    for (int i = 0; *text; text++) {
        if (*text == '.')
            i++;
        else
            numbers[i] = 10 * numbers[i] + (unsigned long)(*text - '0');
    }
    CHECK(AOC_VERSION == 10000 * numbers[0] + 100 * numbers[1] + numbers[2], "the version's text");
    CHECK(aoc_version() == AOC_VERSION && aoc_layout_5() == 5, "the archive's version");
}

int main(void)
{
    make_edges();
    test_charges();
    test_trunks();
    test_longest();
    test_nonsense();
    test_words();
    test_version();
    return report("words");
}
