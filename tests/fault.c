/* Whether the exchange kept the rules: lists of events with the number, the rule and the event; slices that are no event list. */
#include "events.h"
#include "aoc_text.h"
#include <time.h>

/* Components, by what they say; EUR_ has a space more. */
#define SUB_EUR_0 "A1 1A 02 01 01 02 01 21 30 12 A1 0D 81 03 45 55 52 A2 06 81 01 00 82 01 01 82 01 00"
#define SUB_EUR_5 "A1 1A 02 01 01 02 01 21 30 12 A1 0D 81 03 45 55 52 A2 06 81 01 05 82 01 01 82 01 00"
#define SUB_EUR_299 "A1 1B 02 01 01 02 01 21 30 13 A1 0E 81 03 45 55 52 A2 07 81 02 01 2B 82 01 01 82 01 00"
#define SUB_EUR_300 "A1 1B 02 01 01 02 01 21 30 13 A1 0E 81 03 45 55 52 A2 07 81 02 01 2C 82 01 01 82 01 00"
#define SUB_EUR_500 "A1 1B 02 01 01 02 01 21 30 13 A1 0E 81 03 45 55 52 A2 07 81 02 01 F4 82 01 01 82 01 00"
#define SUB_EUR__500 "A1 1C 02 01 01 02 01 21 30 14 A1 0F 81 04 45 55 52 20 A2 07 81 02 01 F4 82 01 01 82 01 00"
#define SUB_EUR__4 "A1 1B 02 01 01 02 01 21 30 13 A1 0E 81 04 45 55 52 20 A2 06 81 01 04 82 01 01 82 01 00"
#define SUB_EUR_600 "A1 1B 02 01 01 02 01 21 30 13 A1 0E 81 03 45 55 52 A2 07 81 02 02 58 82 01 01 82 01 00"
#define SUB_DM_3 "A1 19 02 01 01 02 01 21 30 11 A1 0C 81 02 44 4D A2 06 81 01 03 82 01 01 82 01 00"
#define SUB_DM_4 "A1 19 02 01 01 02 01 21 30 11 A1 0C 81 02 44 4D A2 06 81 01 04 82 01 01 82 01 00"
#define SUB_FF_2 "A1 19 02 01 01 02 01 21 30 11 A1 0C 81 02 46 46 A2 06 81 01 02 82 01 01 82 01 00"
#define SUB_FF_3 "A1 19 02 01 01 02 01 21 30 11 A1 0C 81 02 46 46 A2 06 81 01 03 82 01 01 82 01 00"
#define TOT_EUR_0 "A1 1A 02 01 01 02 01 21 30 12 A1 0D 81 03 45 55 52 A2 06 81 01 00 82 01 01 82 01 01"
#define TOT_EUR_400 "A1 1B 02 01 01 02 01 21 30 13 A1 0E 81 03 45 55 52 A2 07 81 02 01 90 82 01 01 82 01 01"
#define TOT_EUR__499 "A1 1C 02 01 01 02 01 21 30 14 A1 0F 81 04 45 55 52 20 A2 07 81 02 01 F3 82 01 01 82 01 01"
#define TOT_EUR_500 "A1 1B 02 01 01 02 01 21 30 13 A1 0E 81 03 45 55 52 A2 07 81 02 01 F4 82 01 01 82 01 01"
#define TOT_EUR_600 "A1 1B 02 01 01 02 01 21 30 13 A1 0E 81 03 45 55 52 A2 07 81 02 02 58 82 01 01 82 01 01"
#define TOT_EUR_700 "A1 1B 02 01 01 02 01 21 30 13 A1 0E 81 03 45 55 52 A2 07 81 02 02 BC 82 01 01 82 01 01"
#define TOT_EUR__700 "A1 1C 02 01 01 02 01 21 30 14 A1 0F 81 04 45 55 52 20 A2 07 81 02 02 BC 82 01 01 82 01 01"
#define TOT_DM_3 "A1 19 02 01 01 02 01 21 30 11 A1 0C 81 02 44 4D A2 06 81 01 03 82 01 01 82 01 01"
#define SUB_UNITS_NA "A1 11 02 01 01 02 01 22 30 09 A1 04 30 02 05 00 82 01 00"
#define SUB_UNITS_0_NA "A1 16 02 01 01 02 01 22 30 0E A1 09 30 03 02 01 00 30 02 05 00 82 01 00"
#define SUB_UNITS_0_1 "A1 17 02 01 01 02 01 22 30 0F A1 0A 30 03 02 01 00 30 03 02 01 01 82 01 00"
#define SUB_UNITS_5 "A1 12 02 01 01 02 01 22 30 0A A1 05 30 03 02 01 05 82 01 00"
#define SUB_UNITS_12 "A1 12 02 01 01 02 01 22 30 0A A1 05 30 03 02 01 0C 82 01 00"
#define TOT_UNITS_1 "A1 12 02 01 01 02 01 22 30 0A A1 05 30 03 02 01 01 82 01 01"
#define D_FREE "A1 08 02 01 01 02 01 21 81 00"
#define D_NA "A1 08 02 01 01 02 01 21 05 00"
#define E_EUR_5 "A1 19 02 01 01 02 01 23 30 11 30 0F A1 0D 81 03 45 55 52 A2 06 81 01 05 82 01 01"
#define E_EUR_500 "A1 1A 02 01 01 02 01 23 30 12 30 10 A1 0E 81 03 45 55 52 A2 07 81 02 01 F4 82 01 01"
#define E_EUR__500 "A1 1B 02 01 01 02 01 23 30 13 30 11 A1 0F 81 04 45 55 52 20 A2 07 81 02 01 F4 82 01 01"
#define E_EUR_700 "A1 1A 02 01 01 02 01 23 30 12 30 10 A1 0E 81 03 45 55 52 A2 07 81 02 02 BC 82 01 01"
#define E_FREE "A1 0A 02 01 01 02 01 23 30 02 81 00"
#define YES_5 "A2 0A 02 01 05 30 05 02 01 1E 05 00"
#define BAD "A1"

static const struct {
    const char *name;
    uint32_t refusal, rule;
    uint64_t event;
    struct event events[MOST];
} cases[] = {
    {"11.a", 0, 0, 0, {PLAIN(0)}},
    {"11.b", 0, 0, 0, {ASKS(0, 0, 0, 0), PLAIN(CONNECT), SAYS(SUB_EUR_500), SAYS(SUB_EUR__500), PLAIN(CLEAR),
                       SAYS(TOT_EUR_700), SAYS(TOT_EUR__700), SAYS(E_EUR_700), PLAIN(RELEASED)}},
    {"11.c", 34, 0, 4, {ASKS(0, 0, 0, 0), PLAIN(CONNECT), SAYS(TOT_EUR_500), SAYS(BAD), PLAIN(CLEAR)}},
    {"11.d", 34, 0, 4, {ASKS(0, 0, 0, 0), PLAIN(CONNECT), SAYS(SUB_EUR_500), ASKS(0, 0, 0, 0)}},
    {"11.e", 34, 0, 1, {ASKS(3, 1, 1, 0)}},
    {"11.f", 0, 1, 2, {ASKS(0, 0, 0, 0), SAYS(SUB_EUR_0), PLAIN(CONNECT)}},
    {"11.g", 0, 1, 5, {ASKS(0, 0, 0, 0), PLAIN(CONNECT), SAYS(SUB_EUR_500), PLAIN(SUSPEND), SAYS(SUB_EUR_600), PLAIN(RESUME),
                       PLAIN(CLEAR), PLAIN(RELEASED)}},
    {"11.h", 0, 1, 4, {ASKS(2, 0, 5, 0), PLAIN(CONNECT), SAYS(SUB_EUR_500), SAYS(TOT_EUR_500), SAYS(YES_5)}},
    {"11.i", 0, 1, 4, {ASKS(0, 0, 0, 0), PLAIN(CONNECT), PLAIN(CLEAR), SAYS(SUB_UNITS_NA)}},
    {"11.j", 0, 0, 0, {ASKS(0, 0, 0, 0), SAYS(D_FREE), SAYS(E_EUR_5), SAYS(D_NA), PLAIN(CONNECT), PLAIN(CLEAR),
                       PLAIN(RELEASED)}},
    {"11.k", 0, 2, 5, {ASKS(0, 0, 0, 0), PLAIN(CONNECT), SAYS(SUB_EUR_5), SAYS(SUB_DM_3), SAYS(SUB_EUR__4)}},
    {"11.l", 0, 2, 8, {ASKS(0, 0, 0, 0), PLAIN(CONNECT), SAYS(SUB_EUR_5), SAYS(SUB_DM_3), SAYS(SUB_EUR_5), SAYS(SUB_DM_4),
                       PLAIN(CLEAR), SAYS(TOT_DM_3)}},
    {"11.m", 0, 0, 0, {ASKS(0, 0, 0, 0), PLAIN(CONNECT), SAYS(SUB_UNITS_12), SAYS(SUB_UNITS_5), PLAIN(CLEAR),
                       SAYS(TOT_UNITS_1), PLAIN(RELEASED)}},
    {"11.n", 0, 4, 6, {ASKS(0, 0, 0, 0), PLAIN(CONNECT), SAYS(SUB_EUR_500), PLAIN(CLEAR), SAYS(TOT_EUR_600),
                       SAYS(TOT_EUR_400)}},
    {"11.o", 0, 2, 5, {ASKS(0, 0, 0, 0), PLAIN(CONNECT), SAYS(SUB_EUR_500), SAYS(D_FREE), SAYS(SUB_EUR_300)}},
    {"11.p", 0, 3, 7, {ASKS(0, 0, 0, 0), SAYS(D_FREE), PLAIN(CONNECT), SAYS(SUB_EUR_0), SAYS(SUB_UNITS_0_NA),
                       SAYS(SUB_UNITS_NA), SAYS(SUB_UNITS_0_1)}},
    {"11.q", 0, 0, 0, {ASKS(2, 0, 5, 0), PLAIN(CONNECT), SAYS(D_FREE), SAYS(SUB_EUR_500), PLAIN(CLEAR), SAYS(TOT_EUR_500),
                       PLAIN(RELEASED)}},
    {"11.r", 0, 3, 5, {ASKS(0, 0, 0, 0), PLAIN(CONNECT), PLAIN(CLEAR), SAYS(D_FREE), SAYS(TOT_EUR_500)}},
    {"11.s", 0, 4, 5, {ASKS(0, 0, 0, 0), PLAIN(CONNECT), PLAIN(CLEAR), SAYS(D_FREE), SAYS(TOT_EUR_0)}},
    {"11.t", 0, 1, 4, {ASKS(0, 0, 0, 0), SAYS(D_FREE), PLAIN(CONNECT), SAYS(TOT_EUR_500)}},
    {"11.u", 0, 4, 6, {ASKS(0, 0, 0, 0), PLAIN(CONNECT), PLAIN(CLEAR), SAYS(E_EUR_500), SAYS(E_EUR__500), SAYS(E_FREE),
                       PLAIN(RELEASED)}},
    {"11.v", 0, 2, 5, {ASKS(0, 0, 0, 0), PLAIN(CONNECT), SAYS(SUB_EUR_500), PLAIN(CLEAR), SAYS(TOT_EUR__499), PLAIN(RELEASED)}},
    {"11.w", 0, 2, 6, {ASKS(2, 0, 5, 0), PLAIN(CONNECT), SAYS(SUB_EUR_500), SAYS(YES_5), SAYS(SUB_EUR_300), SAYS(SUB_EUR_299)}},
    {"11.x", 0, 4, 7, {ASKS(0, 0, 0, 0), SAYS(D_FREE), PLAIN(CONNECT), SAYS(SUB_EUR_0), PLAIN(CLEAR), SAYS(D_FREE),
                       SAYS(TOT_EUR_0), PLAIN(RELEASED)}},
    /* two currencies are remembered, and a third one is looked for in the list */
    {"the first of three", 0, 2, 6, {ASKS(0, 0, 0, 0), PLAIN(CONNECT), SAYS(SUB_EUR_5), SAYS(SUB_DM_3), SAYS(SUB_FF_3), SAYS(SUB_EUR__4)}},
    {"the second of three", 0, 2, 8, {ASKS(0, 0, 0, 0), PLAIN(CONNECT), SAYS(SUB_DM_4), SAYS(SUB_EUR_5), SAYS(SUB_EUR_300), SAYS(SUB_FF_3),
                                      SAYS(SUB_EUR_500), SAYS(SUB_DM_3)}},
    {"the third of three", 0, 2, 9, {ASKS(0, 0, 0, 0), PLAIN(CONNECT), SAYS(SUB_FF_3), SAYS(SUB_DM_3), SAYS(SUB_EUR_5), SAYS(SUB_FF_3),
                                     SAYS(SUB_DM_4), SAYS(SUB_EUR_500), SAYS(SUB_FF_2)}},
    {"three in order", 0, 0, 0, {ASKS(0, 0, 0, 0), PLAIN(CONNECT), SAYS(SUB_FF_2), SAYS(SUB_DM_3), SAYS(SUB_EUR_5), SAYS(SUB_EUR__500),
                                 SAYS(SUB_DM_4), SAYS(SUB_FF_3)}},
};

static aoc_fault_answer ask(size_t numbers, size_t n)
{
    const void *lent = lend(octets, n);
    return aoc_fault(lend_rows(numbers), numbers, lent, n);
}

static int is(aoc_fault_answer a, uint32_t refusal, uint32_t rule, uint64_t event)
{
    return a.refusal == refusal && a.rule == rule && a.event == event;
}

static void test_cases(void)
{
    for (size_t i = 0; i < sizeof cases / sizeof *cases; i++) {
        lay(cases[i].events);
        CHECK(is(ask(6 * events, length), cases[i].refusal, cases[i].rule, cases[i].event), cases[i].name);
        fill_unused();
        CHECK(is(ask(6 * events, length), cases[i].refusal, cases[i].rule, cases[i].event), cases[i].name);
        /* an event of no kind is refused, whatever the others are */
        static const uint16_t strange[] = {0, 8, 255, 256, 257, 261, 65535};
        for (size_t at = 0; at < events; at++) {
            uint16_t kind = rows[at][0];
            uint64_t first = cases[i].refusal && cases[i].event <= at ? cases[i].event : at + 1;
            rows[at][0] = strange[at % 7];
            CHECK(is(ask(6 * events, length), AOC_REFUSED_IN_LIST, 0, first), cases[i].name);
            rows[at][0] = kind;
        }
    }
}

static void test_slices(void)
{
    for (size_t i = 0; i < sizeof cases / sizeof *cases; i++) {
        lay(cases[i].events);
        for (size_t less = 1; less < 6 && events; less++)
            CHECK(is(ask(6 * events - less, length), AOC_REFUSED_LENGTHS, 0, 0), "no whole rows");
        CHECK(is(ask(6 * events, length + 1), AOC_REFUSED_LENGTHS, 0, 0), "an octet over");
        if (length)
            CHECK(is(ask(6 * events, length - 1), AOC_REFUSED_LENGTHS, 0, 0), "an octet short");
        for (size_t at = 0; at < events; at++) {
            rows[at][5] = 65535;
            CHECK(is(ask(6 * events, length), AOC_REFUSED_LENGTHS, 0, 0), "a count too high");
            lay(cases[i].events);
        }
    }
    /* the octets of an event that is no component are passed over: an amount in them is none */
    static const struct event still[MOST] = {ASKS(0, 0, 0, 0), PLAIN(CONNECT), PLAIN(CLEAR)};
    lay(still);
    length = unhex(SUB_EUR_5, octets);
    rows[2][5] = (uint16_t)length;
    CHECK(is(ask(6 * events, length), 0, AOC_RULE_KEPT, 0), "octets of a Clear");
    CHECK(is(aoc_fault(NULL, 0, NULL, 0), 0, AOC_RULE_KEPT, 0), "no list");
}

/* A long list: the last amount in each currency is found, however far back. */
enum { LONG = 1000 };

static double seconds(const char *const *turns, size_t currencies, size_t more)
{
    static uint16_t many[LONG][AOC_ROW_NUMBERS];
    static uint8_t all_octets[LONG * 32];
    size_t n = 0;
    memset(many, 0, sizeof many);
    many[0][0] = SETUP;
    many[1][0] = CONNECT;
    for (size_t i = 2; i < LONG; i++) {
        size_t k = unhex(i + more < LONG ? turns[i % currencies] : SUB_EUR_299, all_octets + n);
        many[i][0] = COMPONENT;
        many[i][5] = (uint16_t)k;
        n += k;
    }
    clock_t from = clock();
    aoc_fault_answer a = aoc_fault(many[0], 6 * LONG, all_octets, n);
    CHECK(more ? is(a, 0, AOC_RULE_FALL, LONG) : is(a, 0, AOC_RULE_KEPT, 0), "a long list");
    return (double)(clock() - from) / CLOCKS_PER_SEC;
}

static void test_words(void)
{
    CHECK(!strcmp(aoc_rule_text(AOC_RULE_FINAL), "a final that differs from the first"), "words");
    CHECK(!strcmp(aoc_rule_text(5), "no rule of this library") && !strcmp(aoc_rule_text(0), "all rules kept"), "words");
    CHECK(!strcmp(aoc_refusal_text(34), "an event of the list is refused"), "words");
}

int main(int count, char **arguments)
{
    make_edges();
    test_cases();
    test_slices();
    test_words();
    static const char *const turns[] = {SUB_EUR_500, SUB_DM_3, SUB_FF_3};
    double one = seconds(turns, 1, 0), two = seconds(turns, 2, 0), three = seconds(turns, 3, 0);
    for (size_t currencies = 1; currencies <= 3; currencies++)
        seconds(turns, currencies, 1);
    if (count > 1 && !strcmp(arguments[1], "seconds"))
        printf("%d events in one currency: %.6f s; in two by turns: %.6f s; in three: %.6f s\n", LONG, one, two, three);
    return report("fault");
}
