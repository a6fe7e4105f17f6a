/* Why a call has no price: lists of events with the reason and the event, and slices that are no event list. */
#include "events.h"
#include "aoc_text.h"

/* Components, by what they say. */
#define SUB "A1 1B 02 01 14 02 01 21 30 13 A1 0E 81 03 45 55 52 A2 07 81 02 01 F4 82 01 00 82 01 00"
#define TOT "A1 1B 02 01 14 02 01 21 30 13 A1 0E 81 03 45 55 52 A2 07 81 02 01 F4 82 01 00 82 01 01"
#define TOT_600 "A1 1B 02 01 14 02 01 21 30 13 A1 0E 81 03 45 55 52 A2 07 81 02 02 58 82 01 00 82 01 01"
#define E_700 "A1 1A 02 01 1E 02 01 23 30 12 30 10 A1 0E 81 03 45 55 52 A2 07 81 02 02 BC 82 01 00"
#define E_UNITS "A1 11 02 01 02 02 01 24 30 09 30 07 A1 05 30 03 02 01 0C"
#define D_FREE "A1 08 02 01 03 02 01 21 81 00"
#define E_FREE "A1 0A 02 01 04 02 01 23 30 02 81 00"
#define S_NA "A1 08 02 01 01 02 01 1F 05 00"
#define D_NA "A1 08 02 01 03 02 01 21 05 00"
#define E_NA "A1 08 02 01 28 02 01 23 05 00"
#define S_RATE "A1 09 02 01 06 02 01 20 02 01 04"
#define REQUEST "A1 09 02 01 05 02 01 1E 0A 01 01"
#define YES_5 "A2 0A 02 01 05 30 05 02 01 1E 05 00"
#define NO_1 "A3 06 02 01 01 02 01 1A"
#define BAD "A1 08 02 01 03 02 01 23 81 00"
#define CUT ""

static const struct {
    const char *name;
    uint32_t reason;
    uint64_t event;
    struct event events[MOST];
} cases[] = {
    {"6.a", 1, 0, {PLAIN(0)}},
    {"6.b", 1, 0, {ASKS(0, 0, 0, 0), PLAIN(CONNECT), SAYS(SUB), PLAIN(CLEAR), SAYS(TOT)}},
    {"6.c", 1, 0, {ASKS(0, 0, 0, 0), PLAIN(CONNECT), SAYS(SUB), PLAIN(SUSPEND)}},
    {"6.d", 2, 5, {ASKS(0, 0, 0, 0), PLAIN(CONNECT), PLAIN(CLEAR), SAYS(TOT), SAYS(E_UNITS), PLAIN(RELEASED)}},
    {"6.e", 2, 4, {ASKS(0, 0, 0, 0), PLAIN(CONNECT), PLAIN(CLEAR), SAYS(E_700), SAYS(TOT), SAYS(TOT_600), PLAIN(RELEASED)}},
    {"6.f", 2, 4, {PLAIN(CONNECT), ASKS(0, 0, 0, 0), PLAIN(CLEAR), SAYS(D_FREE), PLAIN(RELEASED), SAYS(CUT)}},
    {"6.g", 3, 3, {ASKS(0, 0, 0, 0), PLAIN(CONNECT), SAYS(TOT), SAYS(E_NA), PLAIN(CLEAR), SAYS(SUB), PLAIN(RELEASED)}},
    {"6.h", 3, 2, {ASKS(2, 0, 5, 0), SAYS(SUB), SAYS(D_NA), PLAIN(CONNECT), SAYS(YES_5), SAYS(SUB), PLAIN(CLEAR), PLAIN(RELEASED)}},
    {"6.i", 3, 6, {ASKS(2, 0, 5, 0), SAYS(D_NA), PLAIN(CONNECT), PLAIN(SUSPEND), SAYS(D_NA), SAYS(SUB), PLAIN(RESUME), PLAIN(CLEAR),
                   PLAIN(RELEASED)}},
    {"6.j", 7, 0, {ASKS(2, 0, 5, 0), SAYS(D_NA), PLAIN(CONNECT), PLAIN(SUSPEND), SAYS(E_NA), SAYS(S_RATE), SAYS(YES_5), PLAIN(RESUME),
                   PLAIN(CLEAR), PLAIN(RELEASED)}},
    {"6.k", 3, 3, {ASKS(0, 0, 0, 0), PLAIN(CONNECT), SAYS(E_FREE), PLAIN(CLEAR), PLAIN(RELEASED)}},
    {"6.l", 4, 5, {ASKS(0, 0, 0, 0), SAYS(S_NA), PLAIN(CONNECT), SAYS(SUB), SAYS(E_NA), SAYS(D_NA), PLAIN(CLEAR), PLAIN(RELEASED)}},
    {"6.m", 5, 4, {ASKS(0, 0, 0, 0), SAYS(BAD), PLAIN(CONNECT), SAYS(D_FREE), SAYS(SUB), PLAIN(CLEAR), PLAIN(RELEASED)}},
    {"6.n", 6, 6, {ASKS(0, 0, 0, 0), PLAIN(CONNECT), SAYS(S_NA), SAYS(REQUEST), PLAIN(CLEAR), SAYS(CUT), SAYS(BAD), PLAIN(RELEASED)}},
    {"6.o", 7, 0, {SAYS(BAD), ASKS(0, 0, 0, 0), PLAIN(CLEAR), PLAIN(RELEASED), SAYS(BAD)}},
    {"6.p", 7, 0, {ASKS(3, 1, 1, 0), ASKS(3, 1, 2, 0), PLAIN(CONNECT), SAYS(S_RATE), PLAIN(CLEAR), SAYS(NO_1), PLAIN(RELEASED)}},
    {"6.q", 2, 6, {ASKS(0, 0, 0, 0), PLAIN(CONNECT), PLAIN(SUSPEND), SAYS(SUB), PLAIN(CLEAR), SAYS(E_FREE), PLAIN(RELEASED)}},
};

static aoc_why_answer ask(size_t numbers, size_t n)
{
    const void *lent = lend(octets, n);
    return aoc_why(lend_rows(numbers), numbers, lent, n);
}

static int is(aoc_why_answer a, uint32_t refusal, uint32_t reason, uint64_t event)
{
    return a.refusal == refusal && a.reason == reason && a.event == event;
}

static void test_cases(void)
{
    for (size_t i = 0; i < sizeof cases / sizeof *cases; i++) {
        lay(cases[i].events);
        CHECK(is(ask(6 * events, length), 0, cases[i].reason, cases[i].event), cases[i].name);
        /* an event of no kind is refused, and the others keep their order */
        for (size_t at = 0; at <= events && events < MOST; at++) {
            static const uint16_t strange[] = {0, 8, 255, 256, 257, 261, 65535};
            uint16_t kept[MOST][AOC_ROW_NUMBERS];
            memcpy(kept, rows, sizeof rows);
            memmove(rows[at + 1], rows[at], sizeof rows[0] * (events - at));
            memset(rows[at], 0, sizeof rows[at]);
            rows[at][0] = strange[at % 7];
            CHECK(is(ask(6 * events + 6, length), 0, cases[i].reason, cases[i].event + (cases[i].event > at)), cases[i].name);
            memcpy(rows, kept, sizeof rows);
        }
        fill_unused();
        CHECK(is(ask(6 * events, length), 0, cases[i].reason, cases[i].event), cases[i].name);
    }
}

static void test_slices(void)
{
    for (size_t i = 0; i < sizeof cases / sizeof *cases; i++) {
        lay(cases[i].events);
        for (size_t less = 1; less < 6 && events; less++)
            CHECK(is(ask(6 * events - less, length), AOC_REFUSED_LENGTHS, 0, 0), "no whole rows");
        CHECK(is(ask(6 * events, length + 1), AOC_REFUSED_LENGTHS, 0, 0), "an octet over");
        if (length)
            CHECK(is(ask(6 * events, length - 1), AOC_REFUSED_LENGTHS, 0, 0), "an octet short");
        for (size_t at = 0; at < events; at++) {
            rows[at][5]++;
            CHECK(is(ask(6 * events, length), AOC_REFUSED_LENGTHS, 0, 0), "a count too high");
            rows[at][5] = 65535;
            CHECK(is(ask(6 * events, length), AOC_REFUSED_LENGTHS, 0, 0), "a count too high");
            lay(cases[i].events);
        }
    }
    /* the octets of an event that is no component are passed over */
    static const struct event priced[MOST] = {ASKS(0, 0, 0, 0), PLAIN(CLEAR), SAYS(E_FREE), PLAIN(RELEASED)};
    lay(priced);
    memmove(octets + 2, octets, length);
    rows[1][5] = 2;
    CHECK(is(ask(6 * events, length + 2), 0, AOC_REASON_PRICED, 3), "octets of a Clear");
    CHECK(is(aoc_why(NULL, 0, NULL, 0), 0, AOC_REASON_OPEN, 0), "no events");
}

static void test_words(void)
{
    CHECK(!strcmp(aoc_reason_text(AOC_REASON_RUNNING), "only running figures"), "words");
    CHECK(!strcmp(aoc_reason_text(0), aoc_reason_text(8)) && strcmp(aoc_reason_text(1), aoc_reason_text(8)), "words");
    aoc_event event = {AOC_EVENT_SETUP, {255, 0, 1}, 7, 8, 9};
    uint16_t row[AOC_ROW_NUMBERS];
    aoc_row_of(event, 3, row);
    CHECK(row[0] == SETUP && row[1] == 5 && row[2] == 7 && row[3] == 8 && row[4] == 9 && row[5] == 3, "a row");
}

int main(void)
{
    make_edges();
    test_cases();
    test_slices();
    test_words();
    return report("why");
}
