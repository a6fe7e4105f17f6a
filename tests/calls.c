/* The C library's account of a call: the lists of events of the specification, every event in every phase, and refusals that
 * leave the account as it was. Accounts with nonsense in them are compared with the second program (tests/compare.sh). */
#include "check.h"

static const char *const C1 = "A1 1A 02 01 01 02 01 21 30 12 A1 0D 81 03 45 55 52 A2 06 81 01 32 82 01 01 82 01 00";
static const char *const C2 = "A1 11 02 01 02 02 01 24 30 09 30 07 A1 05 30 03 02 01 0C";
static const char *const C2_13 = "A1 11 02 01 02 02 01 24 30 09 30 07 A1 05 30 03 02 01 0D";
static const char *const C3 = "A1 09 02 01 05 02 01 1E 0A 01 01";
static const char *const C4 = "A2 0A 02 01 05 30 05 02 01 1E 05 00";
static const char *const C5 = "A3 06 02 01 05 02 01 1A";
static const char *const C6 = "A1 08 02 01 03 02 01 21 81 00";
static const char *const C7 = "A1 0A 02 01 04 02 01 23 30 02 81 00";
static const char *const C8 = "A1 09 02 01 06 02 01 20 02 01 0A";
static const char *const TOTAL = "A1 1A 02 01 01 02 01 21 30 12 A1 0D 81 03 45 55 52 A2 06 81 01 32 82 01 01 82 01 01";
static const char *const SAME_TOTAL =
    "A1 1E 02 01 01 02 01 21 30 16 A1 0E 81 03 45 55 52 A2 07 81 02 01 F4 82 01 00 82 01 01 83 01 01";
static const char *const D_ABSENT = "A1 08 02 01 03 02 01 21 05 00";
static const char *const S_RESULT = "A2 0B 02 01 05 30 06 02 01 1E 02 01 01";
static const char *const REJECT_5 = "A4 06 02 01 05 81 01 01";
static const char *const REJECT_NULL = "A4 05 05 00 81 01 01";

/* An account between two guards. */
static struct {
    uint8_t before[GUARD];
    aoc_account account;
    uint8_t after[GUARD];
} call;

static void start(void)
{
    memset(&call, MARK, sizeof call);
    call.account = aoc_fresh();
}

static int guarded(void)
{
    return all(call.before, GUARD, MARK) && all(call.after, GUARD, MARK);
}

static aoc_outcome component(const char *hex)
{
    uint8_t octets[300];
    size_t n = unhex(hex, octets);
    return aoc_component(&call.account, lend(octets, n), n);
}

/* A Setup with the requests named by their identifiers, -1 for none. */
static aoc_outcome setup(int s, int d, int e)
{
    aoc_services asked = aoc_no_services();
    if (s >= 0)
        asked = aoc_with_service(asked, AOC_SERVICE_S);
    if (d >= 0)
        asked = aoc_with_service(asked, AOC_SERVICE_D);
    if (e >= 0)
        asked = aoc_with_service(asked, AOC_SERVICE_E);
    aoc_identifiers ids = {(uint16_t)s, (uint16_t)d, (uint16_t)e};
    return aoc_setup(&call.account, asked, ids);
}

static int is(aoc_outcome o, uint8_t number, uint8_t service)
{
    return o.number == number && o.service == service && guarded();
}

#define STEP(event, number, service) CHECK(is(event, number, service), "a call")

static uint64_t running(void)
{
    aoc_charge c = aoc_running_of(&call.account);
    return c.kind == AOC_CHARGE_MONEY ? aoc_thousandths(c.money.number, c.money.multiplier) : UINT64_MAX;
}

/* ------------------------------------------------------------------ lists of the specification */

static void test_lists(void)
{
    /* a running figure closes nothing */
    start();
    STEP(setup(-1, -1, -1), 0, 0);
    STEP(aoc_connect(&call.account), 0, 0);
    STEP(component(C1), AOC_OUTCOME_NEW_RUNNING, AOC_SERVICE_D);
    STEP(aoc_clear(&call.account), 0, 0);
    STEP(aoc_released(&call.account), 0, 0);
    CHECK(running() == 500 && aoc_phase_of(&call.account) == AOC_PHASE_ENDED, "a call");
    aoc_closing closing = aoc_closing_of(&call.account);
    CHECK(all(&closing, sizeof closing, 0), "no closing figure");

    /* a final, the same again, another */
    start();
    setup(-1, -1, -1);
    (void)aoc_connect(&call.account);
    (void)aoc_clear(&call.account);
    STEP(component(C2), AOC_OUTCOME_FINAL, AOC_SERVICE_E);
    STEP(component(C2), AOC_OUTCOME_REPEATED, AOC_SERVICE_E);
    STEP(component(C2_13), AOC_OUTCOME_CONFLICT, AOC_SERVICE_E);
    STEP(component(C2), AOC_OUTCOME_REPEATED, AOC_SERVICE_E);
    CHECK(aoc_closing_of(&call.account).service == AOC_SERVICE_NONE, "none before the end");
    STEP(aoc_released(&call.account), 0, 0);
    closing = aoc_closing_of(&call.account);
    CHECK(closing.service == AOC_SERVICE_E && closing.charge.kind == AOC_CHARGE_UNITS && closing.charge.count == 1, "closing");
    CHECK(closing.charge.unit_numbers[0] == 12 && closing.charge.units[0].known, "closing");
    aoc_marks marks = aoc_marks_of(&call.account);
    CHECK(aoc_has_service(marks.conflict, AOC_SERVICE_E) && !aoc_has_service(marks.conflict, AOC_SERVICE_D), "conflict");
    CHECK(all(&marks.absent, sizeof marks.absent, 0), "conflict");

    /* a pending request keeps its service's charges out, until a result or an error */
    for (int failing = 0; failing < 3; failing++) {
        static const char *const answers[] = {C4, C5, REJECT_5};
        start();
        setup(-1, 5, -1);
        (void)aoc_connect(&call.account);
        STEP(component(C1), AOC_OUTCOME_IGNORED, AOC_SERVICE_D);
        STEP(component(REJECT_NULL), AOC_OUTCOME_NO_REQUEST, 0);
        STEP(component(S_RESULT), AOC_OUTCOME_MISFIT, AOC_SERVICE_D);
        CHECK(aoc_has_service(aoc_pending_of(&call.account).asked, AOC_SERVICE_D), "pending");
        CHECK(aoc_pending_of(&call.account).d == 5, "pending");
        STEP(component(answers[failing]), failing ? AOC_OUTCOME_FAILED : AOC_OUTCOME_GRANTED, AOC_SERVICE_D);
        CHECK(!aoc_has_service(aoc_pending_of(&call.account).asked, AOC_SERVICE_D), "pending");
        STEP(component(answers[failing]), AOC_OUTCOME_NO_REQUEST, 0);
        STEP(component(C1), AOC_OUTCOME_NEW_RUNNING, AOC_SERVICE_D);
    }

    /* a pending S request silences S alone; its result is the rate */
    start();
    setup(5, -1, -1);
    STEP(component(C8), AOC_OUTCOME_IGNORED, AOC_SERVICE_S);
    STEP(component(C6), AOC_OUTCOME_NEW_RUNNING, AOC_SERVICE_D);
    STEP(component(C4), AOC_OUTCOME_MISFIT, AOC_SERVICE_S);
    STEP(component(S_RESULT), AOC_OUTCOME_GRANTED, AOC_SERVICE_S);
    CHECK(aoc_rate_of(&call.account).kind == AOC_CHARGE_ARRANGEMENT && aoc_rate_of(&call.account).arrangement == 1, "rate");
    STEP(component(C8), AOC_OUTCOME_NEW_RATE, AOC_SERVICE_S);
    CHECK(aoc_rate_of(&call.account).arrangement == 10, "rate");
    STEP(component(C3), AOC_OUTCOME_NOT_OURS, 0);
    STEP(component(D_ABSENT), AOC_OUTCOME_NOT_AVAILABLE, AOC_SERVICE_D);
    CHECK(aoc_has_service(aoc_marks_of(&call.account).absent, AOC_SERVICE_D), "absent");

    /* what is out of phase, and finals of D beside one of E */
    start();
    setup(-1, -1, -1);
    STEP(component(C1), AOC_OUTCOME_OUT_OF_PHASE, AOC_SERVICE_D);
    STEP(component(TOTAL), AOC_OUTCOME_OUT_OF_PHASE, AOC_SERVICE_D);
    STEP(component(C7), AOC_OUTCOME_OUT_OF_PHASE, AOC_SERVICE_E);
    (void)aoc_clear(&call.account);
    STEP(component(C1), AOC_OUTCOME_OUT_OF_PHASE, AOC_SERVICE_D);
    STEP(component(TOTAL), AOC_OUTCOME_FINAL, AOC_SERVICE_D);
    STEP(component(SAME_TOTAL), AOC_OUTCOME_REPEATED, AOC_SERVICE_D);
    STEP(component(C6), AOC_OUTCOME_CONFLICT, AOC_SERVICE_D);
    aoc_account before_e = call.account;
    (void)aoc_released(&call.account);
    CHECK(aoc_closing_of(&call.account).service == AOC_SERVICE_D, "closing of D");
    call.account = before_e;
    STEP(component(C7), AOC_OUTCOME_FINAL, AOC_SERVICE_E);
    (void)aoc_released(&call.account);
    closing = aoc_closing_of(&call.account);
    CHECK(closing.service == AOC_SERVICE_E && closing.charge.kind == AOC_CHARGE_FREE, "closing of E");
}

/* ------------------------------------------------------------------ padded currencies */

/* An E final in a currency, given in hex: the octets of its component. */
static size_t final_in(const char *currency, uint16_t number, uint8_t multiplier, uint8_t *to)
{
    uint8_t text[10], value[] = {0xA2, 7, 0x81, 2, (uint8_t)(number >> 8), (uint8_t)number, 0x82, 1, multiplier};
    uint8_t n = (uint8_t)unhex(currency, text), k = 9;
    if (number < 128) {
        value[1] = 6, value[3] = 1, value[4] = (uint8_t)number, value[5] = 0x82, value[6] = 1, value[7] = multiplier, k = 8;
    }
    uint8_t size = (uint8_t)(2 + n + k);
    uint8_t lead[] = {0xA1, (uint8_t)(size + 12), 2, 1, 7, 2, 1, 0x23, 0x30, (uint8_t)(size + 4), 0x30, (uint8_t)(size + 2), 0xA1, size, 0x81, n};
    memcpy(to, lead, sizeof lead);
    memcpy(to + sizeof lead, text, n);
    memcpy(to + sizeof lead + n, value, k);
    return sizeof lead + n + k;
}

static void test_padded(void)
{
    static const struct {
        const char *text;
        uint16_t number;
        uint8_t multiplier;
        const char *second_text;
        uint16_t second_number;
        uint8_t second_multiplier, outcome;
    } cases[] = {
        {"45 55 52", 50, 1, "45 55 52 20", 50, 1, AOC_OUTCOME_REPEATED},
        {"45 55 52 20 20", 50, 1, "45 55 52", 50, 1, AOC_OUTCOME_REPEATED},
        {"45 55 52 20", 50, 1, "45 55 52 20 20 20 20 20 20 20", 500, 0, AOC_OUTCOME_REPEATED},
        {"20", 50, 1, "20 20 20", 50, 1, AOC_OUTCOME_REPEATED},
        {"20 20 20 20 20 20 20 20 20 20", 0, 0, "20", 0, 6, AOC_OUTCOME_REPEATED},
        {"45 55 52 00", 50, 1, "45 55 52 00 20", 50, 1, AOC_OUTCOME_REPEATED},
        {"45 55 52", 50, 1, "45 55 52 20", 501, 0, AOC_OUTCOME_CONFLICT},
        {"45 55 52", 50, 1, "20 45 55 52", 50, 1, AOC_OUTCOME_CONFLICT},
        {"45 20 52", 50, 1, "45 52", 50, 1, AOC_OUTCOME_CONFLICT},
        {"45 55 52", 50, 1, "65 75 72", 50, 1, AOC_OUTCOME_CONFLICT},
        {"45 55 52", 50, 1, "45 55 52 00", 50, 1, AOC_OUTCOME_CONFLICT},
        {"45 55 52", 50, 1, "45 55 52 20 00", 50, 1, AOC_OUTCOME_CONFLICT},
        {"20", 50, 1, "00", 50, 1, AOC_OUTCOME_CONFLICT},
        {"45 55 52", 50, 1, "45 55 52 09", 50, 1, AOC_OUTCOME_CONFLICT},
    };
    for (size_t i = 0; i < sizeof cases / sizeof *cases; i++) {
        uint8_t octets[64], text[10];
        size_t n = final_in(cases[i].text, cases[i].number, cases[i].multiplier, octets);
        start();
        setup(-1, -1, -1);
        (void)aoc_clear(&call.account);
        STEP(aoc_component(&call.account, lend(octets, n), n), AOC_OUTCOME_FINAL, AOC_SERVICE_E);
        n = final_in(cases[i].second_text, cases[i].second_number, cases[i].second_multiplier, octets);
        STEP(aoc_component(&call.account, lend(octets, n), n), cases[i].outcome, AOC_SERVICE_E);
        (void)aoc_released(&call.account);
        aoc_closing closing = aoc_closing_of(&call.account);
        n = unhex(cases[i].text, text);
        CHECK(closing.charge.money.currency.count == n && !memcmp(closing.charge.money.currency.octets, text, n), "as received");
    }
}

/* ------------------------------------------------------------------ a call that is parked */

static void test_parked(void)
{
    /* what comes while it is parked is read and changes nothing; the service is an invoke's */
    start();
    setup(-1, 5, -1);
    (void)aoc_connect(&call.account);
    STEP(aoc_resume(&call.account), AOC_REFUSED_WRONG_PHASE, 0);
    STEP(aoc_suspend(&call.account), 0, 0);
    aoc_account before = call.account;
    STEP(aoc_suspend(&call.account), AOC_REFUSED_WRONG_PHASE, 0);
    STEP(component(C1), AOC_OUTCOME_OUT_OF_PHASE, AOC_SERVICE_D);
    STEP(component(C2), AOC_OUTCOME_OUT_OF_PHASE, AOC_SERVICE_E);
    STEP(component(C8), AOC_OUTCOME_OUT_OF_PHASE, AOC_SERVICE_S);
    STEP(component(C3), AOC_OUTCOME_OUT_OF_PHASE, 0);
    STEP(component(C4), AOC_OUTCOME_OUT_OF_PHASE, 0);
    STEP(component(C5), AOC_OUTCOME_OUT_OF_PHASE, 0);
    STEP(component("A4 05 05 00 80 01 02"), AOC_OUTCOME_OUT_OF_PHASE, 0);
    STEP(component(""), AOC_REFUSED_CUT, 0);
    CHECK(!memcmp(&before, &call.account, sizeof before), "parked");

    /* taken up again, its request is still pending */
    STEP(aoc_resume(&call.account), 0, 0);
    STEP(component(C1), AOC_OUTCOME_IGNORED, AOC_SERVICE_D);
    STEP(component(C4), AOC_OUTCOME_GRANTED, AOC_SERVICE_D);
    STEP(component(C1), AOC_OUTCOME_NEW_RUNNING, AOC_SERVICE_D);

    /* parked again and cleared from there; a final sent while it was parked is no predecessor */
    STEP(aoc_suspend(&call.account), 0, 0);
    STEP(component(C2_13), AOC_OUTCOME_OUT_OF_PHASE, AOC_SERVICE_E);
    STEP(aoc_clear(&call.account), 0, 0);
    STEP(component(C2), AOC_OUTCOME_FINAL, AOC_SERVICE_E);
    STEP(aoc_released(&call.account), 0, 0);
    CHECK(running() == 500 && aoc_closing_of(&call.account).service == AOC_SERVICE_E, "parked twice");
}

/* ------------------------------------------------------------------ refusals */

static void to_phase(int phase)
{
    start();
    if (phase >= AOC_PHASE_ESTABLISHMENT)
        setup(1, 2, 3);
    if (phase >= AOC_PHASE_ACTIVE)
        (void)aoc_connect(&call.account);
    if (phase == AOC_PHASE_SUSPENDED)
        (void)aoc_suspend(&call.account);
    if (phase == AOC_PHASE_CLEARING || phase == AOC_PHASE_ENDED)
        (void)aoc_clear(&call.account);
    if (phase == AOC_PHASE_ENDED)
        (void)aoc_released(&call.account);
    CHECK(aoc_phase_of(&call.account) == phase, "phase");
}

static void test_refusals(void)
{
    enum { IDLE = 1 << AOC_PHASE_IDLE, ESTABLISHMENT = 1 << AOC_PHASE_ESTABLISHMENT, ACTIVE = 1 << AOC_PHASE_ACTIVE,
           CLEARING = 1 << AOC_PHASE_CLEARING, SUSPENDED = 1 << AOC_PHASE_SUSPENDED };
    /* by kind: the phases in which the event is allowed */
    static const uint8_t allowed[8] = {0, IDLE, ESTABLISHMENT, ESTABLISHMENT | ACTIVE | SUSPENDED, CLEARING,
                                       ESTABLISHMENT | ACTIVE | CLEARING | SUSPENDED, ACTIVE, SUSPENDED};
    static const struct {
        uint8_t number;
        const char *hex;
    } bad[] = {
        {1, ""},
        {2, "A1 FF"},
        {3, ""},
        {4, "A5"},
        {5, "A1 00 00"},
        {6, "A1 00"},
        {7, "A1 09 02 01 07 02 01 25 0A 01 01"},
        {8, "A3 06 02 01 05 02 01 01"},
        {40, "A1 06 02 01 01 02 01 21"},
        {41, "A1 08 02 01 03 02 01 23 81 00"},
        {42, "A1 07 02 01 05 02 01 1E 0A"},
        {43, "A1 08 02 01 06 02 01 20 02 00"},
        {44, "A1 09 02 01 06 02 01 20 02 01 0B"},
    };
    static const aoc_services all_three = {1, 1, 1};
    for (int phase = AOC_PHASE_IDLE; phase <= AOC_PHASE_SUSPENDED; phase++) {
        for (unsigned kind = 0; kind < 256; kind++) {
            to_phase(phase);
            aoc_account before = call.account;
            aoc_event event = {(uint8_t)kind, all_three, 7, 8, 9};
            aoc_outcome o = aoc_step(&call.account, event, NULL, 0);
            int fits = kind < 8 && allowed[kind] >> phase & 1;
            CHECK(is(o, !fits ? AOC_REFUSED_WRONG_PHASE : kind == AOC_EVENT_COMPONENT ? AOC_REFUSED_CUT : 0, 0), "an event in a phase");
            if (o.number)
                CHECK(!memcmp(&before, &call.account, sizeof before), "a refused event");
        }
        for (size_t i = 0; i < sizeof bad / sizeof *bad; i++) {
            uint8_t octets[300] = {0};
            uint8_t number = bad[i].number;
            size_t n = number == 3 ? 255 : unhex(bad[i].hex, octets);
            to_phase(phase);
            aoc_account before = call.account;
            int heard = allowed[AOC_EVENT_COMPONENT] >> phase & 1;
            CHECK(is(aoc_component(&call.account, lend(octets, n), n), heard ? number : AOC_REFUSED_WRONG_PHASE, 0), "a refusal");
            CHECK(!memcmp(&before, &call.account, sizeof before), "a refusal");
        }
    }

    /* two requests with one identifier; the identifier of a service that is not asked for does not count */
    static const int clashing[][3] = {{5, 5, -1}, {5, -1, 5}, {-1, 5, 5}, {5, 5, 5}, {0, 0, 1}, {65535, 1, 65535}};
    for (size_t i = 0; i < sizeof clashing / sizeof *clashing; i++) {
        start();
        aoc_account before = call.account;
        STEP(setup(clashing[i][0], clashing[i][1], clashing[i][2]), AOC_REFUSED_BAD_SETUP, 0);
        CHECK(!memcmp(&before, &call.account, sizeof before), "a bad setup");
    }
    for (int i = 0; i < 8; i++) {
        start();
        aoc_event event = {AOC_EVENT_SETUP, {0, 0, 0}, 5, 5, 5};
        event.asked.s = i == 1 ? 255 : 0;
        event.asked.d = i == 2 ? 2 : 0;
        event.asked.e = i == 4 ? 128 : 0;
        STEP(aoc_step(&call.account, event, NULL, 0), 0, 0);
        aoc_pending p = aoc_pending_of(&call.account);
        CHECK(p.asked.s == (i == 1) && p.asked.d == (i == 2) && p.asked.e == (i == 4) && p.unused == 0, "a mark is kept as 1");
        CHECK(p.s == (i == 1 ? 5 : 0) && p.d == (i == 2 ? 5 : 0) && p.e == (i == 4 ? 5 : 0), "no identifier is kept without a request");
    }
}

int main(void)
{
    make_edges();
    aoc_account fresh = aoc_fresh();
    CHECK(all(&fresh, sizeof fresh, 0), "fresh");
    test_lists();
    test_padded();
    test_parked();
    test_refusals();
    return report("calls");
}
