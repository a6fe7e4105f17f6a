/* A switchboard: request 13's cases, a full table, references used again, tables that hold anything, and what lies beside one.
 * Beside each run a list of accounts goes by itself, one for each reference, and every answer is held against it. */
#include "check.h"

/* ------------------------------------------------------------------ a table between guards */

static struct {
    uint8_t before[GUARD];
    aoc_board board;
    uint8_t after[GUARD];
} lent;

static aoc_board *const board = &lent.board;
static aoc_board was;

static void begin(void)
{
    memset(&lent, MARK, sizeof lent);
    aoc_board_clear(board);
    CHECK(all(board, sizeof *board, 0), "a new table");
}

static int guarded(void)
{
    return all(lent.before, GUARD, MARK) && all(lent.after, GUARD, MARK);
}

/* ------------------------------------------------------------------ operations */

static aoc_event plain(uint8_t kind)
{
    aoc_event event;
    memset(&event, 0, sizeof event);
    event.kind = kind;
    return event;
}

/* A Setup with an identifier for each service that is not negative. */
static aoc_event setup(int s, int d, int e)
{
    aoc_event event = plain(AOC_EVENT_SETUP);
    event.asked.s = s >= 0;
    event.asked.d = d >= 0;
    event.asked.e = e >= 0;
    event.s = s >= 0 ? (uint16_t)s : 0;
    event.d = d >= 0 ? (uint16_t)d : 0;
    event.e = e >= 0 ? (uint16_t)e : 0;
    return event;
}

/* One call by itself: what the table is to answer for its reference. */
static struct {
    int held;
    aoc_account account;
} own[65536];

static int held;

static void begin_own(void)
{
    memset(own, 0, sizeof own);
    held = 0;
    begin();
}

static int same_viewed(uint16_t reference)
{
    aoc_viewed seen = aoc_board_view(board, reference), wanted;
    memset(&wanted, 0, sizeof wanted);
    if (own[reference].held)
        wanted.account = own[reference].account;
    else
        wanted.refusal = AOC_REFUSED_NOT_HELD;
    return !memcmp(&seen, &wanted, sizeof seen);
}

static uint32_t event(uint16_t reference, aoc_event e, const uint8_t *octets, size_t n)
{
    aoc_outcome wanted = {0, 0};
    was = *board;
    aoc_outcome given = aoc_board_event(board, reference, e, lend(octets, n), n);
    if (e.kind == AOC_EVENT_SETUP) {
        aoc_account first = aoc_fresh();
        if (own[reference].held)
            wanted.number = AOC_REFUSED_IN_USE;
        else if (held == AOC_LIMIT_CALLS)
            wanted.number = AOC_REFUSED_FULL;
        else {
            wanted = aoc_step(&first, e, lend(octets, n), n);
            if (wanted.number == 0) {
                own[reference].held = 1;
                own[reference].account = first;
                held++;
            }
        }
    } else if (!own[reference].held)
        wanted.number = AOC_REFUSED_NOT_HELD;
    else
        wanted = aoc_step(&own[reference].account, e, lend(octets, n), n);
    CHECK(given.number == wanted.number && given.service == wanted.service, "an event's answer");
    CHECK(!aoc_is_refusal(given.number) || !memcmp(board, &was, sizeof was), "refused, the table is as it was");
    CHECK(guarded() && same_viewed(reference), "what is held");
    return given.number;
}

static aoc_collected collect(uint16_t reference)
{
    aoc_collected wanted;
    memset(&wanted, 0, sizeof wanted);
    was = *board;
    aoc_collected given = aoc_board_collect(board, reference);
    if (!own[reference].held)
        wanted.refusal = AOC_REFUSED_NOT_HELD;
    else if (aoc_phase_of(&own[reference].account) != AOC_PHASE_ENDED)
        wanted.refusal = AOC_REFUSED_WRONG_PHASE;
    else {
        wanted.closing = aoc_closing_of(&own[reference].account);
        own[reference].held = 0;
        held--;
    }
    CHECK(!memcmp(&given, &wanted, sizeof given), "a collection's answer");
    CHECK(!given.refusal || !memcmp(board, &was, sizeof was), "refused, the table is as it was");
    CHECK(guarded() && same_viewed(reference), "what is held");
    return given;
}

/* ------------------------------------------------------------------ the cases */

/* A component by its name and number. */
static size_t component(const char *name, int number, uint8_t *to)
{
    char text[128];
    if (!strcmp(name, "sub") || !strcmp(name, "tot"))
        snprintf(text, sizeof text, "A1 1A 02 01 01 02 01 21 30 12 A1 0D 81 03 45 55 52 A2 06 81 01 %02X 82 01 00 82 01 0%d", (unsigned)number,
                 name[0] == 't');
    else if (!strcmp(name, "E"))
        snprintf(text, sizeof text, "A1 11 02 01 02 02 01 24 30 09 30 07 A1 05 30 03 02 01 %02X", (unsigned)number);
    else if (!strcmp(name, "yes"))
        snprintf(text, sizeof text, "A2 0A 02 01 %02X 30 05 02 01 1E 05 00", (unsigned)number);
    else if (!strcmp(name, "bad"))
        snprintf(text, sizeof text, "A1 08 02 01 03 02 01 23 81 00");
    else
        text[0] = 0;
    return unhex(text, to);
}

/* One operation, "REFERENCE NAME NUMBERS"; its answer as text: a number, or what was collected. */
static void one(const char *text, char *answer, size_t room)
{
    static const char *const moves[] = {"", "setup", "connect", "clear", "released", "", "suspend", "resume"};
    int reference, number = 0, d = -1, n = 0;
    char name[16];
    uint8_t octets[64];
    sscanf(text, "%d %15s%n", &reference, name, &n);
    uint16_t r = (uint16_t)reference;
    if (!strcmp(name, "collect")) {
        aoc_collected c = collect(r);
        if (c.refusal)
            snprintf(answer, room, "%u", (unsigned)c.refusal);
        else if (c.closing.service == AOC_SERVICE_NONE)
            snprintf(answer, room, "none");
        else
            snprintf(answer, room, "%s%u", c.closing.service == AOC_SERVICE_D ? "D" : "E",
                     (unsigned)(c.closing.charge.kind == AOC_CHARGE_UNITS ? c.closing.charge.unit_numbers[0] : c.closing.charge.money.number));
        return;
    }
    if (!strcmp(name, "setup")) {
        int s = -1;
        aoc_event e = setup(-1, -1, -1);
        if (sscanf(text + n, " %d %d", &s, &d) == 2)
            e = setup(s, d, -1);
        else if (sscanf(text + n, " - %d", &d) == 1)
            e = setup(-1, d, -1);
        snprintf(answer, room, "%u", (unsigned)event(r, e, NULL, 0));
        return;
    }
    for (uint8_t kind = 2; kind < 8; kind++)
        if (!strcmp(name, moves[kind])) {
            snprintf(answer, room, "%u", (unsigned)event(r, plain(kind), NULL, 0));
            return;
        }
    sscanf(text + n, " %d", &number);
    size_t count = component(name, number, octets);
    snprintf(answer, room, "%u", (unsigned)event(r, plain(AOC_EVENT_COMPONENT), octets, count));
}

/* `first` Setups, for the references 1 to `first`, and then the operations. */
static const struct {
    const char *name;
    int first;
    const char *operations, *answers;
} cases[] = {
    {"13.a", 0, "7 connect; 7 collect; 7 bad", "37 37 37"},
    {"13.b", 0, "7 setup; 7 setup; 7 setup 1 1; 8 setup", "0 35 35 0"},
    {"13.c", 0, "7 setup 1 1; 7 connect; 7 setup", "13 37 0"},
    {"13.d", 0, "7 setup; 7 collect; 7 clear; 7 collect; 7 released; 7 collect; 7 collect", "0 14 0 14 0 none 37"},
    {"13.e", 0, "7 setup; 7 clear; 7 E 12; 7 released; 7 E 13; 7 setup; 7 collect; 7 setup", "0 0 22 0 14 35 E12 0"},
    {"13.f", 0, "7 setup; 8 setup; 7 clear; 8 connect; 8 sub 5; 7 tot 9; 8 clear; 7 released; 8 released; 8 collect; 7 collect",
     "0 0 0 0 21 22 0 0 0 none D9"},
    {"13.g", 0, "0 setup; 65535 setup; 0 clear; 65535 clear; 0 released; 0 collect; 65535 released; 65535 collect", "0 0 0 0 0 none 0 none"},
    {"13.h", 64, "65 setup; 1 setup; 65 setup 1 1; 65 clear", "36 35 36 37"},
    {"13.i", 64, "5 clear; 5 released; 65 setup; 5 collect; 65 setup; 66 setup; 5 connect", "0 0 36 none 0 36 37"},
    {"13.j", 64, "5 clear; 5 released; 5 collect; 65 setup 1 1; 66 setup; 67 setup", "0 0 none 13 0 36"},
    {"13.k", 0, "7 setup - 5; 7 connect; 7 sub 5; 7 suspend; 7 sub 5; 7 resume; 7 yes 5; 7 sub 5", "0 0 26 0 27 0 24 21"},
    {"13.l", 0, "7 setup; 7 clear; 7 tot 5; 7 released; 7 collect; 7 setup; 7 clear; 7 tot 6; 7 released; 7 collect", "0 0 22 0 D5 0 0 22 0 D6"},
    {"13.m", 0, "7 setup; 7 bad; 7 cut; 7 released; 7 clear; 8 bad", "0 41 1 14 0 37"},
};

static void run_case(size_t i)
{
    char text[512], got[256] = "", answer[32];
    begin_own();
    for (int r = 1; r <= cases[i].first; r++)
        CHECK(event((uint16_t)r, setup(-1, -1, -1), NULL, 0) == 0, cases[i].name);
    snprintf(text, sizeof text, "%s", cases[i].operations);
    for (char *part = strtok(text, ";"); part; part = strtok(NULL, ";")) {
        one(part, answer, sizeof answer);
        if (got[0])
            strcat(got, " ");
        strcat(got, answer);
    }
    if (strcmp(got, cases[i].answers))
        printf("%s: %s\n", cases[i].name, got);
    CHECK(!strcmp(got, cases[i].answers), cases[i].name);
}

/* ------------------------------------------------------------------ slots */

/* A Setup takes the lowest free place, and a collected one is all zeros. */
static void places(void)
{
    begin_own();
    for (int r = 0; r < 64; r++) {
        CHECK(event((uint16_t)(1000 + r), setup(-1, -1, -1), NULL, 0) == 0, "64 calls");
        CHECK(board->keys[r] == (uint32_t)(1001 + r) && all(&board->keys[r + 1], (size_t)(63 - r) * 4, 0), "places in order");
    }
    static const int freed[] = {40, 3, 17};
    for (int i = 0; i < 3; i++) {
        uint16_t r = (uint16_t)(1000 + freed[i]);
        event(r, plain(AOC_EVENT_CLEAR), NULL, 0);
        event(r, plain(AOC_EVENT_RELEASED), NULL, 0);
        collect(r);
        CHECK(board->keys[freed[i]] == 0 && all(&board->calls[freed[i]], sizeof(aoc_account), 0), "a freed place");
    }
    static const int taken[] = {3, 17, 40};
    for (int i = 0; i < 3; i++) {
        event((uint16_t)(2000 + i), setup(-1, 5, -1), NULL, 0);
        CHECK(board->keys[taken[i]] == (uint32_t)(2001 + i), "the lowest free place");
    }
    CHECK(event(9, setup(-1, -1, -1), NULL, 0) == AOC_REFUSED_FULL, "full again");
}

/* Any operations, for few references and for more than there are places. */
static void any_operations(int references, long count)
{
    static const char *const names[] = {"sub", "tot", "E", "yes", "bad", "cut"};
    uint8_t octets[64];
    begin_own();
    for (long i = 0; i < count; i++) {
        uint16_t r = (uint16_t)(chance() % (uint64_t)references * 8191);
        unsigned what = chance() % 12;
        if (what < 3)
            event(r, setup(what == 0 ? 5 : -1, 5, what == 1 ? 6 : -1), NULL, 0);
        else if (what < 6)
            event(r, plain((uint8_t)(chance() % 9)), NULL, 0);
        else if (what < 8)
            collect(r);
        else {
            size_t n = component(names[chance() % 6], (int)(chance() % 7), octets);
            event(r, plain(AOC_EVENT_COMPONENT), octets, n);
        }
    }
}

/* ------------------------------------------------------------------ tables that hold anything */

/* What the table's own words say of any octets: the lowest place with a key counts. */
static int lowest(uint32_t key)
{
    for (int i = 0; i < 64; i++)
        if (board->keys[i] == key)
            return i;
    return 64;
}

static void hostile(void)
{
    static aoc_board next;
    for (int round = 0; round < 3000; round++) {
        memset(&lent, MARK, sizeof lent);
        for (size_t i = 0; i < sizeof *board / 8; i++) {
            uint64_t word = chance();
            memcpy((uint8_t *)board + 8 * i, &word, 8);
        }
        for (int i = 0; i < 64; i++) {
            if (round % 2)
                board->keys[i] = (uint32_t)(chance() % 5);
            board->calls[i].phase %= 8;
        }
        uint16_t r = (uint16_t)(round % 2 ? chance() % 6 : chance());
        aoc_event e = plain((uint8_t)(chance() % 8));
        uint8_t octets[64];
        size_t n = component("tot", (int)(chance() % 3), octets);
        int mine = lowest(r + 1u), free = lowest(0);
        next = was = *board;
        aoc_outcome wanted = {0, 0}, given = aoc_board_event(board, r, e, lend(octets, n), n);
        if (e.kind == AOC_EVENT_SETUP) {
            aoc_account first = aoc_fresh();
            if (mine < 64)
                wanted.number = AOC_REFUSED_IN_USE;
            else if (free == 64)
                wanted.number = AOC_REFUSED_FULL;
            else {
                wanted = aoc_step(&first, e, lend(octets, n), n);
                next.keys[free] = r + 1u;
                next.calls[free] = first;
            }
        } else if (mine == 64)
            wanted.number = AOC_REFUSED_NOT_HELD;
        else
            wanted = aoc_step(&next.calls[mine], e, lend(octets, n), n);
        CHECK(given.number == wanted.number && given.service == wanted.service && !memcmp(board, &next, sizeof next) && guarded(), "any table, an event");
        *board = next = was;
        aoc_collected c = aoc_board_collect(board, r), none;
        memset(&none, 0, sizeof none);
        if (mine == 64)
            none.refusal = AOC_REFUSED_NOT_HELD;
        else if (next.calls[mine].phase != AOC_PHASE_ENDED)
            none.refusal = AOC_REFUSED_WRONG_PHASE;
        else {
            none.closing = aoc_closing_of(&next.calls[mine]);
            next.keys[mine] = 0;
            memset(&next.calls[mine], 0, sizeof next.calls[mine]);
        }
        CHECK(!memcmp(&c, &none, sizeof c) && !memcmp(board, &next, sizeof next) && guarded(), "any table, a collection");
        *board = was;
        aoc_viewed v = aoc_board_view(board, r), zero;
        memset(&zero, 0, sizeof zero);
        if (mine == 64)
            zero.refusal = AOC_REFUSED_NOT_HELD;
        else
            zero.account = was.calls[mine];
        CHECK(!memcmp(&v, &zero, sizeof v) && !memcmp(board, &was, sizeof was) && guarded(), "any table, a reading");
    }
}

int main(void)
{
    make_edges();
    for (size_t i = 0; i < sizeof cases / sizeof cases[0]; i++)
        run_case(i);
    places();
    any_operations(4, 20000);
    any_operations(70, 20000);
    hostile();
    return report("board");
}
