/* Messages as they come: each becomes its events, on an account and on a board, as the trace of the whole call would have them; the
 * key of a call; rows as events; lists put on a board again; and the rules of charging over a list with refused events. */
#include "check.h"
#include "components.h"
#include "aoc_text.h"

enum { VALID = sizeof valid / sizeof *valid, EVENTS = 24, OCTETS = 8192, ROWS = AOC_ROW_NUMBERS * OCTETS, MESSAGE = 300 };

/* A third place up to which memory may be touched, for rows. */
static uint8_t *row_edge;

static void make_row_edge(void)
{
    uint8_t *p = mmap(NULL, 3 * PAGE, PROT_READ | PROT_WRITE, MAP_PRIVATE | MAP_ANONYMOUS, -1, 0);
    if (p == MAP_FAILED || mprotect(p + 2 * PAGE, PAGE, PROT_NONE)) {
        printf("no memory\n");
        exit(1);
    }
    row_edge = p + 2 * PAGE;
}

/* Marked rows that end at that edge, with a guard before them. */
static uint16_t *row_room(size_t numbers)
{
    memset(row_edge - 2 * numbers - GUARD, MARK, 2 * numbers + GUARD);
    return (uint16_t *)(row_edge - 2 * numbers);
}

/* A list that grows. */
struct list {
    uint16_t rows[ROWS];
    uint8_t octets[OCTETS];
    size_t numbers, length;
};

static void add(struct list *list, const uint16_t *row, const uint8_t *octets)
{
    memcpy(list->rows + list->numbers, row, AOC_ROW_NUMBERS * sizeof *row);
    if (row[5])
        memcpy(list->octets + list->length, octets, row[5]);
    list->numbers += AOC_ROW_NUMBERS;
    list->length += row[5];
}

static int same_list(const struct list *a, const struct list *b)
{
    return a->numbers == b->numbers && a->length == b->length && !memcmp(a->rows, b->rows, 2 * a->numbers) &&
           !memcmp(a->octets, b->octets, a->length);
}

/* ------------------------------------------------------------------ the key of a call */

/* The answer, with the key as it was where there is none. */
static int key_of(uint32_t direction, const uint8_t *octets, size_t n)
{
    uint16_t key = 0xA5A5;
    bool found = aoc_call_key(direction, lend(octets, n), n, &key);
    CHECK(found || key == 0xA5A5, "a key");
    return found ? key : -1;
}

static void test_keys(void)
{
    static const uint32_t directions[] = {AOC_FROM_USER, AOC_FROM_NETWORK, 2, 0xFFFFFFFF};
    for (size_t i = 0; i < 4; i++) {
        int network = i > 0;
        for (unsigned value = 0; value < 0x8000; value++) {
            for (unsigned flag = 0; flag < 2; flag++) {
                uint8_t two[] = {0x08, 2, (uint8_t)(flag << 7 | value >> 8), (uint8_t)value, 0x62};
                uint8_t one[] = {0x08, 1, (uint8_t)(flag << 7 | value), 0x62};
                /* flag 0 from the network, or flag 1 from the user: the network began the call */
                int wanted = value == 0 ? -1 : (int)value + (network == (flag == 0) ? 0x8000 : 0);
                CHECK(key_of(directions[i], two, sizeof two) == wanted, "a reference of two octets");
                CHECK(value > 127 || key_of(directions[i], one, sizeof one) == wanted, "a reference of one octet");
                CHECK(key_of(directions[i], two, 4) == wanted && key_of(directions[i], two, 3) == -1, "its end");
            }
        }
        CHECK(key_of(directions[i], (const uint8_t[]){0x08, 0x00, 0x62}, 3) == -1, "the dummy reference");
        CHECK(key_of(directions[i], (const uint8_t[]){0x08, 0x03, 0, 0, 1, 0x62}, 6) == -1, "three octets");
        CHECK(key_of(directions[i], (const uint8_t[]){0x08, 0x11, 1, 0x62}, 4) == -1, "a length that is none");
        CHECK(key_of(directions[i], (const uint8_t[]){0x09, 0x01, 1, 0x62}, 4) == -1, "another discriminator");
        CHECK(key_of(directions[i], (const uint8_t[]){0x08, 0x01}, 2) == -1 && key_of(directions[i], (const uint8_t[]){0x08}, 1) == -1, "cut");
        uint16_t key;
        CHECK(!aoc_call_key(directions[i], NULL, 0, &key), "no octets");
    }
}

/* ------------------------------------------------------------------ rows as events */

static void test_rows(void)
{
    for (int turn = 0; turn < 100000; turn++) {
        uint16_t row[AOC_ROW_NUMBERS], again[AOC_ROW_NUMBERS];
        for (size_t i = 0; i < AOC_ROW_NUMBERS; i++)
            row[i] = (uint16_t)(chance() % (chance() % 2 ? 9 : 65536));
        aoc_event event = aoc_event_at((const uint16_t *)lend(row, sizeof row));
        CHECK(event.asked.s <= 1 && event.asked.d <= 1 && event.asked.e <= 1, "an event of a row");
        aoc_row_of(event, row[5], again);
        row[0] = row[0] < 256 ? row[0] : 0;
        row[1] &= 7;
        CHECK(!memcmp(row, again, sizeof row), "the row of the event of a row");
        aoc_event back = aoc_event_at(again);
        CHECK(!memcmp(&back, &event, sizeof back), "the event of the row of an event");
    }
}

/* ------------------------------------------------------------------ messages */

/* A message's events, laid between edges: the rows and octets are then in these. */
static uint16_t *got_rows;
static uint8_t *got_octets;

static aoc_trace_answer events_of(uint32_t direction, const uint8_t *octets, size_t n)
{
    got_rows = row_room(AOC_ROW_NUMBERS * n);
    got_octets = make_room(n);
    aoc_trace_answer answer = aoc_message_events(direction, lend(octets, n), n, got_rows, AOC_ROW_NUMBERS * n, got_octets, n);
    CHECK(all(got_octets - GUARD, GUARD, MARK) && all((uint8_t *)got_rows - GUARD, GUARD, MARK), "a message");
    CHECK(all(got_rows + AOC_ROW_NUMBERS * answer.events, 2 * AOC_ROW_NUMBERS * (n - answer.events), MARK), "a message's rows");
    CHECK(all(got_octets + answer.octets, n - answer.octets, MARK), "a message's octets");
    return answer;
}

/* The Facility elements of a message, gone through by hand, have the components that are its events. */
static long facilities;

static void check_facilities(uint32_t direction, const uint8_t *octets, size_t n, const aoc_trace_answer *answer)
{
    size_t place = 0, from = 0, components = 0, at = 0;
    const uint8_t *lent = lend(octets, n);
    uint8_t type = octets[2 + octets[1]];
    while (aoc_next_facility(lent, n, &place, &from)) {
        size_t inside = AOC_FIRST_PLACE, start = inside;
        aoc_answer component;
        CHECK(octets[from] == 0x1C && place == from + 2 + octets[from + 1], "a Facility element");
        for (; aoc_next(lent + from, place - from, &inside, &component); start = inside) {
            if (component.refusal == AOC_REFUSED_OTHER_PROFILE)
                continue;
            CHECK(direction == AOC_FROM_USER || !memcmp(got_octets + at, octets + from + start, inside - start), "a component");
            at += inside - start;
            components++;
        }
        facilities++;
    }
    CHECK(!aoc_next_facility(lent, n, &place, &from), "past the last");
    size_t others = (type == 0x07) + (type == 0x45) + (type == 0x4D) + 2 * (type == 0x5A);      /* Connect, Clear, Released */
    if (direction != AOC_FROM_USER)
        CHECK(answer->events == components + others && answer->octets == at, "its components");
}

/* Kinds of messages, the user's first. */
enum { ALERTING = 0x01, SETUP = 0x05, CONNECT = 0x07, DISCONNECT = 0x45, RELEASE = 0x4D, COMPLETE = 0x5A, FACILITY = 0x62 };

static size_t message(uint8_t *to, uint32_t direction, uint16_t reference, uint8_t type)
{
    size_t n = 0, at;
    to[n++] = 0x08;
    to[n++] = 2;
    to[n++] = (uint8_t)(reference >> 8 | (direction == AOC_FROM_NETWORK ? 0x80 : 0));
    to[n++] = (uint8_t)reference;
    to[n++] = type;
    if (chance() % 4 == 0)
        to[n++] = (uint8_t)(chance() % 2 ? 0xA1 : 0x90 + chance() % 16);        /* an element of one octet, or a shift */
    for (uint64_t elements = chance() % 3; elements > 0 && n < 150; elements--) {
        at = n;
        to[n++] = 0x1C;
        to[n++] = 0;
        to[n++] = chance() % 12 ? 0x91 : 0x9F;
        size_t component = n;
        n += unhex(valid[chance() % VALID].hex, to + n);
        if (component + 5 < n)
            to[component + 4] = (uint8_t)(chance() % 4);        /* the identifier of most */
        if (chance() % 12 == 0)
            to[at + 2 + chance() % (n - at - 2)] ^= (uint8_t)chance();
        to[at + 1] = (uint8_t)(n - at - 2);
    }
    return n;
}

/* A call's messages, one after another and as a whole trace: the same events but for second Clears, the same account, and on a board
 * the same again under one key. */
static void test_calls(void)
{
    static const uint8_t types[] = {ALERTING, CONNECT, CONNECT, FACILITY, FACILITY, DISCONNECT, RELEASE, COMPLETE, SETUP};
    static struct list live, whole, a, b;
    static aoc_board board;
    long clears = 0, ended = 0;
    for (int turn = 0; turn < 5000; turn++) {
        uint8_t trace[OCTETS];
        uint32_t pairs[2 * EVENTS];
        size_t n = 0, count = 0, refused_clears = 0;
        uint16_t reference = (uint16_t)(chance() % 32767 + 1), key = 0;
        aoc_account account = aoc_fresh(), again;
        live.numbers = live.length = 0;
        aoc_board_clear(&board);
        for (size_t last = chance() % 16 + 2; count < last; count++) {
            uint32_t direction = count == 0 ? AOC_FROM_USER : chance() % 3 ? AOC_FROM_NETWORK : AOC_FROM_USER;
            uint8_t type = count == 0 ? SETUP : types[(chance() % 3 + count / 2) % sizeof types];
            size_t size = message(trace + n, direction, reference, type);
            aoc_trace_answer answer = events_of(direction, trace + n, size);
            CHECK(answer.refusal == AOC_ACCEPTED && answer.message == 0, "a message is framed");
            check_facilities(direction, trace + n, size, &answer);
            CHECK(aoc_call_key(direction, trace + n, size, &key) && key == reference, "its key");
            size_t at = 0;
            for (size_t i = 0; i < answer.events; i++) {
                const uint16_t *row = got_rows + AOC_ROW_NUMBERS * i;
                aoc_outcome x = aoc_step(&account, aoc_event_at(row), got_octets + at, row[5]);
                aoc_outcome y = aoc_board_event(&board, key, aoc_event_at(row), got_octets + at, row[5]);
                CHECK(x.number == y.number || (x.number == AOC_REFUSED_WRONG_PHASE && (y.number == AOC_REFUSED_IN_USE || y.number == AOC_REFUSED_NOT_HELD)), "an account and a board");
                if (row[0] == AOC_EVENT_CLEAR && aoc_is_refusal(x.number))
                    refused_clears++;
                add(&live, row, got_octets + at);
                at += row[5];
            }
            CHECK(at == answer.octets, "all octets of a message's events");
            pairs[2 * count] = (uint32_t)size;
            pairs[2 * count + 1] = direction;
            n += size;
        }
        clears += (long)refused_clears;
        ended += aoc_phase_of(&account) == AOC_PHASE_ENDED;
        aoc_trace_answer answer = aoc_trace_events(pairs, 2 * count, trace, n, whole.rows, ROWS, whole.octets, OCTETS);
        CHECK(answer.refusal == AOC_ACCEPTED, "the trace");
        whole.numbers = AOC_ROW_NUMBERS * answer.events;
        whole.length = answer.octets;
        CHECK(aoc_replay(whole.rows, whole.numbers, whole.octets, whole.length, &again) == AOC_ACCEPTED && !memcmp(&account, &again, sizeof again), "one account");
        aoc_trace_answer x = aoc_accepted_events(live.rows, live.numbers, live.octets, live.length, a.rows, ROWS, a.octets, OCTETS);
        aoc_trace_answer y = aoc_accepted_events(whole.rows, whole.numbers, whole.octets, whole.length, b.rows, ROWS, b.octets, OCTETS);
        a.numbers = AOC_ROW_NUMBERS * x.events, a.length = x.octets;
        b.numbers = AOC_ROW_NUMBERS * y.events, b.length = y.octets;
        CHECK(x.refusal == AOC_ACCEPTED && y.refusal == AOC_ACCEPTED && same_list(&a, &b), "the same accepted events");
        /* the whole trace has one Clear, and the lists differ in no other events */
        CHECK(live.numbers - whole.numbers <= AOC_ROW_NUMBERS * refused_clears, "what differs");
        aoc_viewed viewed = aoc_board_view(&board, key);
        CHECK(viewed.refusal ? aoc_phase_of(&account) == AOC_PHASE_IDLE : !memcmp(&viewed.account, &account, sizeof account), "the board's account");
    }
    CHECK(clears > 1000 && ended > 500 && facilities > 10000, "calls that are cleared twice, and that end");
}

/* What the header says of one message: a second Clear, another's call, and a call whose first clearing message came too early. */
static void test_differences(void)
{
    static const struct {
        uint32_t direction;
        const char *hex;
        uint8_t phase;          /* after it, on the account of the user's call 1 */
    } steps[] = {
        {AOC_FROM_NETWORK, "08 01 81 5A", AOC_PHASE_IDLE},
        {AOC_FROM_USER, "08 01 01 05 1C 0C 91 A1 09 02 01 05 02 01 1E 0A 01 01", AOC_PHASE_ESTABLISHMENT},
        {AOC_FROM_NETWORK, "08 01 81 07", AOC_PHASE_ACTIVE},
        {AOC_FROM_NETWORK, "08 01 01 05", AOC_PHASE_ACTIVE},            /* the network's own call 1 begins, */
        {AOC_FROM_NETWORK, "08 01 01 45", AOC_PHASE_ACTIVE},            /* is cleared, */
        {AOC_FROM_USER, "08 01 81 5A", AOC_PHASE_ACTIVE},               /* and over */
        {AOC_FROM_NETWORK, "08 02 80 01 45", AOC_PHASE_CLEARING},
        {AOC_FROM_USER, "08 01 01 4D", AOC_PHASE_CLEARING},
        {AOC_FROM_NETWORK, "08 01 81 5A", AOC_PHASE_ENDED},
    };
    static aoc_board board;
    aoc_board_clear(&board);
    for (size_t i = 0; i < sizeof steps / sizeof *steps; i++) {
        uint8_t octets[MESSAGE];
        size_t n = unhex(steps[i].hex, octets), at = 0;
        uint16_t key = 0;
        CHECK(aoc_call_key(steps[i].direction, octets, n, &key) && (key == 1 || key == 0x8001), steps[i].hex);
        aoc_trace_answer answer = events_of(steps[i].direction, octets, n);
        for (size_t k = 0; k < answer.events; at += got_rows[AOC_ROW_NUMBERS * k + 5], k++) {
            const uint16_t *row = got_rows + AOC_ROW_NUMBERS * k;
            aoc_outcome outcome = aoc_board_event(&board, key, aoc_event_at(row), got_octets + at, row[5]);
            CHECK(key == 1 || outcome.number == AOC_REFUSED_NOT_HELD, "a call of the network");
        }
        aoc_viewed viewed = aoc_board_view(&board, 1);
        CHECK(viewed.refusal ? steps[i].phase == AOC_PHASE_IDLE : aoc_phase_of(&viewed.account) == steps[i].phase, steps[i].hex);
        CHECK(steps[i].phase != AOC_PHASE_ACTIVE || aoc_pending_of(&viewed.account).d == 5, "the SETUP's request");
    }
    CHECK(aoc_board_collect(&board, 1).refusal == AOC_ACCEPTED, "collected");
    CHECK(aoc_board_view(&board, 0x8001).refusal == AOC_REFUSED_NOT_HELD, "no Setup of the network");
}

/* Octets that are no message, and room that is too short. */
static void test_bad_messages(void)
{
    static const char *const bad[] = {"", "08", "08 00", "08 01 05", "08 02 05", "08 03 01 02 03 62", "09 01 05 62", "08 01 05 62 1C", "08 01 05 62 1C 05 91"};
    for (size_t i = 0; i < sizeof bad / sizeof *bad; i++) {
        uint8_t octets[MESSAGE];
        size_t n = unhex(bad[i], octets);
        aoc_trace_answer answer = events_of(AOC_FROM_NETWORK, octets, n);
        CHECK(answer.refusal == AOC_REFUSED_FRAMING && answer.message == 1 && answer.events == 0 && answer.octets == 0, bad[i]);
    }
    /* shifts, one after another too, and what only looks like an element */
    static const struct {
        const char *hex;
        size_t count, first;
    } shifts[] = {
        {"08 01 81 62 1C 01 91 1C 00", 2, 4}, {"08 00 62 1C 00", 1, 3}, {"08 02 00 01 62 1C 01 9F", 1, 5}, {"08 01 81 62 96 1C 00 1C 00", 0, 0},
        {"08 01 81 62 9E 1C 00 1C 00", 1, 7}, {"08 01 81 62 9E A1 1C 00", 1, 6}, {"08 01 81 62 9E 9D 1C 00 1C 00", 1, 8},
        {"08 01 81 62 9E 90 1C 00 1C 00", 0, 0}, {"08 01 81 62 98 1C 00 1C 00", 1, 7}, {"08 01 81 62 28 02 1C 00 1C 00", 1, 8},
        {"08 01 81 1C 00", 0, 0}, {"08 01 81 62 1C", 0, 0}, {"08 01 81 62 1C 02 91", 0, 0}, {"08 03 81 00 00 62 1C 00", 0, 0}, {"09 01 81 62 1C 00", 0, 0},
        {"08 01 81", 0, 0}, {"08 02 81", 0, 0}, {"08", 0, 0}, {"", 0, 0},
    };
    for (size_t i = 0; i < sizeof shifts / sizeof *shifts; i++) {
        uint8_t octets[MESSAGE];
        size_t n = unhex(shifts[i].hex, octets), place = 0, from = 0, count = 0, first = 0;
        for (; aoc_next_facility(n ? lend(octets, n) : NULL, n, &place, &from); count++)
            first = count ? first : from;
        CHECK(count == shifts[i].count && first == shifts[i].first, shifts[i].hex);
    }
    uint8_t connect[] = {0x08, 0x01, 0x81, 0x07};
    CHECK(aoc_message_events(AOC_FROM_NETWORK, connect, sizeof connect, NULL, 0, NULL, 0).refusal == AOC_REFUSED_NO_ROOM, "no room");
    CHECK(events_of(7, connect, sizeof connect).events == 1 && got_rows[0] == AOC_EVENT_CONNECT, "any direction but the user's");
    CHECK(events_of(AOC_FROM_USER, connect, sizeof connect).events == 0, "the user's CONNECT");
}

/* ------------------------------------------------------------------ boards of lists */

/* Calls on a board, each event taken with its row; their lists on another board give the same calls. */
static void test_boards(void)
{
    enum { CALLS = 5 };
    static struct list lists[CALLS];
    static aoc_board board, again, was;
    long held = 0;
    for (int turn = 0; turn < 400; turn++) {
        aoc_board_clear(&board);
        for (size_t i = 0; i < CALLS; i++)
            lists[i].numbers = lists[i].length = 0;
        for (size_t i = 0; i < 60; i++) {
            uint8_t octets[MESSAGE];
            size_t n = unhex(valid[chance() % VALID].hex, octets), call = chance() % CALLS;
            uint16_t row[AOC_ROW_NUMBERS];
            aoc_event event = any_event(lists[call].numbers);
            octets[4] = (uint8_t)(chance() & 3);
            memcpy(&was, &board, sizeof was);
            aoc_outcome x = aoc_board_take(&board, (uint16_t)(7 * call), event, lend(octets, n), n, row);
            aoc_outcome y = aoc_board_event(&was, (uint16_t)(7 * call), event, octets, n);
            CHECK(!memcmp(&x, &y, sizeof x) && !memcmp(&board, &was, sizeof was), "taken on a board");
            CHECK(row[0] == event.kind && row[5] == (event.kind == AOC_EVENT_COMPONENT ? n : 0), "its row");
            add(&lists[call], row, octets);
        }
        aoc_board_clear(&again);
        for (size_t i = CALLS; i-- > 0;) {
            uint16_t reference = (uint16_t)(7 * i);
            aoc_account account;
            const uint16_t *rows = (const uint16_t *)memcpy(row_room(lists[i].numbers), lists[i].rows, 2 * lists[i].numbers);
            CHECK(aoc_board_replay(&again, reference, rows, lists[i].numbers, lend(lists[i].octets, lists[i].length), lists[i].length) == AOC_ACCEPTED, "put on a board");
            aoc_viewed x = aoc_board_view(&board, reference), y = aoc_board_view(&again, reference);
            CHECK(!memcmp(&x, &y, sizeof x), "the same call");
            CHECK(aoc_replay(rows, lists[i].numbers, lists[i].octets, lists[i].length, &account) == AOC_ACCEPTED, "replayed");
            CHECK(y.refusal ? aoc_phase_of(&account) == AOC_PHASE_IDLE : !memcmp(&account, &y.account, sizeof account), "its account");
            held += y.refusal == AOC_ACCEPTED;
            memcpy(&was, &again, sizeof was);
            CHECK(y.refusal || aoc_board_replay(&again, reference, rows, lists[i].numbers, lists[i].octets, lists[i].length) == AOC_REFUSED_IN_USE, "put there twice");
            CHECK(!memcmp(&was, &again, sizeof was), "put there twice");
        }
    }
    CHECK(held > 1000, "calls that are held");

    /* slices that are no list, a reference that is held, a full board: it is as it was */
    static const uint16_t setup[AOC_ROW_NUMBERS] = {AOC_EVENT_SETUP, 0, 0, 0, 0, 0}, over[AOC_ROW_NUMBERS] = {AOC_EVENT_COMPONENT, 0, 0, 0, 0, 2};
    aoc_board_clear(&board);
    for (uint16_t reference = 0; reference < AOC_LIMIT_CALLS; reference++)
        CHECK(aoc_board_replay(&board, reference, setup, AOC_ROW_NUMBERS, NULL, 0) == AOC_ACCEPTED, "64 calls");
    memcpy(&was, &board, sizeof was);
    CHECK(aoc_board_replay(&board, 999, setup, AOC_ROW_NUMBERS, NULL, 0) == AOC_REFUSED_FULL, "a full board");
    CHECK(aoc_board_replay(&board, 5, setup, AOC_ROW_NUMBERS, NULL, 0) == AOC_REFUSED_IN_USE, "a reference that is held");
    CHECK(aoc_board_replay(&board, 5, setup, 5, NULL, 0) == AOC_REFUSED_LENGTHS, "a row that is not whole");
    CHECK(aoc_board_replay(&board, 999, over, AOC_ROW_NUMBERS, (const uint8_t *)"x", 1) == AOC_REFUSED_LENGTHS, "lengths that do not add up");
    CHECK(aoc_board_replay(&board, 999, NULL, 0, NULL, 0) == AOC_ACCEPTED, "the empty list");
    CHECK(!memcmp(&was, &board, sizeof was), "the board as it was");
}

/* ------------------------------------------------------------------ the rules over a list with refused events */

/* What is kept of a list, between edges. */
static void check_kept(const struct list *list, struct list *kept)
{
    uint16_t *rows = row_room(list->numbers);
    uint8_t *out = make_room(list->length);
    aoc_trace_answer answer = aoc_accepted_events(list->rows, list->numbers, lend(list->octets, list->length), list->length, rows, list->numbers, out, list->length);
    CHECK(answer.refusal == AOC_ACCEPTED && answer.message == 0, "what is accepted");
    kept->numbers = kept->length = 0;
    aoc_account account = aoc_fresh();
    for (size_t i = 0, at = 0; i < list->numbers; at += list->rows[i + 5], i += AOC_ROW_NUMBERS)
        if (!aoc_is_refusal(aoc_step(&account, aoc_event_at(list->rows + i), list->octets + at, list->rows[i + 5]).number))
            add(kept, list->rows + i, list->octets + at);
    CHECK(kept->numbers == AOC_ROW_NUMBERS * answer.events && kept->length == answer.octets, "what is accepted");
    CHECK(!memcmp(rows, kept->rows, 2 * kept->numbers) && holds(out, list->length, kept->octets, kept->length), "what is accepted");
    CHECK(all(rows + kept->numbers, 2 * (list->numbers - kept->numbers), MARK) && all((uint8_t *)rows - GUARD, GUARD, MARK), "rows past it");
}

static void test_accepted(void)
{
    static struct list list, kept;
    long broken = 0, moved = 0, clean = 0;
    for (int turn = 0; turn < 20000; turn++) {
        list.numbers = list.length = 0;
        for (size_t i = 0; i < EVENTS; i++) {
            uint8_t octets[MESSAGE];
            size_t n = unhex(valid[chance() % VALID].hex, octets);
            uint16_t row[AOC_ROW_NUMBERS];
            aoc_event event = i == 1 && turn % 2 ? aoc_event_of(AOC_EVENT_CONNECT) : any_event(i);
            if (chance() % 16 == 0)
                octets[chance() % n] ^= (uint8_t)chance();
            aoc_row_of(event, (uint16_t)(event.kind == AOC_EVENT_COMPONENT ? n : 0), row);
            add(&list, row, octets);
        }
        check_kept(&list, &kept);
        aoc_fault_answer own = aoc_fault(kept.rows, kept.numbers, kept.octets, kept.length);
        aoc_fault_answer fault = aoc_fault_of_accepted(list.rows, list.numbers, list.octets, list.length, row_room(list.numbers), list.numbers, make_room(list.length), list.length);
        CHECK(own.refusal == AOC_ACCEPTED && fault.refusal == AOC_ACCEPTED && fault.rule == own.rule, "the rule");
        CHECK((fault.event == 0) == (own.event == 0) && fault.event >= own.event && fault.event <= EVENTS, "the event");
        if (own.event) {
            size_t accepted = 0;
            aoc_account account = aoc_fresh();
            for (size_t i = 0, at = 0; i < fault.event; i++) {
                const uint16_t *row = list.rows + AOC_ROW_NUMBERS * i;
                bool refused = aoc_is_refusal(aoc_step(&account, aoc_event_at(row), list.octets + at, row[5]).number);
                CHECK(!refused || i + 1 < fault.event, "an event that counts");
                accepted += !refused;
                at += row[5];
            }
            CHECK(accepted == own.event, "the event by its number");
            broken++;
            moved += fault.event != own.event;
        }
        if (kept.numbers == list.numbers) {
            clean++;
            CHECK(fault.event == own.event, "no refused event");
        }
    }
    CHECK(broken > 1000 && moved > 500, "rules that are broken");
    /* a list without refused events is kept whole */
    check_kept(&kept, &list);
    CHECK(same_list(&kept, &list), "kept whole");

    /* slices that are no list, and less room than the list has: nothing is touched */
    static const uint16_t rows[2 * AOC_ROW_NUMBERS] = {AOC_EVENT_SETUP, 0, 0, 0, 0, 0, AOC_EVENT_COMPONENT, 0, 0, 0, 0, 2};
    static const uint8_t octets[2] = {0xA1, 0x00};
    for (size_t numbers = 0; numbers <= 12; numbers++) {
        for (size_t length = 0; length <= 2; length++) {
            bool list_of = (numbers == 12 && length == 2) || (numbers == 6 && length == 0) || (numbers == 0 && length == 0);
            for (size_t less = 0; less < 3; less++) {
                size_t room = less == 1 && numbers ? numbers - 1 : numbers, out_room = less == 2 && length ? length - 1 : length;
                uint32_t wanted = !list_of ? AOC_REFUSED_LENGTHS : room < numbers || out_room < length ? AOC_REFUSED_NO_ROOM : AOC_ACCEPTED;
                uint16_t *to = row_room(room);
                uint8_t *out = make_room(out_room);
                aoc_trace_answer answer = aoc_accepted_events(rows, numbers, octets, length, to, room, out, out_room);
                CHECK(answer.refusal == wanted, "refused");
                CHECK(!wanted || (answer.events == 0 && answer.octets == 0 && all(to, 2 * room, MARK) && all(out, out_room, MARK)), "refused");
                aoc_fault_answer fault = aoc_fault_of_accepted(rows, numbers, octets, length, to, room, out, out_room);
                CHECK(fault.refusal == wanted && fault.rule == 0 && fault.event == 0, "refused");
            }
        }
    }
    CHECK(aoc_accepted_events(NULL, 0, NULL, 0, NULL, 0, NULL, 0).refusal == AOC_ACCEPTED, "the empty list");
}

/* What the header warns of: the host's own order as evidence, evidence that is lost with the noise, a zero after free. */
static void test_warnings(void)
{
    static const char *const total = "A1 1A 02 01 01 02 01 21 30 12 A1 0D 81 03 45 55 52 A2 06 81 01 32 82 01 01 82 01 01";
    static const char *const zero = "A1 1A 02 01 01 02 01 21 30 12 A1 0D 81 03 45 55 52 A2 06 81 01 00 82 01 01 82 01 01";
    static const char *const amount = "A1 1A 02 01 01 02 01 21 30 12 A1 0D 81 03 45 55 52 A2 06 81 01 32 82 01 01 82 01 00";
    static const char *const is_free = "A1 08 02 01 03 02 01 21 81 00";
    static const struct {
        const char *of;
        uint32_t rule, event;
        struct {
            uint8_t kind;
            const char *hex;
        } events[8];
    } cases[] = {
        {"a DISCONNECT's component after the clear", AOC_RULE_KEPT, 0, {{1, ""}, {2, ""}, {3, ""}, {5, total}, {4, ""}}},
        {"the same before it, by the host's mistake", AOC_RULE_PLACE, 3, {{1, ""}, {2, ""}, {5, total}, {3, ""}, {4, ""}}},
        {"the same behind a refused event", AOC_RULE_PLACE, 5, {{2, ""}, {1, ""}, {2, ""}, {2, ""}, {5, total}, {3, ""}, {4, ""}}},
        {"an amount out of phase", AOC_RULE_PLACE, 2, {{1, ""}, {5, amount}, {2, ""}, {3, ""}, {4, ""}}},
        {"and without it", AOC_RULE_KEPT, 0, {{1, ""}, {2, ""}, {3, ""}, {4, ""}}},
        {"an amount, free, a total of zero", AOC_RULE_FALL, 6, {{1, ""}, {2, ""}, {5, amount}, {5, is_free}, {3, ""}, {5, zero}, {4, ""}}},
    };
    for (size_t i = 0; i < sizeof cases / sizeof *cases; i++) {
        static struct list list;
        uint16_t kept[8 * AOC_ROW_NUMBERS];
        uint8_t out[256];
        list.numbers = list.length = 0;
        for (size_t k = 0; k < 8 && cases[i].events[k].kind; k++) {
            uint8_t octets[MESSAGE];
            uint16_t row[AOC_ROW_NUMBERS];
            aoc_row_of(aoc_event_of(cases[i].events[k].kind), (uint16_t)unhex(cases[i].events[k].hex, octets), row);
            add(&list, row, octets);
        }
        aoc_fault_answer fault = aoc_fault_of_accepted(list.rows, list.numbers, list.octets, list.length, kept, sizeof kept / 2, out, sizeof out);
        CHECK(fault.refusal == AOC_ACCEPTED && fault.rule == cases[i].rule && fault.event == cases[i].event, cases[i].of);
    }
}

int main(void)
{
    make_edges();
    make_row_edge();
    test_keys();
    test_rows();
    test_calls();
    test_differences();
    test_bad_messages();
    test_boards();
    test_accepted();
    test_warnings();
    return report("live");
}
