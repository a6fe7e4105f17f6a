/* Each inline function that hands on to exports, beside them on the same input: what it answers and leaves is what they do. Events of
 * a kind and months are held against theirs in events.c and month.c too. */
#include "trunk_cases.h"
#include "components.h"
#include "aoc_text.h"

enum { VALID = sizeof valid / sizeof *valid, TURNS = 30000, EVENTS = 12 };

/* ------------------------------------------------------------------ inputs */

static void fill(void *to, size_t n)
{
    uint8_t *o = to;
    for (size_t i = 0; i < n; i++)
        o[i] = (uint8_t)chance();
}

/* A component of either family, or any octets; half of them with one octet changed. At most 320. */
static size_t some_octets(uint8_t *to)
{
    const struct trunk_case *c = trunk_cases + chance() % trunk_case_count;
    size_t n;
    switch (chance() % 4) {
    case 0:
        fill(to, n = chance() % 24);
        break;
    case 1:
        memcpy(to, c->octets + 1, n = c->n - 1);
        break;
    default:
        n = unhex(valid[chance() % VALID].hex, to);
        break;
    }
    if (n && chance() % 2)
        to[chance() % n] = (uint8_t)chance();
    return n;
}

/* Such components behind the head of an element, which may be wrong. */
static size_t some_element(uint8_t *to)
{
    size_t n = 3;
    for (size_t k = chance() % 4; k > 0 && n < 256; k--)
        n += some_octets(to + n);
    to[0] = 0x1C;
    to[1] = (uint8_t)(n - 2);
    to[2] = chance() % 2 ? AOC_PROFILE_LINE : AOC_PROFILE_TRUNK;
    if (chance() % 8 == 0)
        to[chance() % 3] = (uint8_t)chance();
    return n;
}

static uint8_t some_profile(void)
{
    return chance() % 8 == 0 ? (uint8_t)chance() : chance() % 2 ? AOC_PROFILE_LINE : AOC_PROFILE_TRUNK;
}

/* Both records: one that was read, or anything; half of them with some octets changed. */
static void some_either(aoc_either *e)
{
    uint8_t octets[320];
    size_t n = some_octets(octets);
    if (chance() % 8 == 0)
        fill(e, sizeof *e);
    else
        aoc_read_by(chance() % 2 ? AOC_PROFILE_LINE : AOC_PROFILE_TRUNK, octets, n, e);
    for (size_t k = chance() % 2 ? chance() % 3 : 0; k > 0; k--)
        ((uint8_t *)e)[chance() % sizeof *e] = (uint8_t)chance();
}

/* ------------------------------------------------------------------ the parts of both records, each between guards */

static struct {
    uint8_t guard0[GUARD], front[8], guard1[GUARD], figure[48], guard2[GUARD];
    uint32_t numbers[32];
    uint8_t guard3[GUARD], rows[192], guard4[GUARD], trunk_front[48], guard5[GUARD], extension[244], guard6[GUARD], trunk_figure[48];
    uint8_t guard7[GUARD];
    uint32_t trunk_numbers[32];
    uint8_t guard8[GUARD], trunk_rows[192], guard9[GUARD];
} parts;

#define LINE_PARTS &parts.front, &parts.figure, &parts.numbers, &parts.rows
#define TRUNK_PARTS &parts.trunk_front, &parts.extension, &parts.trunk_figure, &parts.trunk_numbers, &parts.trunk_rows

static void clear_parts(void)
{
    memset(&parts, MARK, sizeof parts);
}

static int guarded(void)
{
    return all(parts.guard0, GUARD, MARK) && all(parts.guard1, GUARD, MARK) && all(parts.guard2, GUARD, MARK) &&
           all(parts.guard3, GUARD, MARK) && all(parts.guard4, GUARD, MARK) && all(parts.guard5, GUARD, MARK) &&
           all(parts.guard6, GUARD, MARK) && all(parts.guard7, GUARD, MARK) && all(parts.guard8, GUARD, MARK) &&
           all(parts.guard9, GUARD, MARK);
}

static int same_record(const aoc_record *r)
{
    return !memcmp(r, parts.front, 8) && !memcmp(&r->charge, parts.figure, 48) &&
           !memcmp(r->charge.numbers, parts.numbers, sizeof parts.numbers) && !memcmp(r->charge.octets, parts.rows, sizeof parts.rows);
}

static int same_trunk(const aoc_trunk *t)
{
    return !memcmp(t, parts.trunk_front, 48) && !memcmp(&t->extended, parts.extension, 244) && !memcmp(&t->charge, parts.trunk_figure, 48) &&
           !memcmp(t->charge.numbers, parts.trunk_numbers, sizeof parts.trunk_numbers) &&
           !memcmp(t->charge.octets, parts.trunk_rows, sizeof parts.trunk_rows);
}

/* ------------------------------------------------------------------ reading */

static void test_reading(void)
{
    for (int turn = 0; turn < TURNS; turn++) {
        uint8_t octets[2048], profile = some_profile();
        size_t n = some_octets(octets), place = chance() % 4 ? AOC_FIRST_PLACE : chance() % 300, moved = place;
        const uint8_t *from = n ? lend(octets, n) : NULL;
        aoc_answer a;
        aoc_either e;
        memset(&a, MARK, sizeof a);
        memset(&e, MARK, sizeof e);

        clear_parts();
        aoc_refusal refusal = aoc_read(from, n, &a);
        aoc_refusal_at b = aoc_read_into(from, n, LINE_PARTS);
        CHECK(refusal == b.refusal && a.refusal == b.refusal && a.offset == b.offset, "aoc_read");
        CHECK(same_record(&a.record) && guarded(), "aoc_read: the record");

        clear_parts();
        refusal = aoc_read_by(profile, from, n, &e);
        aoc_judged j = aoc_read_by_into(profile, from, n, LINE_PARTS, TRUNK_PARTS);
        CHECK(refusal == j.refusal && e.refusal == j.refusal && e.offset == j.offset && e.family == j.family, "aoc_read_by");
        CHECK(same_record(&e.record) && same_trunk(&e.trunk) && guarded(), "aoc_read_by: the records");

        n = some_element(octets);
        from = lend(octets, n);
        memset(&a, MARK, sizeof a);
        memset(&e, MARK, sizeof e);
        clear_parts();
        bool more = aoc_next(from, n, &moved, &a);
        aoc_next_answer next = aoc_next_into(from, n, place, LINE_PARTS);
        CHECK(more == (next.after != 0) && moved == (more ? next.after : place), "aoc_next");
        CHECK(a.refusal == next.answer.refusal && a.offset == next.answer.offset, "aoc_next: the answer");
        CHECK(same_record(&a.record) && guarded(), "aoc_next: the record");

        clear_parts();
        moved = place;
        more = aoc_next_by(from, n, &moved, &e);
        aoc_next_by_answer by = aoc_next_by_into(from, n, place, LINE_PARTS, TRUNK_PARTS);
        CHECK(more == (by.after != 0) && moved == (more ? by.after : place), "aoc_next_by");
        CHECK(e.refusal == by.answer.refusal && e.offset == by.answer.offset && e.family == by.answer.family, "aoc_next_by: the answer");
        CHECK(same_record(&e.record) && same_trunk(&e.trunk) && guarded(), "aoc_next_by: the records");
    }
}

/* ------------------------------------------------------------------ writing */

/* What a call left in the whole room, with its guard, beside what another leaves there. */
static uint8_t left[GUARD + 300];

static void keep(const uint8_t *buffer, size_t room)
{
    memcpy(left, buffer - GUARD, GUARD + room);
    make_room(room);
}

static void check_writing(aoc_written v, aoc_written w, const uint8_t *buffer, size_t room, const char *of)
{
    CHECK(v.refusal == w.refusal && v.count == w.count && !memcmp(left, buffer - GUARD, GUARD + room), of);
}

/* The front field by field and the figure from a place of its own, where aoc_write hands over the record as it lies. */
static aoc_written write_parts(const aoc_record *r, uint8_t *buffer, size_t room)
{
    const aoc_charge *c = &r->charge;
    aoc_front front = {r->frame, r->unnamed, r->id, r->operation, r->error, r->problem, r->detail};
    uint8_t figure[48];
    memcpy(figure, c, sizeof figure);
    return aoc_write_from(front, &figure, &c->numbers, &c->octets, buffer, room);
}

static void check_write(const aoc_record *r, size_t room)
{
    uint8_t *buffer = make_room(room);
    aoc_written v = aoc_write(r, buffer, room);
    keep(buffer, room);
    check_writing(v, write_parts(r, buffer, room), buffer, room, "aoc_write");
}

static void check_write_by(uint8_t profile, const aoc_either *e, size_t room)
{
    const aoc_charge *c = &e->record.charge, *t = &e->trunk.charge;
    uint8_t *buffer = make_room(room);
    aoc_written v = aoc_write_by(profile, e, buffer, room);
    keep(buffer, room);
    memcpy(parts.front, &e->record, 8);
    memcpy(parts.figure, c, 48);
    memcpy(parts.numbers, c->numbers, sizeof parts.numbers);
    memcpy(parts.rows, c->octets, sizeof parts.rows);
    memcpy(parts.trunk_front, &e->trunk, 48);
    memcpy(parts.extension, &e->trunk.extended, 244);
    memcpy(parts.trunk_figure, t, 48);
    memcpy(parts.trunk_numbers, t->numbers, sizeof parts.trunk_numbers);
    memcpy(parts.trunk_rows, t->octets, sizeof parts.trunk_rows);
    aoc_written w = aoc_write_by_from(profile, (const uint8_t(*)[8])parts.front, (const uint8_t(*)[48])parts.figure,
                                      (const uint32_t(*)[32])parts.numbers, (const uint8_t(*)[192])parts.rows,
                                      (const uint8_t(*)[48])parts.trunk_front, (const uint8_t(*)[244])parts.extension,
                                      (const uint8_t(*)[48])parts.trunk_figure, (const uint32_t(*)[32])parts.trunk_numbers,
                                      (const uint8_t(*)[192])parts.trunk_rows, buffer, room);
    check_writing(v, w, buffer, room, "aoc_write_by");
}

static void check_request(uint8_t service, uint16_t id, size_t room)
{
    aoc_record r;
    uint8_t *buffer = make_room(room);
    aoc_written v = aoc_request(service, id, buffer, room);
    keep(buffer, room);
    memset(&r, 0, sizeof r);
    r.frame = AOC_FRAME_INVOKE;
    r.id = id;
    r.operation = AOC_OPERATION_CHARGING_REQUEST;
    r.detail = service >= AOC_SERVICE_S && service <= AOC_SERVICE_E ? (uint8_t)(service - AOC_SERVICE_S) : 255;
    check_writing(v, write_parts(&r, buffer, room), buffer, room, "aoc_request");
}

/* A trunk's request, made of an association and numbers, beside the record field by field. */
static void check_trunk_request(uint8_t operation, uint16_t id, const aoc_association *user, const uint8_t *modes, size_t count,
                                size_t room)
{
    aoc_either e;
    aoc_written v;
    uint8_t *buffer = make_room(room), diversion = (uint8_t)(count % 6);
    memset(&e, 0, sizeof e);
    e.trunk.frame = AOC_FRAME_INVOKE;
    e.trunk.id = id;
    e.trunk.operation = operation;
    switch (operation) {
    case AOC_OPERATION_CHARGE_REQUEST:
        v = aoc_charge_request(id, count ? modes : NULL, count, buffer, room);
        e.trunk.asked = (uint8_t)(count > 7 ? 255 : count);
        memcpy(e.trunk.modes, modes, count > 7 ? 0 : count);
        break;
    case AOC_OPERATION_GET_FINAL_CHARGE:
        v = aoc_final_charge_request(id, buffer, room);
        break;
    case AOC_OPERATION_COMPLETE:
        v = aoc_complete_request(id, user, buffer, room);
        e.trunk.user = *user;
        break;
    default:
        v = aoc_diversion_request(id, user, diversion, buffer, room);
        e.trunk.user = *user;
        e.trunk.detail = diversion;
        break;
    }
    keep(buffer, room);
    check_writing(v, aoc_write_by(AOC_PROFILE_TRUNK, &e, buffer, room), buffer, room, "a trunk's request");
}

/* A trunk's element in one call, beside its front and its components laid by hand. */
static void check_trunk_element(uint8_t interpretation, const uint8_t *octets, size_t n, size_t room)
{
    uint8_t components[AOC_LIMIT_FRONT_OCTETS + 320], *buffer = make_room(room);
    aoc_written front = aoc_write_front(interpretation, components, sizeof components), w = front;
    aoc_written v = aoc_write_trunk_element(interpretation, lend(octets, n), n, buffer, room);
    keep(buffer, room);
    memcpy(components + front.count, octets, n);
    if (front.refusal == AOC_ACCEPTED && n == 0) {
        w.refusal = AOC_REFUSED_BAD_ELEMENT;
        w.count = 0;
    } else if (front.refusal == AOC_ACCEPTED) {
        w = aoc_write_element_by(AOC_PROFILE_TRUNK, components, front.count + n, buffer, room);
    }
    check_writing(v, w, buffer, room, "aoc_write_trunk_element");
}

static void test_trunk_writing(void)
{
    static const uint8_t operations[] = {AOC_OPERATION_CHARGE_REQUEST, AOC_OPERATION_GET_FINAL_CHARGE, AOC_OPERATION_COMPLETE,
                                         AOC_OPERATION_DIVERSION};
    for (int turn = 0; turn < TURNS; turn++) {
        aoc_either e;
        uint8_t modes[9], octets[320];
        size_t room = chance() % 2 ? 300 : chance() % 300, n = some_octets(octets);
        some_either(&e);
        for (size_t i = 0; i < sizeof modes; i++)
            modes[i] = (uint8_t)(chance() % 8);
        check_trunk_request(operations[turn % 4], (uint16_t)chance(), &e.trunk.user, modes, chance() % 10, room);
        check_trunk_element((uint8_t)(chance() % 4 ? chance() % 4 : 255), octets, n, room);
    }
}

static void test_writing(void)
{
    for (int turn = 0; turn < TURNS; turn++) {
        aoc_either e;
        size_t room = chance() % 2 ? 300 : chance() % 300;
        some_either(&e);
        check_write(&e.record, room);
        check_write_by(some_profile(), &e, room);
        check_request((uint8_t)(chance() % 6 ? chance() % 5 : chance()), (uint16_t)chance(), chance() % 24);
    }
}

/* Each octet of a record that was read, outside its lists, changed. */
static void test_fields(void)
{
    static const uint8_t others[] = {0, 1, 2, 3, 7, 0x80, 0xFF};
    for (size_t i = 0; i < VALID + trunk_case_count; i++) {
        uint8_t octets[320], profile = AOC_PROFILE_LINE;
        const struct trunk_case *c = trunk_cases + (i < VALID ? 0 : i - VALID);
        size_t n = i < VALID ? unhex(valid[i].hex, octets) : c->n - 1, size = i < VALID ? 56 : 50, at = offsetof(aoc_either, record);
        aoc_either e;
        if (i >= VALID) {
            memcpy(octets, c->octets + 1, n);
            profile = c->octets[0];
            at = offsetof(aoc_either, trunk);
        }
        if (aoc_read_by(profile, octets, n, &e))
            continue;
        for (size_t k = 0; k < size * sizeof others; k++) {
            uint8_t *octet = (uint8_t *)&e + at + k / sizeof others, was = *octet;
            *octet = others[k % sizeof others];
            check_write(&e.record, 300);
            check_write_by(profile, &e, 300);
            *octet = was;
        }
    }
}

/* ------------------------------------------------------------------ events and lists */

static aoc_event some_event(void)
{
    aoc_event e;
    fill(&e, sizeof e);
    if (chance() % 8)
        e.kind = (uint8_t)(chance() % 3 ? AOC_EVENT_COMPONENT : chance() % 9);
    e.s &= 3, e.d &= 3, e.e &= 3;
    return e;
}

/* On an account of any octets, or of a phase. */
static void test_taking(void)
{
    for (int turn = 0; turn < TURNS; turn++) {
        uint8_t octets[320];
        uint16_t row[AOC_ROW_NUMBERS + 1];
        size_t n = some_octets(octets);
        aoc_event event = some_event();
        aoc_account a, b;
        fill(&a, sizeof a);
        if (chance() % 4)
            a.phase = (uint8_t)(chance() % 6);
        b = a;
        memset(row, MARK, sizeof row);
        aoc_outcome x = aoc_take(&a, event, lend(octets, n), n, row), y = aoc_step(&b, event, lend(octets, n), n);
        CHECK(x.number == y.number && x.service == y.service && !memcmp(&a, &b, sizeof a), "aoc_take");
        CHECK(row[0] == event.kind && row[1] == (event.asked.s != 0) + 2 * (event.asked.d != 0) + 4 * (event.asked.e != 0), "its row");
        CHECK(row[2] == event.s && row[3] == event.d && row[4] == event.e, "its row's identifiers");
        CHECK(row[5] == (event.kind == AOC_EVENT_COMPONENT ? n : 0) && all(row + 6, sizeof *row, MARK), "its row's length");
    }
}

/* The same on a board; and a message's events, beside those of a trace of one message. */
static void test_boards(void)
{
    static aoc_board a, b;
    for (int turn = 0; turn < TURNS / 20; turn++) {
        uint8_t octets[2048], out[2][400];
        uint16_t row[AOC_ROW_NUMBERS], rows[2][AOC_ROW_NUMBERS * 50], reference = (uint16_t)(chance() % 4);
        uint32_t pair[AOC_PAIR_NUMBERS] = {0, (uint32_t)(chance() % 3)};
        size_t n = some_octets(octets), row_room = chance() % (AOC_ROW_NUMBERS * 50), out_room = chance() % 400;
        aoc_event event = some_event();
        if (turn % 16 == 0)
            aoc_board_clear(&a);
        if (turn % 64 == 32)
            fill(&a, sizeof a);
        if (chance() % 4 == 0)
            event.kind = AOC_EVENT_SETUP;
        b = a;
        aoc_outcome x = aoc_board_take(&a, reference, event, lend(octets, n), n, row);
        aoc_outcome y = aoc_board_event(&b, reference, event, lend(octets, n), n);
        CHECK(x.number == y.number && x.service == y.service && !memcmp(&a, &b, sizeof a), "aoc_board_take");
        CHECK(row[0] == event.kind && row[5] == (event.kind == AOC_EVENT_COMPONENT ? n : 0), "aoc_board_take: its row");

        octets[0] = 0x08, octets[1] = 0x01, octets[2] = 0x05, octets[3] = (uint8_t)(chance() % 2 ? 0x62 : 0x05 + chance() % 90);
        n = 4 + some_element(octets + 4);
        pair[0] = (uint32_t)n;
        memset(rows, MARK, sizeof rows);
        memset(out, MARK, sizeof out);
        aoc_trace_answer p = aoc_message_events(pair[1], lend(octets, n), n, rows[0], row_room, out[0], out_room);
        aoc_trace_answer q = aoc_trace_events(pair, AOC_PAIR_NUMBERS, lend(octets, n), n, rows[1], row_room, out[1], out_room);
        CHECK(p.refusal == q.refusal && p.message == q.message && p.events == q.events && p.octets == q.octets, "aoc_message_events");
        CHECK(!memcmp(rows[0], rows[1], sizeof rows[0]) && !memcmp(out[0], out[1], sizeof out[0]), "aoc_message_events: the list");
    }
}

/* A list replayed, beside what the plain engine answers on it. */
static void check_replay(const uint16_t *rows, size_t numbers, const uint8_t *octets, size_t length)
{
    aoc_account a, fresh = aoc_fresh();
    memset(&a, MARK, sizeof a);
    aoc_refusal refusal = aoc_replay(rows, numbers, octets, length, &a);
    aoc_plain_phase_answer phase = aoc_plain_phase(rows, numbers, octets, length);
    aoc_plain_pending_answer pending = aoc_plain_pending(rows, numbers, octets, length);
    aoc_plain_charge_answer rate = aoc_plain_rate(rows, numbers, octets, length), run = aoc_plain_running(rows, numbers, octets, length);
    aoc_plain_closing_answer closing = aoc_plain_closing(rows, numbers, octets, length);
    aoc_plain_marks_answer marks = aoc_plain_marks(rows, numbers, octets, length);
    CHECK(refusal == phase.refusal && refusal == pending.refusal && refusal == rate.refusal && refusal == closing.refusal, "aoc_replay");
    CHECK(refusal == AOC_ACCEPTED || !memcmp(&a, &fresh, sizeof a), "aoc_replay: no account of no list");
    if (refusal)
        return;
    aoc_pending p = aoc_pending_of(&a);
    aoc_charge r = aoc_rate_of(&a), c = aoc_running_of(&a);
    aoc_closing end = aoc_closing_of(&a);
    aoc_marks m = aoc_marks_of(&a);
    CHECK(aoc_phase_of(&a) == phase.phase && !memcmp(&p, &pending.pending, sizeof p), "aoc_replay: phase and requests");
    CHECK(!memcmp(&r, &rate.charge, sizeof r) && !memcmp(&c, &run.charge, sizeof c), "aoc_replay: rate and running figure");
    CHECK(!memcmp(&end, &closing.closing, sizeof end) && !memcmp(&m, &marks.marks, sizeof m), "aoc_replay: closing figure and marks");
}

static void test_replaying(void)
{
    static const uint8_t kinds[EVENTS] = {AOC_EVENT_SETUP, 5, AOC_EVENT_CONNECT, 5, 5, AOC_EVENT_SUSPEND, AOC_EVENT_RESUME, 5,
                                          AOC_EVENT_CLEAR, 5, 5, AOC_EVENT_RELEASED};
    for (int turn = 0; turn < TURNS / 10; turn++) {
        static uint8_t octets[EVENTS * 320];
        uint16_t rows[AOC_ROW_NUMBERS * EVENTS];
        size_t count = chance() % (EVENTS + 1), length = 0, numbers = AOC_ROW_NUMBERS * count;
        for (size_t i = 0; i < count; i++) {
            aoc_event event = some_event();
            size_t n = chance() % 4 == 0 ? some_octets(octets + length) : unhex(valid[chance() % VALID].hex, octets + length);
            if (chance() % 16)
                event.kind = kinds[i];
            if (event.kind != AOC_EVENT_COMPONENT && chance() % 8)
                n = 0;
            aoc_row_of(event, (uint16_t)n, rows + AOC_ROW_NUMBERS * i);
            uint64_t wrong = chance();
            if (wrong % (i ? 8 : 2) == 0)       /* a kind that is no octet, or services that there are not */
                rows[AOC_ROW_NUMBERS * i + (wrong >> 8 & 1)] |= (uint16_t)(wrong >> 16 & (wrong >> 8 & 1 ? 0xFFF8 : 0x0100));
            length += n;
        }
        const uint16_t *lent_rows = (const uint16_t *)(const void *)(edges[1] - numbers * sizeof *rows);
        if (numbers)
            memcpy(edges[1] - numbers * sizeof *rows, rows, numbers * sizeof *rows);
        check_replay(count ? lent_rows : NULL, numbers, length ? lend(octets, length) : NULL, length);
        /* and lists that do not add up */
        if (numbers) {
            check_replay(lent_rows + 1, numbers - 1, lend(octets, length), length);
            check_replay(lent_rows, numbers, lend(octets, length + 1), length + 1);
        }
        if (length)
            check_replay(count ? lent_rows : NULL, numbers, lend(octets, length - 1), length - 1);
    }
}

/* ------------------------------------------------------------------ figures */

static void test_figures(void)
{
    for (int turn = 0; turn < TURNS; turn++) {
        aoc_month month, before;
        aoc_closing closing;
        aoc_either e;
        aoc_money money;
        char text[64], wanted[64];
        fill(&before, sizeof before);
        before.added %= 5000;
        before.count %= 20;
        some_either(&e);
        closing.service = (uint32_t)(chance() % 4);
        closing.charge = e.record.charge;
        month = before;
        aoc_refusal refusal = aoc_month_post(&month, &closing);
        aoc_month_added added = aoc_month_add(before, closing);
        CHECK(refusal == added.refusal && !memcmp(&month, &added.month, sizeof month), "aoc_month_post");

        fill(&money, sizeof money);
        money.currency.count = 1;
        money.currency.octets[0] = 'X';
        money.multiplier %= 8;
        uint64_t thousandths = aoc_thousandths(money.number, money.multiplier);
        int n = snprintf(wanted, sizeof wanted, "X %llu.%03u", (unsigned long long)(thousandths / 1000), (unsigned)(thousandths % 1000));
        CHECK(aoc_print_money(text, sizeof text, &money) == (size_t)n && !strcmp(text, wanted), "aoc_print_money");
    }
}

int main(void)
{
    make_edges();
    load_trunk_cases();
    test_reading();
    test_writing();
    test_fields();
    test_trunk_writing();
    test_taking();
    test_boards();
    test_replaying();
    test_figures();
    return report("inline");
}
