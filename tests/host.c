/* The C library's functions on components, elements and values: every refusal, every length of a buffer, every field of a
 * record out of its range. */
#include "check.h"
#include "components.h"

enum { VALID = sizeof valid / sizeof *valid };

static aoc_answer read_hex(const char *hex)
{
    uint8_t octets[1024];
    size_t n = unhex(hex, octets);
    return read_octets(lend(octets, n), n);
}

static aoc_record record_of(const char *name)
{
    for (size_t i = 0; i < VALID; i++)
        if (!strcmp(valid[i].name, name))
            return read_hex(valid[i].hex).record;
    check(0, "no such component", name);
    return read_octets(NULL, 0).record;
}

static int refused_at(aoc_answer a, uint32_t number, uint32_t offset)
{
    return a.refusal == number && a.offset == offset && all(&a.record, sizeof a.record, 0);
}

static int refused(aoc_answer a, uint32_t number)
{
    return refused_at(a, number, 0);
}

/* ------------------------------------------------------------------ reading */

static void test_valid(void)
{
    for (size_t i = 0; i < VALID; i++) {
        uint8_t octets[300], longer[300];
        size_t n = unhex(valid[i].hex, octets);
        aoc_answer a = read_octets(lend(octets, n), n);
        CHECK(a.refusal == AOC_ACCEPTED, valid[i].name);
        for (size_t k = 0; k < n; k++)
            CHECK(refused(read_octets(lend(octets, k), k), AOC_REFUSED_CUT), valid[i].name);
        octets[n] = 0;
        CHECK(refused(read_octets(lend(octets, n + 1), n + 1), AOC_REFUSED_TRAILING), valid[i].name);

        /* the same contents after a length of two more octets */
        size_t inner = octets[1] < 0x80 ? 2 : 3;
        longer[0] = octets[0];
        longer[1] = 0x82;
        longer[2] = 0;
        longer[3] = (uint8_t)(n - inner);
        memcpy(longer + 4, octets + inner, n - inner);
        aoc_answer b = read_octets(lend(longer, n + 4 - inner), n + 4 - inner);
        CHECK(!memcmp(&a, &b, sizeof a), valid[i].name);
    }
}

static void test_fields(void)
{
    aoc_record r = record_of("D amount, subtotal");
    CHECK(r.frame == AOC_FRAME_INVOKE && r.id == 1 && r.operation == AOC_OPERATION_D_CURRENCY, "fields");
    CHECK(r.charge.kind == AOC_CHARGE_MONEY && r.charge.total == AOC_TOTAL_NO && !r.charge.billed, "fields");
    CHECK(r.charge.money.currency.count == 3 && !memcmp(r.charge.money.currency.octets, "EUR\0\0\0\0\0\0\0", 10), "fields");
    CHECK(aoc_thousandths(r.charge.money.number, r.charge.money.multiplier) == 500, "fields");

    r = record_of("rates, every kind");
    CHECK((int16_t)r.id == -32768 && r.charge.kind == AOC_CHARGE_RATES && r.charge.count == 7, "rates");
    CHECK(r.charge.rates[0].kind == AOC_RATE_DURATION && r.charge.rates[0].detail == AOC_DURATION_STEPS, "rates");
    CHECK(r.charge.rates[0].stepped == 1 && r.charge.rates[0].scale == AOC_SCALE_SECOND, "rates");
    CHECK(r.charge.rates[0].step_scale == AOC_SCALE_DAY && r.charge.rates[0].multiplier == AOC_MULTIPLIER_THOUSAND, "rates");
    CHECK(r.charge.rate_numbers[0].number == 16777215 && r.charge.rate_numbers[0].time == 100, "rates");
    CHECK(r.charge.rate_numbers[0].step == AOC_LIMIT_NUMBER, "rates");
    CHECK(r.charge.rates[2].kind == AOC_RATE_FLAT && !memcmp(r.charge.rates[2].currency.octets, "ABCDEFGHIJ", 10), "rates");
    CHECK(r.charge.rates[2].item == AOC_ITEM_SETUP && r.charge.rate_numbers[2].number == 128, "rates");
    CHECK(r.charge.rates[3].kind == AOC_RATE_VOLUME && r.charge.rates[3].detail == AOC_VOLUME_MESSAGE, "rates");
    CHECK(r.charge.rates[3].currency.count == 1 && r.charge.rates[3].currency.octets[0] == 0, "rates");
    CHECK(r.charge.rates[4].kind == AOC_RATE_CODE && r.charge.rates[4].detail == 10, "rates");
    CHECK(r.charge.rates[5].kind == AOC_RATE_FREE && r.charge.rates[6].kind == AOC_RATE_UNKNOWN, "rates");

    r = record_of("D units, subtotal");
    CHECK(r.charge.kind == AOC_CHARGE_UNITS && r.charge.count == 4, "units");
    CHECK(r.charge.units[0].known && r.charge.unit_numbers[0] == 12 && !r.charge.units[0].type, "units");
    CHECK(!r.charge.units[1].known && !r.charge.units[1].type, "units");
    CHECK(r.charge.units[2].known && !r.charge.unit_numbers[2] && r.charge.units[2].type == 16, "units");
    CHECK(!r.charge.units[3].known && r.charge.units[3].type == 1, "units");

    r = record_of("E amount, billed, by identifier");
    CHECK(r.charge.billed && r.charge.billing == AOC_BILLING_TRANSFER, "association");
    CHECK(r.charge.association.kind == AOC_ASSOCIATION_IDENTIFIER && (int16_t)r.charge.association.id == -32768, "association");
    r = record_of("E amount, by number");
    CHECK(r.charge.association.kind == AOC_ASSOCIATION_NUMBER && r.charge.association.count == 20, "association");
    CHECK(!memcmp(r.charge.association.digits, "0123456789 123456789", 20), "association");
    r = record_of("E free, by planned number");
    CHECK(r.charge.kind == AOC_CHARGE_FREE && r.charge.association.kind == AOC_ASSOCIATION_PLANNED_NUMBER, "association");
    CHECK(r.charge.association.plan == AOC_PLAN_ABBREVIATED && r.charge.association.digits[0] == '7', "association");

    r = record_of("reject 83 0, NULL");
    CHECK(r.frame == AOC_FRAME_REJECT && r.unnamed && r.problem == AOC_PROBLEM_ERROR && !r.detail, "reject");
    r = record_of("error 26");
    CHECK(r.frame == AOC_FRAME_ERROR && r.error == AOC_ERROR_NO_CHARGING_INFO && r.id == 5, "error");
}

static void test_refusals(void)
{
    static const struct {
        uint32_t number;
        const char *hex;
    } cases[] = {
        {1, ""},
        {1, "A1"},
        {1, "A1 81"},
        {1, "A1 82 00"},
        {1, "A1 03 02 01"},
        {1, "A1 80"},
        {1, "A1 80 02 01 05 02 01 1E 0A 01 01"},
        {1, "A1 80 02 01 05 02 01 1E 0A 01 01 00"},
        {1, "A1 80 02 01 05 02 01 1E 0A 7F 01 00 00"},
        {1, "A1 80 02 01 04 02 01 23 30 80 81 00 00 00"},
        {1, "A1 80 02 01 07 06 00 00"},
        {2, "A1 80 02 01 05 02 01 1E 0A 80 01 00 00"},
        {2, "A1 80 0A 01 05 02 01 1E 0A 83 00 00"},
        {2, "A1 80 02 01 05 02 01 1E 0A 01 01 00 80 00 00"},
        {2, "A1 0E 02 01 04 02 01 23 30 80 30 83 00 00 00 00"},
        {2, "A1 0A 02 01 05 02 80 1E 0A 01 01 00"},
        {2, "A1 83 00 00 09 02 01 05 02 01 1E 0A 01 01"},
        {2, "A1 FF"},
        {2, "A1 09 02 80 05 02 01 1E 0A 01 01"},
        {2, "A1 09 02 01 05 02 01 1E 0A 83 01"},
        {4, "A0 00"},
        {4, "A5"},
        {4, "00"},
        {4, "24 80 00 00"},
        {5, "A1 00 00"},
        {5, "A4 05 05 00 80 01 00 00"},
        {5, "A1 80 02 01 05 02 01 1E 0A 01 01 00 00 00 00"},
        {6, "A1 00"},
        {6, "A1 80 00 00"},
        {6, "A1 80 02 01 05 02 01 1E 0A 01 01 00 01 55 00 00"},
        {6, "A1 0B 02 01 05 02 01 1E 0A 01 01 00 00"},
        {6, "A2 0A 02 01 05 30 80 02 01 1E 05 00"},
        {6, "A1 0C 02 01 05 80 01 00 02 01 1E 0A 01 01"},
        {6, "A1 0B 02 03 00 80 00 02 01 1E 0A 01 01"},
        {6, "A1 0A 02 02 00 05 02 01 1E 0A 01 01"},
        {6, "A1 08 02 00 02 01 1E 0A 01 01"},
        {6, "A1 0B 02 01 05 02 03 00 00 1E 0A 01 01"},
        {6, "A1 0D 02 01 05 02 05 01 00 00 00 1E 0A 01 01"},
        {6, "A1 0B 02 01 05 02 01 1E 0A 01 01 05 00"},
        {6, "A2 08 02 01 05 02 01 1E 05 00"},
        {6, "A2 0C 02 01 05 30 05 02 01 1E 05 00 05 00"},
        {6, "A2 05 02 01 05 06 00"},
        {6, "A3 08 02 01 05 02 01 1A 05 00"},
        {6, "A4 05 05 00 80 01 03"},
        {6, "A4 05 05 00 81 01 08"},
        {6, "A4 05 05 00 82 01 03"},
        {6, "A4 05 05 00 83 01 05"},
        {6, "A4 05 05 00 84 01 00"},
        {6, "A4 06 05 01 00 80 01 00"},
        {7, "A1 09 02 01 07 02 01 25 0A 01 01"},
        {7, "A1 09 02 01 07 02 01 1D 0A 01 01"},
        {7, "A1 0C 02 01 07 02 04 01 00 00 1E 0A 01 01"},
        {7, "A1 04 02 01 07 06"},
        {7, "A1 80 02 01 07 06 00 00 00"},
        {7, "A2 08 02 01 05 30 03 02 01 1F"},
        {7, "A2 06 02 01 05 30 01 06"},
        {8, "A3 06 02 01 05 02 01 01"},
        {8, "A3 06 02 01 05 02 01 FF"},
        {8, "A3 05 02 01 05 06 80"},
    };
    for (size_t i = 0; i < sizeof cases / sizeof *cases; i++)
        CHECK(refused(read_hex(cases[i].hex), cases[i].number), cases[i].hex);
    CHECK(refused(read_octets(NULL, 0), AOC_REFUSED_CUT), "null");

    /* over 254 octets is judged first, whatever they are */
    uint8_t octets[600] = {0xA1, 0x82, 0, 251};
    CHECK(read_octets(lend(octets, 254), 254).refusal != AOC_REFUSED_TOO_LONG, "254 octets");
    for (size_t n = 255; n <= sizeof octets; n++)
        CHECK(refused(read_octets(lend(octets, n), n), AOC_REFUSED_TOO_LONG), "over 254 octets");
    memset(octets, 0, sizeof octets);
    CHECK(refused(read_octets(lend(octets, 255), 255), AOC_REFUSED_TOO_LONG), "255 zeros");
}

/* Every number of an argument or result, and its offset. */
static void test_offsets(void)
{
    static const struct {
        uint32_t number, offset;
        const char *hex;
    } cases[] = {
        {40, 8, "A1 06 02 01 01 02 01 21"},
        {40, 10, "A2 08 02 01 05 30 03 02 01 1E"},
        {40, 10, "A2 0A 02 01 05 30 03 02 01 1E 05 00"},
        {40, 10, "A1 08 02 01 01 02 01 21 30 00"},
        {40, 15, "A1 0D 02 01 01 02 01 21 30 05 A1 03 81 01 45"},
        {43, 12, "A1 0F 02 01 01 02 01 21 30 07 A1 02 81 00 82 01 00"},
        {40, 15, "A1 10 02 01 01 02 01 21 30 08 A1 03 81 01 45 82 01 00"},
        {40, 10, "A1 08 02 01 01 02 01 1F 30 00"},
        {40, 12, "A1 0A 02 01 01 02 01 22 30 02 A1 00"},
        {41, 8, "A1 08 02 01 03 02 01 23 81 00"},
        {41, 8, "A1 09 02 01 05 02 01 1E 02 01 01"},
        {41, 8, "A1 09 02 01 05 02 01 1E 02 80 01"},
        {41, 18, "A1 16 02 01 01 02 01 21 30 0E A1 0C 81 02 44 4D A2 06 82 01 01 81 01 32"},
        {41, 25, "A1 1A 02 01 01 02 01 21 30 12 A1 0D 81 03 45 55 52 A2 06 81 01 32 82 01 01 83 01 00"},
        {41, 28, "A1 1D 02 01 01 02 01 21 30 15 A1 0D 81 03 45 55 52 A2 06 81 01 32 82 01 01 82 01 00 82 01 00"},
        {41, 12, "A1 0C 02 01 04 02 01 23 30 04 81 00 05 00"},
        {41, 14, "A1 0E 02 01 04 02 01 23 30 06 81 00 A0 02 81 00"},
        {42, 8, "A1 07 02 01 05 02 01 1E 0A"},
        {42, 8, "A1 09 02 01 05 02 01 1E 0A 82 01"},
        {42, 8, "A1 09 02 01 05 02 01 1E 0A 02 01"},
        {42, 10, "A1 0A 02 01 04 02 01 23 30 02 81 01"},
        {42, 8, "A1 0A 02 01 04 02 01 23 30 03 81 00"},
        {43, 8, "A1 08 02 01 06 02 01 20 02 00"},
        {43, 16, "A1 12 02 01 02 02 01 24 30 0A 30 08 A1 06 30 04 02 02 00 05"},
        {43, 16, "A1 13 02 01 02 02 01 24 30 0B 30 09 A1 07 30 05 02 03 FF FF FF"},
        {44, 16, "A1 11 02 01 02 02 01 24 30 09 30 07 A1 05 30 03 02 01 FF"},
        {44, 16, "A1 14 02 01 02 02 01 24 30 0C 30 0A A1 08 30 06 02 04 01 00 00 00"},
        {43, 8, "A1 0A 02 01 06 02 01 20 02 02 00 0B"},
        {44, 8, "A1 09 02 01 06 02 01 20 02 01 0B"},
        {41, 8, "A1 09 02 01 05 02 01 1E 05 01 00"},
        {44, 8, "A1 09 02 01 05 02 01 21 05 01 00"},
        {44, 10, "A1 0B 02 01 04 02 01 23 30 03 81 01 00"},
        {44, 12, "A1 1A 02 01 01 02 01 21 30 12 A1 0D 81 03 45 55 D2 A2 06 81 01 32 82 01 01 82 01 00"},
        {44, 14, "A1 10 02 01 04 02 01 23 30 08 81 00 A0 04 80 02 31 41"},
        {43, 14, "A1 0E 02 01 04 02 01 23 30 06 81 00 A0 02 80 00"},
        {44, 16, "A1 14 02 01 04 02 01 23 30 0C 81 00 A0 08 A1 06 0A 01 05 12 01 37"},
        {41, 9, "A1 81 08 02 01 03 02 01 23 81 00"},
        {40, 10, "A1 80 02 01 01 02 01 21 30 80 00 00 00 00"},
        {44, 8, "A1 09 02 01 05 02 01 1E 0A 01 03"},
        {41, 8, "A1 09 02 01 05 02 01 1E 2A 01 01"},
    };
    for (size_t i = 0; i < sizeof cases / sizeof *cases; i++)
        CHECK(refused_at(read_hex(cases[i].hex), cases[i].number, cases[i].offset), cases[i].hex);

    /* one entry more than a list may have, judged at its tag */
    static const uint8_t rates[] = {0xA1, 0x55, 2, 1, 1, 2, 1, 0x1F, 0x30, 0x4D}, rate[] = {0x30, 5, 0x0A, 1, 0, 0x84, 0};
    uint8_t octets[87];
    memcpy(octets, rates, sizeof rates);
    for (size_t i = 0; i < 11; i++)
        memcpy(octets + sizeof rates + i * sizeof rate, rate, sizeof rate);
    CHECK(refused_at(read_octets(lend(octets, sizeof octets), sizeof octets), AOC_REFUSED_PAST_LIMIT, 80), "eleven rates");
    octets[80] = 5;
    CHECK(refused_at(read_octets(lend(octets, sizeof octets), sizeof octets), AOC_REFUSED_UNEXPECTED, 80), "ten rates and another tag");
}

/* ------------------------------------------------------------------ writing */

static void test_rooms(void)
{
    for (size_t i = 0; i < VALID; i++) {
        uint8_t octets[300];
        size_t n = unhex(valid[i].hex, octets);
        aoc_record r = read_hex(valid[i].hex).record;
        for (size_t room = 0; room <= n + 1; room++) {
            uint8_t *buffer = make_room(room);
            aoc_written w = aoc_write(&r, buffer, room);
            size_t count = room < n ? 0 : n;
            CHECK(w.refusal == (room < n ? AOC_REFUSED_NO_ROOM : AOC_ACCEPTED) && w.count == count, valid[i].name);
            CHECK(holds(buffer, room, octets, count), valid[i].name);
        }
        CHECK(aoc_write(&r, NULL, 0).refusal == AOC_REFUSED_NO_ROOM, valid[i].name);
    }
}

/* Refused without a touch, with room and without. */
static void check_refused(aoc_record r, uint32_t number, const char *name)
{
    for (size_t room = 0; room <= 300; room += 300) {
        uint8_t *buffer = make_room(room);
        aoc_written w = aoc_write(&r, buffer, room);
        CHECK(w.refusal == number && w.count == 0, name);
        CHECK(holds(buffer, room, buffer, 0), name);
    }
}

static void test_out_of_range(void)
{
#define OUT(base, member, value) {base, #member, offsetof(aoc_record, member), sizeof ((aoc_record *)0)->member, value}
    static const struct {
        const char *base;
        const char *member;
        size_t at, size;
        uint32_t value;
    } cases[] = {
        OUT("request D", frame, 0),
        OUT("request D", frame, 2),
        OUT("request D", frame, 5),
        OUT("request D", frame, 255),
        OUT("request D", unnamed, 1),
        OUT("request D", operation, 29),
        OUT("request D", operation, 37),
        OUT("request D", operation, 0),
        OUT("request D", error, 3),
        OUT("request D", problem, 0x80),
        OUT("request D", detail, 3),
        OUT("request D", charge.kind, AOC_CHARGE_FREE),
        OUT("request D", charge.total, 1),
        OUT("request D", charge.billed, 1),
        OUT("request D", charge.billing, 1),
        OUT("request D", charge.arrangement, 1),
        OUT("request D", charge.count, 1),
        OUT("request D", charge.money.number, 1),
        OUT("request D", charge.money.multiplier, 1),
        OUT("request D", charge.money.currency.count, 1),
        OUT("request D", charge.money.currency.octets[9], 1),
        OUT("request D", charge.association.id, 1),
        OUT("request D", charge.association.count, 1),
        OUT("request D", charge.association.kind, 1),
        OUT("request D", charge.association.plan, 1),
        OUT("request D", charge.association.digits[19], '1'),
        OUT("request D", charge.numbers[0], 1),
        OUT("request D", charge.numbers[31], 1),
        OUT("request D", charge.octets[0], 1),
        OUT("request D", charge.octets[191], 1),
        OUT("result, nothing", operation, 31),
        OUT("result, nothing", unnamed, 1),
        OUT("result, nothing", detail, 1),
        OUT("result, nothing", charge.kind, AOC_CHARGE_FREE),
        OUT("result, nothing", charge.kind, AOC_CHARGE_MONEY),
        OUT("error 26", error, 1),
        OUT("error 26", error, 27),
        OUT("error 26", error, 255),
        OUT("error 26", operation, 30),
        OUT("error 26", unnamed, 1),
        OUT("error 26", problem, 0x80),
        OUT("error 26", detail, 1),
        OUT("error 26", charge.kind, AOC_CHARGE_FREE),
        OUT("reject 80 2", problem, 0x7F),
        OUT("reject 80 2", problem, 0x84),
        OUT("reject 80 2", problem, 0),
        OUT("reject 80 2", detail, 3),
        OUT("reject 81 7", detail, 8),
        OUT("reject 82 2", detail, 3),
        OUT("reject 83 4", detail, 5),
        OUT("reject 80 2", unnamed, 1),
        OUT("reject 80 2", unnamed, 2),
        OUT("reject 80 2", operation, 30),
        OUT("reject 80 2", error, 3),
        OUT("reject 80 0, NULL", id, 1),
        OUT("D amount, subtotal", detail, 1),
        OUT("D amount, subtotal", charge.kind, AOC_CHARGE_UNITS),
        OUT("D amount, subtotal", charge.kind, AOC_CHARGE_FREE),
        OUT("D amount, subtotal", charge.kind, AOC_CHARGE_NONE),
        OUT("D amount, subtotal", charge.kind, 6),
        OUT("D amount, subtotal", charge.kind, 255),
        OUT("D amount, subtotal", charge.total, 2),
        OUT("D amount, subtotal", charge.billed, 2),
        OUT("D amount, subtotal", charge.billing, 1),
        OUT("D amount, total, billed", charge.billing, 3),
        OUT("D amount, subtotal", charge.arrangement, 1),
        OUT("D amount, subtotal", charge.count, 1),
        OUT("D amount, subtotal", charge.money.number, 16777216),
        OUT("D amount, subtotal", charge.money.number, 0xFFFFFFFF),
        OUT("D amount, subtotal", charge.money.multiplier, 7),
        OUT("D amount, subtotal", charge.money.currency.count, 0),
        OUT("D amount, subtotal", charge.money.currency.count, 2),
        OUT("D amount, subtotal", charge.money.currency.count, 11),
        OUT("D amount, subtotal", charge.money.currency.octets[0], 0x80),
        OUT("D amount, subtotal", charge.money.currency.octets[3], 0x20),
        OUT("D amount, subtotal", charge.association.kind, AOC_ASSOCIATION_IDENTIFIER),
        OUT("D amount, subtotal", charge.numbers[0], 1),
        OUT("D amount, subtotal", charge.octets[0], 1),
        OUT("D free", charge.total, 1),
        OUT("D free", charge.billed, 1),
        OUT("D free", charge.association.kind, AOC_ASSOCIATION_IDENTIFIER),
        OUT("D free", charge.kind, AOC_CHARGE_ARRANGEMENT),
        OUT("E amount", charge.total, 1),
        OUT("E amount, billed, by identifier", charge.billing, 8),
        OUT("E amount", charge.association.kind, 4),
        OUT("E amount", charge.association.kind, AOC_ASSOCIATION_NUMBER),
        OUT("E amount", charge.association.id, 1),
        OUT("E amount, billed, by identifier", charge.association.plan, 1),
        OUT("E amount, billed, by identifier", charge.association.count, 1),
        OUT("E amount, billed, by identifier", charge.association.digits[0], '1'),
        OUT("E amount, by number", charge.association.count, 0),
        OUT("E amount, by number", charge.association.count, 19),
        OUT("E amount, by number", charge.association.count, 21),
        OUT("E amount, by number", charge.association.digits[0], 'A'),
        OUT("E amount, by number", charge.association.digits[19], '/'),
        OUT("E amount, by number", charge.association.plan, 1),
        OUT("E amount, by number", charge.association.id, 1),
        OUT("E free, by planned number", charge.association.plan, 5),
        OUT("E free, by planned number", charge.association.plan, 7),
        OUT("E free, by planned number", charge.association.digits[1], ' '),
        OUT("E free", charge.billed, 1),
        OUT("D units, subtotal", charge.count, 0),
        OUT("D units, subtotal", charge.count, 3),
        OUT("D units, 32", charge.count, 33),
        OUT("D units, 32", charge.count, 255),
        OUT("D units, subtotal", charge.units[0].known, 2),
        OUT("D units, subtotal", charge.units[0].known, 0),
        OUT("D units, subtotal", charge.units[0].type, 17),
        OUT("D units, subtotal", charge.units[4].known, 1),
        OUT("D units, subtotal", charge.unit_numbers[0], 16777216),
        OUT("D units, subtotal", charge.unit_numbers[1], 1),
        OUT("D units, subtotal", charge.unit_numbers[4], 1),
        OUT("D units, 32", charge.octets[64], 1),
        OUT("D units, subtotal", charge.money.number, 1),
        OUT("arrangement", charge.arrangement, 0),
        OUT("arrangement", charge.arrangement, 11),
        OUT("arrangement", charge.count, 1),
        OUT("rates, every kind", charge.count, 0),
        OUT("rates, every kind", charge.count, 6),
        OUT("rates, ten", charge.count, 11),
        OUT("rates, every kind", charge.rates[0].item, 5),
        OUT("rates, every kind", charge.rates[0].kind, 0),
        OUT("rates, every kind", charge.rates[0].kind, 7),
        OUT("rates, every kind", charge.rates[0].detail, 2),
        OUT("rates, every kind", charge.rates[0].stepped, 2),
        OUT("rates, every kind", charge.rates[0].stepped, 0),
        OUT("rates, every kind", charge.rates[0].scale, 7),
        OUT("rates, every kind", charge.rates[0].step_scale, 7),
        OUT("rates, every kind", charge.rates[0].multiplier, 7),
        OUT("rates, every kind", charge.rates[0].currency.count, 0),
        OUT("rates, every kind", charge.rates[0].currency.count, 11),
        OUT("rates, every kind", charge.rates[0].currency.octets[0], 0x80),
        OUT("rates, every kind", charge.rates[0].currency.octets[3], 1),
        OUT("rates, every kind", charge.rate_numbers[0].number, 16777216),
        OUT("rates, every kind", charge.rate_numbers[0].time, 16777216),
        OUT("rates, every kind", charge.rate_numbers[0].step, 16777216),
        OUT("rates, every kind", charge.rates[1].step_scale, 1),
        OUT("rates, every kind", charge.rate_numbers[1].step, 1),
        OUT("rates, every kind", charge.rates[2].detail, 1),
        OUT("rates, every kind", charge.rates[2].scale, 1),
        OUT("rates, every kind", charge.rate_numbers[2].time, 1),
        OUT("rates, every kind", charge.rates[3].detail, 3),
        OUT("rates, every kind", charge.rates[4].detail, 0),
        OUT("rates, every kind", charge.rates[4].detail, 11),
        OUT("rates, every kind", charge.rates[4].multiplier, 1),
        OUT("rates, every kind", charge.rates[5].detail, 1),
        OUT("rates, every kind", charge.rates[6].currency.count, 1),
        OUT("rates, every kind", charge.rate_numbers[6].number, 1),
        OUT("rates, every kind", charge.rates[7].item, 1),
        OUT("rates, every kind", charge.rate_numbers[7].time, 1),
        OUT("rates, ten", charge.numbers[30], 1),
        OUT("rates, ten", charge.numbers[31], 1),
        OUT("rates, ten", charge.octets[180], 1),
        OUT("rates, ten", charge.octets[191], 1),
        OUT("rates, not available", charge.count, 1),
    };
#undef OUT
    for (size_t i = 0; i < sizeof cases / sizeof *cases; i++) {
        aoc_record r = record_of(cases[i].base);
        memcpy((uint8_t *)&r + cases[i].at, &cases[i].value, cases[i].size);
        check_refused(r, AOC_REFUSED_BAD_RECORD, cases[i].member);
    }
    aoc_record zero;
    memset(&zero, 0, sizeof zero);
    check_refused(zero, AOC_REFUSED_BAD_RECORD, "a record of zeros");
    memset(&zero, 0xFF, sizeof zero);
    check_refused(zero, AOC_REFUSED_BAD_RECORD, "a record of ones");
}

/* 10 before 11 before 12. */
static void test_long_records(void)
{
    aoc_record r = record_of("D units, 32");
    for (int i = 0; i < AOC_LIMIT_UNITS; i++) {
        r.charge.unit_numbers[i] = AOC_LIMIT_NUMBER;
        r.charge.units[i].type = 16;
    }
    check_refused(r, AOC_REFUSED_LONG_RECORD, "32 units");
    r.charge.total = 2;
    check_refused(r, AOC_REFUSED_BAD_RECORD, "32 units, no total");

    /* 32 numbers of three octets, and a type in four of them: 254 octets; a fifth type is too much */
    r = record_of("D units, 32");
    for (int i = 0; i < AOC_LIMIT_UNITS; i++) {
        r.charge.unit_numbers[i] = 32768;
        uint32_t size = 178 + 2 * (i + 1);
        CHECK(aoc_write(&r, make_room(size), size).count == size, "units by number");
        CHECK(aoc_write(&r, make_room(size - 1), size - 1).refusal == AOC_REFUSED_NO_ROOM, "units by number");
    }
    for (int i = 0; i < 4; i++)
        r.charge.units[i].type = 1;
    CHECK(aoc_write(&r, make_room(254), 254).count == 254, "254 octets");
    CHECK(aoc_write(&r, make_room(253), 253).refusal == AOC_REFUSED_NO_ROOM, "254 octets");
    r.charge.units[4].type = 1;
    check_refused(r, AOC_REFUSED_LONG_RECORD, "257 octets");
}

/* Each octet of each record, changed: what is still accepted reads back as that record; all else is left untouched. */
static void test_changed_octets(void)
{
    static const uint8_t values[] = {0, 1, 2, 3, 7, 8, 10, 11, 16, 17, 20, 21, 30, 33, 36, 37, 0x39, 0x7F, 0x80, 0x84, 0xFF};
    long kept = 0, not_kept = 0;
    for (size_t i = 0; i < VALID; i++) {
        aoc_record base = read_hex(valid[i].hex).record;
        for (size_t at = 0; at < sizeof base; at++) {
            for (size_t k = 0; k < sizeof values + 2; k++) {
                aoc_record r = base;
                uint8_t *octet = (uint8_t *)&r + at;
                *octet = k < sizeof values ? values[k] : k == sizeof values ? (uint8_t)(*octet + 1) : (uint8_t)(*octet - 1);
                uint8_t *buffer = make_room(254);
                aoc_written w = aoc_write(&r, buffer, 254);
                if (w.refusal == AOC_ACCEPTED) {
                    aoc_answer back = read_octets(buffer, w.count);
                    CHECK(w.count <= 254 && holds(buffer, 254, buffer, w.count), valid[i].name);
                    CHECK(back.refusal == AOC_ACCEPTED && !memcmp(&back.record, &r, sizeof r), valid[i].name);
                    kept++;
                } else {
                    CHECK((w.refusal == AOC_REFUSED_BAD_RECORD || w.refusal == AOC_REFUSED_LONG_RECORD) && w.count == 0, valid[i].name);
                    CHECK(holds(buffer, 254, buffer, 0), valid[i].name);
                    not_kept++;
                }
            }
        }
    }
    CHECK(kept > 20000 && not_kept > 200000, "changed records");
}

/* ------------------------------------------------------------------ the reject in reply */

static void check_reply(const char *hex, const char *answer)
{
    uint8_t octets[300], expected[16];
    size_t n = unhex(hex, octets), size = unhex(answer, expected);
    for (size_t room = 0; room <= size + 1; room++) {
        uint8_t *buffer = make_room(room);
        aoc_written w = aoc_reply(lend(octets, n), n, buffer, room);
        size_t count = room < size ? 0 : size;
        CHECK(w.refusal == (room < size ? AOC_REFUSED_NO_ROOM : AOC_ACCEPTED) && w.count == count, hex);
        CHECK(holds(buffer, room, expected, count), hex);
    }
    CHECK(aoc_reply(lend(octets, n), n, NULL, 0).refusal == (size ? AOC_REFUSED_NO_ROOM : AOC_ACCEPTED), hex);
}

static void test_reply(void)
{
    for (size_t i = 0; i < VALID; i++)
        check_reply(valid[i].hex, "");
    check_reply("", "A4 05 05 00 80 01 02");
    check_reply("A1", "A4 05 05 00 80 01 02");
    check_reply("A1 80 02 01 05 02 01 1E 0A 01 01 00 00", "");
    check_reply("A1 80 02 01 05 02 01 1E 0A 01 01", "A4 05 05 00 80 01 02");
    check_reply("A1 80 02 01 05 02 01 1E 0A 80 01 00 00", "A4 05 05 00 80 01 02");
    check_reply("A1 80 02 01 07 02 01 25 0A 01 01 00 00", "A4 06 02 01 07 81 01 01");
    check_reply("A2 80 02 01 05 30 80 02 01 1E 00 00 00 00", "A4 06 02 01 05 82 01 02");
    check_reply("A1 09 02 01 05 02 01 1E 0A 83 01", "A4 05 05 00 80 01 02");
    check_reply("A5 00", "A4 05 05 00 80 01 00");
    check_reply("A1 00 00", "A4 05 05 00 80 01 02");
    check_reply("A1 0B 02 01 05 02 01 1E 0A 01 01 05 00", "A4 05 05 00 80 01 01");
    check_reply("A3 08 02 01 05 02 01 1A 05 00", "A4 05 05 00 80 01 01");
    check_reply("A1 09 02 01 07 02 01 25 0A 01 01", "A4 06 02 01 07 81 01 01");
    check_reply("A1 06 02 02 7F FF 06 00", "A4 07 02 02 7F FF 81 01 01");
    check_reply("A2 08 02 01 05 30 03 02 01 1F", "A4 06 02 01 05 82 01 02");
    check_reply("A3 06 02 01 FF 02 01 01", "A4 06 02 01 FF 83 01 02");
    check_reply("A1 08 02 01 03 02 01 23 81 00", "A4 06 02 01 03 81 01 02");
    check_reply("A2 08 02 01 05 30 03 02 01 1E", "A4 06 02 01 05 82 01 02");
    check_reply("A4", "");
    check_reply("A4 00 00", "");
    check_reply("A4 05 05 00 84 01 00", "");

    uint8_t octets[300] = {0xA1}, answer[16];
    size_t size = unhex("A4 05 05 00 80 01 02", answer);
    uint8_t *buffer = make_room(AOC_LIMIT_REPLY_OCTETS);
    aoc_written w = aoc_reply(lend(octets, 255), 255, buffer, AOC_LIMIT_REPLY_OCTETS);
    CHECK(w.refusal == AOC_ACCEPTED && w.count == size && holds(buffer, AOC_LIMIT_REPLY_OCTETS, answer, size), "255 octets");
    octets[0] = 0xA4;
    CHECK(aoc_reply(lend(octets, 255), 255, NULL, 0).refusal == AOC_ACCEPTED, "255 octets of a reject");
}

/* ------------------------------------------------------------------ the Facility element */

static int bad_element(struct walked s)
{
    return s.refusal == AOC_REFUSED_BAD_ELEMENT && s.count == 0;
}

static struct walked element_hex(const char *hex)
{
    uint8_t octets[600];
    size_t n = unhex(hex, octets);
    return walk(lend(octets, n), n);
}

static void test_element(void)
{
    uint8_t octets[600] = {0x1C, 0, 0x91};

    /* 1 to 127 components of two octets; every shorter part of each element is malformed, and so is one octet more */
    for (size_t count = 1; count <= AOC_LIMIT_COMPONENTS; count++) {
        size_t n = 3 + 2 * count;
        octets[1] = (uint8_t)(n - 2);
        octets[n - 2] = (uint8_t)(count + 0x7F);
        octets[n - 1] = 0;
        struct walked s = walk(lend(octets, n), n);
        int right = s.refusal == AOC_ACCEPTED && s.count == count;
        for (size_t i = 0; i < count; i++)
            right = right && s.starts[i] == 3 + 2 * i;
        CHECK(right, "components of two octets");
        CHECK(bad_element(walk(lend(octets, n + 1), n + 1)), "one octet over");
    }
    for (size_t n = 0; n < 257; n++)
        CHECK(bad_element(walk(lend(octets, n), n)), "a cut element");
    CHECK(walk(lend(octets, 257), 257).count == 127, "the longest element");
    CHECK(bad_element(walk(lend(octets, 258), 258)), "one octet over the longest");
    CHECK(bad_element(walk(NULL, 0)), "null");

    struct walked s = element_hex("1C 0F 91 A1 81 03 00 00 00 A2 82 00 02 00 00 05 00");
    CHECK(s.refusal == AOC_ACCEPTED && s.count == 3, "three forms of a length");
    CHECK(s.starts[0] == 3 && s.starts[1] == 9 && s.starts[2] == 15, "three forms of a length");
    s = element_hex("1C 14 91 A1 80 02 01 05 02 01 1E 0A 01 01 00 00 A1 04 02 01 07 06");
    CHECK(s.count == 2 && s.starts[0] == 3 && s.starts[1] == 16, "a length without a number");
    s = element_hex("1C 05 91 00 00 00 00");
    CHECK(s.count == 2 && s.starts[0] == 3 && s.starts[1] == 5, "00 00 where nothing is open");
    s = element_hex("1C 07 91 FF 80 00 00 00 00");
    CHECK(s.count == 2 && s.starts[0] == 3 && s.starts[1] == 7, "00 00 after an end marker");
    s = element_hex("1C 05 9F A1 00 AA 00");
    CHECK(s.refusal == AOC_ACCEPTED && s.count == 2 && s.starts[1] == 5, "an element of a trunk");
    static const char *const bad[] = {
        "1C", "1C 01", "1C 01 91", "1D 03 91 A1 00", "1C 03 92 A1 00", "1C 04 91 A1 00", "1C 02 91 A1 00", "1C 02 91 A1",
        "1C 04 91 A1 80 00", "1C 05 91 81 80 00 00", "1C 05 91 A1 80 05 83", "1C 07 91 30 80 30 80 00 00",
        "1C 03 91 A1 01", "1C 03 91 A1 80", "1C 06 91 A1 83 00 00 00", "1C 03 91 A1 FF",
        "1C 03 91 A1 81", "1C 04 91 A1 82 00", "1C 04 91 A1 00 A1", "1C 81 03 91 A1 00", "1C 03 9E A1 00",
    };
    for (size_t i = 0; i < sizeof bad / sizeof *bad; i++)
        CHECK(bad_element(element_hex(bad[i])), bad[i]);
}

/* Every place of an element, and some past it. */
static void test_places(void)
{
    static const char *const whole = "1C 26 91 A1 80 02 01 05 02 01 1E 0A 01 01 00 00 A1 08 02 01 03 02 01 23 81 00 A4 00 "
                                     "A1 0A 02 01 04 02 01 23 30 02 81 00";
    static const struct {
        size_t place, after;
        uint32_t refusal, offset;
    } components[] = {{3, 16, 0, 0}, {16, 26, 41, 8}, {26, 28, 6, 0}, {28, 40, 0, 0}};
    uint8_t octets[600];
    size_t n = unhex(whole, octets), at = 0;
    for (size_t place = 0; place <= 70000; place++) {
        struct {
            uint8_t before[GUARD];
            aoc_answer answer;
            uint8_t after[GUARD];
        } a;
        memset(&a, MARK, sizeof a);
        size_t moved = place;
        bool found = aoc_next(lend(octets, n), n, &moved, &a.answer);
        CHECK(all(a.before, GUARD, MARK) && all(a.after, GUARD, MARK), "a place");
        if (at < 4 && place == components[at].place) {
            aoc_answer alone = read_octets(lend(octets + place, components[at].after - place), components[at].after - place);
            CHECK(found && moved == components[at].after && !memcmp(&alone, &a.answer, sizeof alone), "a component's place");
            CHECK(a.answer.refusal == components[at].refusal && a.answer.offset == components[at].offset, "a component's place");
            at++;
        } else {
            CHECK(!found && moved == place && a.answer.offset == 0 && all(&a.answer.record, sizeof a.answer.record, 0), "another place");
            CHECK(a.answer.refusal == (place == n ? (uint32_t)AOC_ACCEPTED : (uint32_t)AOC_REFUSED_BAD_PLACE), "another place");
        }
    }
    CHECK(at == 4, "all components");

    /* a malformed element is refused at every place, the end too */
    octets[29] = 0x0B;
    for (size_t place = 0; place <= 60; place++) {
        aoc_answer a;
        size_t moved = place;
        CHECK(!aoc_next(lend(octets, n), n, &moved, &a) && a.refusal == AOC_REFUSED_BAD_ELEMENT && moved == place, "malformed");
    }
}

/* ------------------------------------------------------------------ values */

static void test_values(void)
{
    static const uint64_t powers[] = {1, 10, 100, 1000, 10000, 100000, 1000000};
    static const uint32_t numbers[] = {0, 1, 9, 12345, 16777215, 16777216, 0xFFFFFFFF};
    for (size_t i = 0; i < sizeof numbers / sizeof *numbers; i++)
        for (unsigned m = 0; m < 256; m++)
            CHECK(aoc_thousandths(numbers[i], (uint8_t)m) == (m < 7 ? numbers[i] * powers[m] : 0), "thousandths");

    for (int32_t id = -32768; id <= 32767; id++) {
        int32_t next = id == 32767 ? -32768 : id + 1;
        CHECK((int16_t)aoc_next_identifier((uint16_t)id) == next, "next identifier");
        aoc_identifiers three = aoc_three_identifiers((uint16_t)id);
        CHECK((int16_t)three.s == next && three.d == aoc_next_identifier(three.s), "three identifiers");
        CHECK(three.e == aoc_next_identifier(three.d), "three identifiers");
        CHECK(three.s != three.d && three.d != three.e && three.s != three.e, "three identifiers");
    }

    static const uint8_t marks[] = {0, 1, 2, 0x80, 0xFF};
    aoc_services none = aoc_no_services();
    CHECK(all(&none, sizeof none, 0), "no services");
    for (int i = 0; i < 125; i++) {
        aoc_services set = {marks[i % 5], marks[i / 5 % 5], marks[i / 25]};
        for (unsigned service = 0; service < 256; service++) {
            uint8_t own = service == AOC_SERVICE_S ? set.s : service == AOC_SERVICE_D ? set.d : service == AOC_SERVICE_E ? set.e : 0;
            CHECK(aoc_has_service(set, (uint8_t)service) == (own != 0), "has service");
            CHECK(!aoc_has_service(none, (uint8_t)service), "has service");
            aoc_services more = aoc_with_service(set, (uint8_t)service);
            CHECK(more.s == (service == AOC_SERVICE_S ? 1 : set.s) && more.d == (service == AOC_SERVICE_D ? 1 : set.d) &&
                      more.e == (service == AOC_SERVICE_E ? 1 : set.e), "with service");
        }
    }
}

/* ------------------------------------------------------------------ any octets */

/* Octets of all lengths, most of them changed from valid ones: no function touches what it was not lent, and they agree. */
static void test_noise(void)
{
    for (long turn = 0; turn < 200000; turn++) {
        uint8_t octets[300], form[254];
        size_t n = unhex(valid[chance() % VALID].hex, octets);
        if (turn % 16 == 0) {
            n = chance() % 280;
            for (size_t i = 0; i < n; i++)
                octets[i] = (uint8_t)(chance() >> 20);
        }
        for (int k = (int)(chance() % 4); k > 0 && n > 0; k--)
            octets[chance() % n] = (uint8_t)(chance() >> 30);
        const uint8_t *lent = lend(octets, n);
        aoc_answer a = read_octets(lent, n);
        int in_argument = a.refusal >= AOC_REFUSED_MISSING && a.refusal <= AOC_REFUSED_PAST_LIMIT;
        CHECK((in_argument || a.refusal <= AOC_REFUSED_UNKNOWN_ERROR) && (!a.refusal || all(&a.record, sizeof a.record, 0)), "any octets");
        CHECK(in_argument ? a.offset >= 8 && a.offset <= n : a.offset == 0, "any octets");
        CHECK(!memcmp(lent, octets, n), "any octets");
        uint8_t *buffer = make_room(AOC_LIMIT_REPLY_OCTETS);
        aoc_written reply = aoc_reply(lent, n, buffer, AOC_LIMIT_REPLY_OCTETS);
        CHECK(reply.refusal == AOC_ACCEPTED && holds(buffer, AOC_LIMIT_REPLY_OCTETS, buffer, reply.count), "any octets");
        CHECK((reply.count == 0) == (a.refusal == 0 || (n && octets[0] == 0xA4)), "any octets");
        CHECK(!reply.count || read_octets(buffer, reply.count).refusal == AOC_ACCEPTED, "a reply is a component");
        struct walked s = walk(lent, n);
        CHECK(s.refusal ? bad_element(s) : s.count > 0, "any octets");
        if (a.refusal == 0) {
            aoc_written w = aoc_write(&a.record, form, sizeof form);
            aoc_answer back = read_octets(form, w.count);
            CHECK(w.refusal == AOC_ACCEPTED && w.count <= n, "what is read is written no longer");
            CHECK(!memcmp(&back, &a, sizeof a), "what is written reads back");
        }
    }
}

int main(void)
{
    make_edges();
    test_valid();
    test_fields();
    test_refusals();
    test_offsets();
    test_rooms();
    test_out_of_range();
    test_long_records();
    test_changed_octets();
    test_reply();
    test_element();
    test_places();
    test_values();
    test_noise();
    return report("host");
}
