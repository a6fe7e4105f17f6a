/* Components of trunks, read, gone through and replied to by their profile octet: the cases of the readings, each octet of them
 * changed, and every other profile octet. */
#include "trunk_cases.h"
#include "components.h"

enum { VALID = sizeof valid / sizeof *valid };

/* ------------------------------------------------------------------ the cases */

/* The reject at every room: none is touched where it does not fit, or where there is none. */
static void check_reply(uint8_t profile, const uint8_t *octets, size_t n, const char *reply, const char *of)
{
    uint8_t wanted[AOC_LIMIT_REPLY_OCTETS];
    bool other = !strcmp(reply, "-");
    size_t count = other || !strcmp(reply, "none") ? 0 : unhex(reply, wanted);
    for (size_t room = 0; room <= AOC_LIMIT_REPLY_OCTETS + 1; room++) {
        uint8_t *buffer = make_room(room);
        aoc_written w = aoc_reply_by(profile, lend(octets, n), n, buffer, room);
        uint32_t refusal = other ? AOC_REFUSED_OTHER_PROFILE : room < count ? AOC_REFUSED_NO_ROOM : AOC_ACCEPTED;
        size_t put = refusal ? 0 : count;
        CHECK(w.refusal == refusal && w.count == put && holds(buffer, room, wanted, put), of);
    }
}

static void check_component(const struct trunk_case *c)
{
    uint8_t profile = c->octets[0];
    const uint8_t *octets = c->octets + 1;
    size_t n = c->n - 1;
    aoc_either a = read_by(profile, lend(octets, n), n, c->name);
    bool finer = a.refusal >= AOC_REFUSED_MISSING && a.refusal <= AOC_REFUSED_PAST_LIMIT;
    const char *offset = strchr(c->wanted, '@');
    if (strchr(c->wanted, ' ') || !strcmp(c->wanted, "same"))
        CHECK(a.refusal == AOC_ACCEPTED, c->name);
    else if (offset)
        CHECK(a.refusal == (uint32_t)atoi(c->wanted) && a.offset == (uint32_t)atoi(offset + 1), c->name);
    else
        CHECK((finer ? 9 : a.refusal) == (uint32_t)atoi(c->wanted), c->name);
    check_reply(profile, octets, n, c->reply, c->name);
    for (size_t k = 0; k < n && a.refusal == AOC_ACCEPTED; k++)
        CHECK(read_by(profile, lend(octets, k), k, c->name).refusal == AOC_REFUSED_CUT, c->name);
}

/* An element gone through: its components are what they are by themselves, and for a public line's host each of a trunk is 17. */
static void check_element(const struct trunk_case *c)
{
    uint8_t profile = (uint8_t)strtoul(c->wanted, NULL, 16);
    const char *start = strchr(c->wanted, ' ');
    const uint8_t *octets = lend(c->octets, c->n);
    size_t place = AOC_FIRST_PLACE, from = place, other = place;
    aoc_either a;
    aoc_answer alone;
    for (; aoc_next_by(octets, c->n, &place, &a); from = other = place) {
        CHECK(start && from == strtoul(start, NULL, 10), c->name);
        start = start ? strchr(start + 1, ' ') : NULL;
        aoc_either b = read_by(profile, c->octets + from, place - from, c->name);
        CHECK(!memcmp(&a, &b, sizeof a), c->name);
        CHECK(aoc_next(octets, c->n, &other, &alone) && other == place, c->name);
        CHECK(alone.refusal == (profile == AOC_PROFILE_LINE ? a.refusal : (uint32_t)AOC_REFUSED_OTHER_PROFILE), c->name);
        CHECK(profile == AOC_PROFILE_LINE || (alone.offset == 0 && all(&alone.record, sizeof alone.record, 0)), c->name);
    }
    CHECK(place == from && !start && all(&a.record, sizeof a.record + sizeof a.trunk, 0), c->name);
    CHECK(a.refusal == (strcmp(c->wanted, "15") ? AOC_ACCEPTED : AOC_REFUSED_BAD_ELEMENT), c->name);
    for (size_t at = 0; at <= c->n + 1; at++) {
        other = at;
        bool found = aoc_next_by(octets, c->n, &other, &a);
        CHECK(found == (other != at), c->name);
        CHECK(found || a.refusal == AOC_ACCEPTED || a.refusal == AOC_REFUSED_BAD_PLACE || a.refusal == AOC_REFUSED_BAD_ELEMENT, c->name);
    }
}

/* ------------------------------------------------------------------ the records */

static const aoc_trunk *trunk_of(const char *name)
{
    static aoc_either a;
    for (size_t i = 0; i < trunk_case_count; i++)
        if (!strcmp(trunk_cases[i].name, name))
            a = read_by(trunk_cases[i].octets[0], lend(trunk_cases[i].octets + 1, trunk_cases[i].n - 1), trunk_cases[i].n - 1, name);
    CHECK(a.refusal == AOC_ACCEPTED, name);
    return &a.trunk;
}

static int has_number(const aoc_association *a, uint8_t kind, uint8_t plan, const char *digits)
{
    return a->kind == kind && a->plan == plan && a->count == strlen(digits) && !memcmp(a->digits, digits, a->count) && a->id == 0;
}

static void test_records(void)
{
    static const uint8_t modes[] = {0, 2, 4, 6, 1, 3, 5}, one[] = {0x06, 0x01, 0x2A, 0x05, 0x00};
    const aoc_trunk *t = trunk_of("Q3");
    CHECK(t->frame == AOC_FRAME_INVOKE && t->operation == AOC_OPERATION_CHARGE_REQUEST && t->asked == 7 && !memcmp(t->modes, modes, 7), "modes");
    t = trunk_of("Q9");
    CHECK(t->frame == AOC_FRAME_RESULT && t->id == 2 && t->detail == AOC_MODE_FINAL && t->asked == 0, "result");
    t = trunk_of("Q22");
    CHECK(t->operation == AOC_OPERATION_FINAL && t->charge.kind == AOC_CHARGE_MONEY, "final");
    CHECK(t->charge.money.number == 50 && t->charge.money.multiplier == 1, "final");
    CHECK(t->charge.billed == 1 && t->charge.billing == AOC_BILLING_NORMAL && t->charge.total == 0 && t->charge.money.currency.count == 3, "final");
    t = trunk_of("Q25");
    CHECK(t->charge.money.currency.count == 0 && t->charge.kind == AOC_CHARGE_MONEY, "the private network's currency");
    t = trunk_of("Q29");
    CHECK(t->charge.kind == AOC_CHARGE_FREE && has_number(&t->charge.association, AOC_ASSOCIATION_PRIVATE_NUMBER, 1, "67"), "private number");
    t = trunk_of("Q30");
    CHECK(t->charge.kind == AOC_CHARGE_NONE && t->charge.association.kind == AOC_ASSOCIATION_IDENTIFIER, "identifier");
    CHECK(t->charge.association.id == 0xFFFF, "identifier");
    t = trunk_of("Q33");
    CHECK(t->extended == AOC_EXTENDED_LIST && t->extent == 0, "a list of no extensions");
    t = trunk_of("Q50");
    CHECK(t->operation == AOC_OPERATION_RATE && t->charge.kind == AOC_CHARGE_RATES && t->charge.count == 1, "rate");
    CHECK(t->charge.rates[0].kind == AOC_RATE_FREE_FROM_BEGINNING, "rate");
    t = trunk_of("Q52");
    CHECK(t->charge.rates[0].kind == AOC_RATE_DURATION && t->charge.rates[0].stepped == 1, "step");
    CHECK(t->charge.rates[0].step_scale == 6 && t->charge.rate_numbers[0].step == 256, "step");
    t = trunk_of("Q57");
    CHECK(t->operation == AOC_OPERATION_COMPLETE && has_number(&t->user, AOC_ASSOCIATION_PLANNED_NUMBER, 1, "1"), "charged user");
    CHECK(t->extended == AOC_EXTENDED_ONCE && t->extent == sizeof one && !memcmp(t->extension, one, sizeof one), "charged user's extension");
    t = trunk_of("Q59");
    CHECK(t->frame == AOC_FRAME_RESULT && t->detail == AOC_OPTION_STOP, "option");
    t = trunk_of("Q61");
    CHECK(t->operation == AOC_OPERATION_DIVERSION && t->detail == AOC_DIVERSION_DEFLECTION, "diversion");
    CHECK(has_number(&t->user, AOC_ASSOCIATION_NUMBER, 0, "1"), "diversion");
    CHECK(t->charge.association.kind == AOC_ASSOCIATION_IDENTIFIER && t->charge.association.id == 5, "diversion");
    t = trunk_of("Q67");
    CHECK(t->frame == AOC_FRAME_ERROR && t->error == AOC_ERROR_FREE && t->extended == 0, "error");
    t = trunk_of("Q69");
    CHECK(t->error == AOC_ERROR_UNSPECIFIED && t->extended == AOC_EXTENDED_ONCE && t->extent == sizeof one, "error's parameter");
    t = trunk_of("Q77");
    CHECK(t->frame == AOC_FRAME_REJECT && t->id == 7 && t->problem == AOC_PROBLEM_INVOKE && t->detail == 1, "reject");
    t = trunk_of("Q80");
    CHECK(t->frame == AOC_FRAME_EXTENSION && t->detail == AOC_ENTITY_ANY && t->entity == AOC_ENTITY_END && t->id == 0, "network facility extension");
    CHECK(has_number(&t->user, AOC_ASSOCIATION_PLANNED_NUMBER, 1, "49"), "its source address");
    CHECK(has_number(&t->charge.association, AOC_ASSOCIATION_NUMBER, 0, "6001"), "its destination address");
}

/* The record keeps an extension's normal form, whatever form it came in. */
static void check_extension(const char *name, aoc_extended extended, const char *hex)
{
    uint8_t wanted[AOC_LIMIT_EXTENSION_OCTETS];
    size_t n = unhex(hex, wanted);
    const aoc_trunk *t = trunk_of(name);
    CHECK(t->extended == extended && t->extent == n && !memcmp(t->extension, wanted, n), name);
    CHECK(all(t->extension + n, sizeof t->extension - n, 0), name);
}

/* A price in lengths without a number at every depth, an extension's too: it is read, and can be posted. */
static void test_price(void)
{
    const aoc_trunk *t = trunk_of("X9");
    aoc_closing closing = {AOC_SERVICE_E, t->charge};
    aoc_month month = aoc_month_empty();
    CHECK(t->charge.kind == AOC_CHARGE_MONEY && aoc_thousandths(t->charge.money.number, t->charge.money.multiplier) == 500, "a price");
    CHECK(t->charge.money.currency.count == 3 && !memcmp(t->charge.money.currency.octets, "EUR", 3), "a price");
    CHECK(aoc_month_post(&month, &closing) == AOC_ACCEPTED && month.added == 1 && month.rows[0].sum == 500, "a price posted");
}

static void test_extensions(void)
{
    check_extension("Q14", AOC_EXTENDED_ONCE, "06 03 2B 0C 02 05 00");
    check_extension("Q37", AOC_EXTENDED_ONCE, "06 03 2B 0C 02 05 00");
    check_extension("X1", AOC_EXTENDED_ONCE, "06 01 2A 30 00");
    check_extension("X2", AOC_EXTENDED_ONCE, "06 01 2A 30 02 30 00");
    check_extension("X3", AOC_EXTENDED_ONCE, "06 01 2A 05 00");
    check_extension("X4", AOC_EXTENDED_LIST, "30 05 06 01 2A 05 00");
    check_extension("X9", AOC_EXTENDED_LIST, "30 05 06 01 2A 05 00");
}

/* ------------------------------------------------------------------ damage, and other octets */

/* Each octet of an accepted case changed to every other: whatever it is then, the answer is whole and the reject is the one that its refusal asks. */
static void check_damage(const struct trunk_case *c)
{
    uint8_t octets[320], reject[AOC_LIMIT_REPLY_OCTETS];
    size_t n = c->n - 1;
    memcpy(octets, c->octets + 1, n);
    for (size_t i = 0; i < n; i++) {
        uint8_t was = octets[i];
        for (unsigned value = 0; value < 256; value++) {
            octets[i] = (uint8_t)value;
            aoc_either a = read_by(AOC_PROFILE_TRUNK, lend(octets, n), n, c->name);
            aoc_written w = aoc_reply_by(AOC_PROFILE_TRUNK, lend(octets, n), n, reject, sizeof reject);
            bool none = a.refusal == AOC_ACCEPTED || octets[0] == 0xA4 || (octets[0] == 0xAA && a.refusal == AOC_REFUSED_BAD_FRAME);
            CHECK(w.refusal == AOC_ACCEPTED && (w.count == 0) == none, c->name);
            CHECK(a.refusal || all(a.trunk.zero, sizeof a.trunk.zero, 0), c->name);
            aoc_answer sent;
            CHECK(none || (aoc_read(reject, w.count, &sent) == AOC_ACCEPTED && sent.record.frame == AOC_FRAME_REJECT), c->name);
        }
        octets[i] = was;
    }
}

/* 17 for every other profile octet, before all else; with 91 what aoc_read and aoc_reply give. */
static void test_profiles(void)
{
    uint8_t octets[300] = {0xAA};
    for (unsigned profile = 0; profile < 256; profile++) {
        if (profile == AOC_PROFILE_LINE || profile == AOC_PROFILE_TRUNK)
            continue;
        CHECK(read_by((uint8_t)profile, NULL, 0, "17").refusal == AOC_REFUSED_OTHER_PROFILE, "no octets");
        CHECK(read_by((uint8_t)profile, lend(octets, 255), 255, "17").refusal == AOC_REFUSED_OTHER_PROFILE, "over 254 octets");
        check_reply((uint8_t)profile, octets, 255, "-", "17");
        check_reply((uint8_t)profile, octets, 0, "-", "17");
    }
    CHECK(read_by(AOC_PROFILE_TRUNK, NULL, 0, "1").refusal == AOC_REFUSED_CUT, "no octets");
    CHECK(read_by(AOC_PROFILE_TRUNK, lend(octets, 255), 255, "3").refusal == AOC_REFUSED_TOO_LONG, "over 254 octets");
    for (size_t i = 0; i < VALID; i++) {
        size_t n = unhex(valid[i].hex, octets);
        for (size_t k = 0; k <= n; k++) {
            aoc_answer b = read_octets(lend(octets, k), k);
            aoc_either a = read_by(AOC_PROFILE_LINE, lend(octets, k), k, valid[i].name);
            CHECK(a.refusal == b.refusal && a.offset == b.offset && !memcmp(&a.record, &b.record, sizeof b.record), valid[i].name);
        }
        uint32_t number = octets[0] == 0xA3 ? AOC_REFUSED_UNKNOWN_ERROR : AOC_REFUSED_UNKNOWN_OPERATION;
        if (octets[0] == 0xA4 || !strcmp(valid[i].name, "error 3"))
            number = AOC_ACCEPTED;
        CHECK(read_by(AOC_PROFILE_TRUNK, lend(octets, n), n, valid[i].name).refusal == number, valid[i].name);
    }
}

int main(void)
{
    make_edges();
    load_trunk_cases();
    for (size_t i = 0; i < trunk_case_count; i++) {
        const struct trunk_case *c = trunk_cases + i;
        if (c->name[0] == 'E')
            check_element(c);
        else
            check_component(c);
        if (c->octets[0] == AOC_PROFILE_TRUNK && (strchr(c->wanted, ' ') || !strcmp(c->wanted, "same")))
            check_damage(c);
    }
    test_records();
    test_extensions();
    test_price();
    test_profiles();
    return report("trunks");
}
