/* What a host on a trunk has beside reading and writing: elements with a profile octet, what stands in front of components, requests in
 * one call, what is for the exchange and not for us, and what an interpretation says. */
#include "trunk_cases.h"
#include "aoc_text.h"

static int is_component(const struct trunk_case *c)
{
    return c->name[0] == 'Q' && c->octets[0] == AOC_PROFILE_TRUNK && c->n > 1;
}

/* ------------------------------------------------------------------ elements by their profile octet */

/* The answer to any octets at any room: what aoc_write_element answers, but for the third octet; or 17, before all else. */
static void check_element(const uint8_t *octets, size_t n, uint8_t profile, size_t room)
{
    uint8_t wanted[AOC_LIMIT_ELEMENT_OCTETS + GUARD];
    memset(wanted, MARK, sizeof wanted);
    aoc_written own = aoc_write_element(octets, n, wanted, room < sizeof wanted ? room : sizeof wanted);
    if (own.refusal == AOC_ACCEPTED)
        wanted[2] = profile;
    if (profile != AOC_PROFILE_LINE && profile != AOC_PROFILE_TRUNK) {
        own.refusal = AOC_REFUSED_OTHER_PROFILE;
        own.count = 0;
    }
    uint8_t *buffer = make_room(room);
    aoc_written w = aoc_write_element_by(profile, n ? lend(octets, n) : NULL, n, buffer, room);
    CHECK(w.refusal == own.refusal && w.count == own.count && holds(buffer, room, wanted, own.count), "an element by its octet");
    if (w.refusal != AOC_ACCEPTED)
        return;

    /* the components come back, each as it is read by itself */
    size_t place = AOC_FIRST_PLACE, from = place;
    aoc_either there, alone;
    for (; aoc_next_by(buffer, w.count, &place, &there); from = place) {
        CHECK(aoc_read_by(profile, octets + from - 3, place - from, &alone) == there.refusal && !memcmp(&there, &alone, sizeof alone), "a component");
    }
    CHECK(there.refusal == AOC_ACCEPTED && place == n + 3, "all components");
}

static void test_elements(void)
{
    uint8_t octets[600];
    for (size_t i = 0; i < trunk_case_count; i++) {
        const struct trunk_case *c = trunk_cases + i;
        if (!is_component(c))
            continue;
        for (size_t room = 0; room < c->n + 6; room++) {
            check_element(c->octets + 1, c->n - 1, AOC_PROFILE_TRUNK, room);
            check_element(c->octets + 1, c->n - 1, AOC_PROFILE_LINE, room);
        }
        for (unsigned profile = 0; profile < 256; profile++)
            check_element(c->octets + 1, c->n - 1, (uint8_t)profile, c->n + 2);
    }
    for (unsigned profile = 0; profile < 256; profile++) {
        memset(octets, 0, sizeof octets);
        check_element(octets, 0, (uint8_t)profile, 300);
        check_element(octets, 254, (uint8_t)profile, 257);
        check_element(octets, 254, (uint8_t)profile, 256);
        check_element(octets, 255, (uint8_t)profile, 300);
        check_element(octets, 256, (uint8_t)profile, 300);
    }
    for (int turn = 0; turn < 20000; turn++) {
        size_t n = chance() % 40;
        for (size_t i = 0; i < n; i++)
            octets[i] = (uint8_t)(chance() % 3 ? chance() % 4 : chance());
        check_element(octets, n, chance() % 2 ? AOC_PROFILE_TRUNK : (uint8_t)chance(), chance() % 48);
    }
}

/* ------------------------------------------------------------------ what stands in front */

static const uint8_t front[AOC_LIMIT_FRONT_OCTETS] = {0xAA, 0x06, 0x80, 0x01, 0x00, 0x82, 0x01, 0x00, 0x8B, 0x01, 0x00};

static void test_fronts(void)
{
    for (unsigned value = 0; value < 256; value++) {
        uint8_t wanted[sizeof front];
        size_t size = value == AOC_INTERPRETATION_NONE ? 8 : 11;
        memcpy(wanted, front, sizeof front);
        wanted[10] = (uint8_t)value;
        for (size_t room = 0; room < 14; room++) {
            uint8_t *buffer = make_room(room);
            aoc_written w = aoc_write_front((uint8_t)value, buffer, room);
            uint32_t refusal = value > 2 && value != 255 ? AOC_REFUSED_BAD_RECORD : room < size ? AOC_REFUSED_NO_ROOM : AOC_ACCEPTED;
            CHECK(w.refusal == refusal && w.count == (refusal ? 0 : size) && holds(buffer, room, wanted, w.count), "a front");
        }
    }
    CHECK(aoc_write_front(AOC_INTERPRETATION_NONE, NULL, 0).refusal == AOC_REFUSED_NO_ROOM, "no room");

    /* the extension that is written is the record from an end exchange to an end exchange */
    aoc_either record, read;
    memset(&record, 0, sizeof record);
    record.trunk.frame = AOC_FRAME_EXTENSION;
    record.trunk.detail = record.trunk.entity = AOC_ENTITY_END;
    CHECK(aoc_read_by(AOC_PROFILE_TRUNK, front, 8, &read) == AOC_ACCEPTED && !memcmp(&read.trunk, &record.trunk, sizeof read.trunk), "the extension");

    static const uint8_t discards[] = {61, 62, 63, 65};
    for (unsigned operation = 0; operation < 256; operation++) {
        uint8_t wanted = operation == 60 ? AOC_INTERPRETATION_CLEAR : memchr(discards, (int)operation, 4) ? AOC_INTERPRETATION_DISCARD : AOC_INTERPRETATION_NONE;
        CHECK(aoc_interpretation_of((uint8_t)operation) == wanted, "an operation's interpretation");
    }
    CHECK(!strcmp(aoc_interpretation_text(1), "clearCallIfAnyInvokePduNotRecognised") && !strcmp(aoc_interpretation_text(255), "no interpretation"), "words");
    CHECK(strcmp(aoc_interpretation_text(0), aoc_interpretation_text(3)) && strcmp(aoc_interpretation_text(2), aoc_interpretation_text(3)), "words");
}

/* Whole elements: the octets, or the refusal of the first that refuses. */
static void check_trunk_element(uint8_t interpretation, const uint8_t *octets, size_t n, size_t room)
{
    uint8_t wanted[300] = {0x1C, 0, 0x9F}, joined[600];
    aoc_written ahead = aoc_write_front(interpretation, joined, sizeof joined);
    uint32_t refusal = ahead.refusal;
    size_t size = ahead.count + n;
    if (n)
        memcpy(joined + ahead.count, octets, n);
    if (!refusal) {
        uint8_t spare[AOC_LIMIT_ELEMENT_OCTETS];
        refusal = n == 0 ? AOC_REFUSED_BAD_ELEMENT : aoc_write_element(joined, size, spare, sizeof spare).refusal;
    }
    if (!refusal && room < size + 3)
        refusal = AOC_REFUSED_NO_ROOM;
    if (!refusal) {
        wanted[1] = (uint8_t)(size + 1);
        memcpy(wanted + 3, joined, size);
    }
    uint8_t *buffer = make_room(room);
    aoc_written w = aoc_write_trunk_element(interpretation, n ? lend(octets, n) : NULL, n, buffer, room);
    CHECK(w.refusal == refusal && w.count == (refusal ? 0 : size + 3) && holds(buffer, room, wanted, w.count), "a trunk's element");
    if (!refusal)
        CHECK(aoc_interpretation_in(buffer, w.count) == (octets[0] == AOC_FIRST_INTERPRETATION && interpretation == AOC_INTERPRETATION_NONE ? octets[2] : interpretation), "its interpretation");
}

static void test_trunk_elements(void)
{
    static const uint8_t values[] = {0, 1, 2, 3, 254, 255};
    uint8_t octets[600] = {0};
    for (size_t i = 0; i < trunk_case_count; i++)
        for (size_t k = 0; k < sizeof values && is_component(trunk_cases + i); k++)
            for (size_t room = 0; room < trunk_cases[i].n + 18; room++)
                check_trunk_element(values[k], trunk_cases[i].octets + 1, trunk_cases[i].n - 1, room);
    for (size_t n = 0; n < 300; n++)
        for (size_t k = 0; k < sizeof values; k++)
            check_trunk_element(values[k], octets, n, 300);
}

/* ------------------------------------------------------------------ requests */

static void test_requests(void)
{
    uint8_t modes[AOC_LIMIT_MODES + 1] = {6, 0, 1, 2, 3, 4, 5, 0};
    for (size_t count = 0; count <= AOC_LIMIT_MODES + 1; count++) {
        for (size_t room = 0; room < 48; room++) {
            uint8_t *buffer = make_room(room);
            size_t size = 13 + 3 * count;                           /* an identifier of two octets */
            uint32_t refusal = count > AOC_LIMIT_MODES ? AOC_REFUSED_BAD_RECORD : room < size ? AOC_REFUSED_NO_ROOM : AOC_ACCEPTED;
            aoc_written w = aoc_charge_request(0x0102, count ? lend(modes, count) : NULL, count, buffer, room);
            CHECK(w.refusal == refusal && w.count == (refusal ? 0 : size) && holds(buffer, room, buffer, w.count), "a chargeRequest");
            if (refusal)
                continue;
            aoc_either a = read_by(AOC_PROFILE_TRUNK, buffer, w.count, "a chargeRequest");
            CHECK(a.refusal == AOC_ACCEPTED && a.trunk.frame == AOC_FRAME_INVOKE && a.trunk.operation == AOC_OPERATION_CHARGE_REQUEST, "a chargeRequest");
            CHECK(a.trunk.id == 0x0102 && a.trunk.asked == count && !memcmp(a.trunk.modes, modes, count), "its modes");
        }
    }
    for (unsigned mode = 0; mode < 256; mode++) {
        uint8_t one = (uint8_t)mode;
        uint8_t *buffer = make_room(20);
        aoc_written w = aoc_charge_request(1, lend(&one, 1), 1, buffer, 20);
        CHECK(w.refusal == (mode <= AOC_MODE_RATE_INTERIM_FINAL ? AOC_ACCEPTED : AOC_REFUSED_BAD_RECORD), "a mode");
    }
    CHECK(aoc_charge_request(1, modes, SIZE_MAX, NULL, 0).refusal == AOC_REFUSED_BAD_RECORD, "modes without end");

    static const uint8_t asks[] = {0xA1, 0x08, 0x02, 0x01, 0x05, 0x02, 0x01, 0x3C, 0x05, 0x00};
    for (size_t room = 0; room < 14; room++) {
        uint8_t *buffer = make_room(room);
        aoc_written w = aoc_final_charge_request(5, buffer, room);
        CHECK(w.refusal == (room < sizeof asks ? AOC_REFUSED_NO_ROOM : AOC_ACCEPTED), "a getFinalCharge");
        CHECK(holds(buffer, room, asks, room < sizeof asks ? 0 : sizeof asks) && w.count == (room < sizeof asks ? 0 : sizeof asks), "a getFinalCharge");
    }
}

/* Each kind of number, each kind of diversion, and what is neither. */
static void test_numbers(void)
{
    aoc_association user;
    for (unsigned kind = 0; kind < 6; kind++) {
        memset(&user, 0, sizeof user);
        user.kind = (uint8_t)kind;
        user.plan = kind > AOC_ASSOCIATION_NUMBER ? AOC_PLAN_SUBSCRIBER : 0;
        user.count = 2;
        memcpy(user.digits, "67", 2);
        bool number = kind >= AOC_ASSOCIATION_NUMBER && kind <= AOC_ASSOCIATION_PRIVATE_NUMBER;
        size_t size = kind == AOC_ASSOCIATION_NUMBER ? 14 : 19;
        for (size_t room = 0; room < 26; room++) {
            uint32_t refusal = !number ? AOC_REFUSED_BAD_RECORD : room < size ? AOC_REFUSED_NO_ROOM : AOC_ACCEPTED;
            uint8_t *buffer = make_room(room);
            aoc_written w = aoc_complete_request(9, &user, buffer, room);
            CHECK(w.refusal == refusal && w.count == (refusal ? 0 : size) && holds(buffer, room, buffer, w.count), "an aocComplete");
            if (!refusal) {
                aoc_either a = read_by(AOC_PROFILE_TRUNK, buffer, w.count, "an aocComplete");
                CHECK(a.trunk.frame == AOC_FRAME_INVOKE && a.trunk.operation == AOC_OPERATION_COMPLETE && a.trunk.id == 9, "an aocComplete");
                CHECK(!memcmp(&a.trunk.user, &user, sizeof user), "its user");
            }
        }
        for (unsigned diversion = 0; diversion < 256; diversion++) {
            size_t room = size + 3 + diversion % 2;
            uint32_t refusal = !number || diversion > AOC_DIVERSION_DEFLECTION ? AOC_REFUSED_BAD_RECORD : AOC_ACCEPTED;
            uint8_t *buffer = make_room(room);
            aoc_written w = aoc_diversion_request(9, &user, (uint8_t)diversion, buffer, room);
            CHECK(w.refusal == refusal && w.count == (refusal ? 0 : size + 3) && holds(buffer, room, buffer, w.count), "an aocDivChargeReq");
            if (!refusal) {
                aoc_either a = read_by(AOC_PROFILE_TRUNK, buffer, w.count, "an aocDivChargeReq");
                CHECK(a.trunk.operation == AOC_OPERATION_DIVERSION && a.trunk.detail == diversion && !memcmp(&a.trunk.user, &user, sizeof user), "its user");
                CHECK(aoc_diversion_request(9, &user, (uint8_t)diversion, buffer, size + 2).refusal == AOC_REFUSED_NO_ROOM, "no room");
            }
        }
    }
}

/* ------------------------------------------------------------------ what is for the exchange */

static void test_exchange(void)
{
    static const struct {
        const char *hex;
        bool ours, line;        /* under 9F, and under 91 */
    } cases[] = {
        {"AA 06 80 01 00 82 01 00", false, true},
        {"AA 06 80 01 02 82 01 00", false, true},           /* an extension that is refused */
        {"8B 01 00", false, true},
        {"92 01 05", false, true},
        {"93 01 05", true, true},                           /* no component at all */
        {"A1 08 02 01 03 02 01 7E 05 00", false, true},     /* another service's operation */
        {"A2 0A 02 01 02 30 05 02 01 3D 05 00", false, true},
        {"A3 06 02 01 05 02 01 1A", false, true},           /* another service's error */
        {"A3 06 02 01 05 02 01 03", true, true},
        {"A1 0A 02 01 03 02 01 3D 30 02 81 00", true, true},
        {"A1 08 02 01 03 02 01 3D 05 00", true, true},      /* ours, and mistyped */
        {"A4 06 02 01 07 81 01 01", true, true},
        {"A1 0B 02 01 05 80 01 04 02 01 3C 05 00", false, true},            /* a linked identifier, */
        {"A1 81 0C 02 81 01 05 80 01 04 02 01 3C 05 00", false, true},      /* in other forms of lengths */
        {"A1 82 00 0D 02 82 00 01 05 80 01 04 02 01 3C 05 00", false, true},
        {"A1 80 02 01 05 80 01 04 02 01 3C 05 00 00 00", false, true},
        {"A1 04 02 02 01 05", true, true},                                  /* no operation at all */
        {"A1 03 02 01 05", true, true},
        {"A1 0B 02 03 05 80 01 04 02 01 3C 05 00", true, true},             /* an identifier that is none */
        {"A1 0B 80 01 05 80 01 04 02 01 3C 05 00", true, true},
        {"A1 02 02 00", true, true},
        {"A1 00", true, true},
        {"A2 03 02 01 05", false, true},                                    /* a result of nothing but its identifier */
        {"A2 04 02 02 01 05", false, true},
        {"A2 05 02 82 00 01 05", false, true},
        {"A2 80 02 01 05 00 00", false, true},
        {"A2 08 02 01 05 02 01 3B 05 00", true, true},                      /* without its 30 */
        {"A2 02 02 00", true, true},
        {"A2 02 02 01", true, true},
        {"A2 02 02 81", true, true},
        {"A2 01 02", true, true},
        {"A2 00", true, true},
        {"A3 03 02 01 05", true, true},
        {"A4 03 02 01 05", true, true},
    };
    for (size_t i = 0; i < sizeof cases / sizeof *cases; i++) {
        uint8_t octets[64];
        size_t n = unhex(cases[i].hex, octets);
        aoc_either a = read_by(AOC_PROFILE_TRUNK, lend(octets, n), n, cases[i].hex);
        CHECK(aoc_is_for_exchange(&a, lend(octets, n), n) == !cases[i].ours, cases[i].hex);
        a = read_by(AOC_PROFILE_LINE, lend(octets, n), n, cases[i].hex);
        CHECK(aoc_is_for_exchange(&a, lend(octets, n), n) == !cases[i].line, cases[i].hex);
    }
    /* what is accepted and no extension is ours; what is for the exchange is never of another family */
    for (size_t i = 0; i < trunk_case_count; i++) {
        const struct trunk_case *c = trunk_cases + i;
        if (c->name[0] != 'Q')
            continue;
        aoc_either a = read_by(c->octets[0], c->octets + 1, c->n - 1, c->name);
        bool exchange = aoc_is_for_exchange(&a, lend(c->octets + 1, c->n - 1), c->n - 1);
        CHECK(!exchange || a.family == AOC_FAMILY_TRUNK, c->name);
        CHECK(!exchange || a.refusal || a.trunk.frame == AOC_FRAME_EXTENSION, c->name);
        CHECK(!exchange || a.refusal < AOC_REFUSED_MISSING, c->name);

        /* whatever the octets are, no more than they are is looked at; and what is ours by its argument stays ours */
        for (size_t k = 0; k < 64; k++) {
            uint8_t octets[320];
            size_t n = chance() % (c->n + 1);
            memcpy(octets, c->octets + 1, c->n);
            if (n)
                octets[chance() % n] = (uint8_t)chance();
            a = read_by(AOC_PROFILE_TRUNK, lend(octets, n), n, c->name);
            exchange = aoc_is_for_exchange(&a, n ? lend(octets, n) : NULL, n);
            CHECK(!exchange || a.refusal < AOC_REFUSED_MISSING, c->name);
            a.refusal = AOC_REFUSED_BAD_FRAME;
            exchange = aoc_is_for_exchange(&a, n ? lend(octets, n) : NULL, n);
            CHECK(!exchange || (octets[0] != 0xA3 && octets[0] != 0xA4), c->name);
        }
    }
    aoc_either none = read_by(AOC_PROFILE_TRUNK, NULL, 0, "no octets");
    CHECK(!aoc_is_for_exchange(&none, NULL, 0), "no octets");
}

static void test_interpretations(void)
{
    static const struct {
        const char *hex;
        uint8_t value;
    } cases[] = {
        {"1C 16 9F AA 06 80 01 00 82 01 00 8B 01 00 A1 08 02 01 03 02 01 7E 05 00", 0},
        {"1C 0E 9F 8B 01 01 A1 08 02 01 03 02 01 7E 05 00", 1},
        {"1C 0E 9F A1 08 02 01 03 02 01 7E 05 00 8B 01 02", 2},             /* wherever it stands */
        {"1C 0F 9F 8B 81 01 02 A1 08 02 01 03 02 01 7E 05 00", 2},          /* every form of its length */
        {"1C 10 9F 8B 82 00 01 01 A1 08 02 01 03 02 01 7E 05 00", 1},
        {"1C 0E 9F 8B 01 03 A1 08 02 01 03 02 01 7E 05 00", 255},           /* no value of ECMA-165 */
        {"1C 07 9F 8B 01 03 8B 01 00", 255},                                /* the first decides */
        {"1C 05 9F 8B 02 00 00", 255},
        {"1C 04 9F 8B 81 00", 255},
        {"1C 05 9F 8B 82 00 00", 255},
        {"1C 03 9F 8B 00", 255},
        {"1C 06 9F 8B 03 82 00 01", 255},
        {"1C 0B 9F A1 08 02 01 03 02 01 7E 05 00", 255},
        {"1C 0E 91 8B 01 01 A1 08 02 01 03 02 01 7E 05 00", 255},           /* of a public line */
        {"1C 0F 9F 8B 01 01 A1 08 02 01 03 02 01 7E 05 00", 255},           /* malformed */
        {"1C 01 9F", 255},
        {"", 255},
    };
    for (size_t i = 0; i < sizeof cases / sizeof *cases; i++) {
        uint8_t octets[64];
        size_t n = unhex(cases[i].hex, octets);
        CHECK(aoc_interpretation_in(n ? lend(octets, n) : NULL, n) == cases[i].value, cases[i].hex);
    }
}

int main(void)
{
    make_edges();
    load_trunk_cases();
    test_elements();
    test_fronts();
    test_trunk_elements();
    test_requests();
    test_numbers();
    test_exchange();
    test_interpretations();
    return report("exchange");
}
