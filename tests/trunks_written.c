/* Components of trunks written by their profile octet: the cases of the readings at every room, every field out of its range, extensions
 * that are no normal form, and every other profile octet. */
#include "trunk_cases.h"

/* What is written of a record that was read, at every room. */
static void check_written(const struct trunk_case *c)
{
    uint8_t wanted[320], profile = c->octets[0];
    size_t n = c->n - 1, count = n;
    aoc_either a = read_by(profile, lend(c->octets + 1, n), n, c->name);
    if (!strcmp(c->wanted, "same"))
        memcpy(wanted, c->octets + 1, n);
    else
        count = unhex(c->wanted, wanted);
    for (size_t room = 0; room <= AOC_LIMIT_COMPONENT_OCTETS + 1; room++) {
        uint8_t *buffer = make_room(room);
        aoc_written w = aoc_write_by(profile, &a, buffer, room);
        size_t put = room < count ? 0 : count;
        CHECK(w.refusal == (room < count ? AOC_REFUSED_NO_ROOM : AOC_ACCEPTED) && w.count == put && holds(buffer, room, wanted, put), c->name);
    }
    for (unsigned other = 0; other < 256; other++) {
        uint8_t *buffer = make_room(count);
        if (other == AOC_PROFILE_LINE || other == AOC_PROFILE_TRUNK)
            continue;
        aoc_written w = aoc_write_by((uint8_t)other, &a, buffer, count);
        CHECK(w.refusal == AOC_REFUSED_OTHER_PROFILE && w.count == 0 && holds(buffer, count, wanted, 0), c->name);
    }
}

/* Each octet of a record in memory changed: it is refused with nothing written, or what is written is read back as the record; but for
 * the four that are no field's, which are not looked at. */
static void check_fields(const struct trunk_case *c)
{
    static const uint8_t others[] = {0, 1, 2, 3, 4, 5, 6, 7, 8, 10, 11, 59, 65, 66, 0x7F, 0x80, 0x83, 0x84, 0xF0, 0xFF};
    size_t n = c->n - 1;
    aoc_either a = read_by(c->octets[0], lend(c->octets + 1, n), n, c->name), b;
    uint8_t *memory = (uint8_t *)&a.trunk;
    for (size_t i = 0; i < sizeof a.trunk; i++) {
        uint8_t was = memory[i];
        for (size_t k = 0; k < sizeof others; k++) {
            uint8_t *buffer = make_room(AOC_LIMIT_COMPONENT_OCTETS);
            memory[i] = others[k];
            aoc_written w = aoc_write_by(AOC_PROFILE_TRUNK, &a, buffer, AOC_LIMIT_COMPONENT_OCTETS);
            if (w.refusal) {
                CHECK(w.refusal == AOC_REFUSED_BAD_RECORD || w.refusal == AOC_REFUSED_LONG_RECORD, c->name);
                CHECK(w.count == 0 && holds(buffer, AOC_LIMIT_COMPONENT_OCTETS, buffer, 0), c->name);
                continue;
            }
            CHECK(all(buffer + w.count, AOC_LIMIT_COMPONENT_OCTETS - w.count, MARK), c->name);
            b = read_by(AOC_PROFILE_TRUNK, buffer, w.count, c->name);
            CHECK(b.refusal == AOC_ACCEPTED && !memcmp(&a.trunk, &b.trunk, sizeof a.trunk), c->name);
        }
        memory[i] = was;
    }
}

/* An extension's octets that are no normal form are no record's: 10, and nothing is written. The same read is written in its normal form. */
static void test_forms(void)
{
    static const struct {
        const char *octets;     /* of an extension; of a list behind L */
        bool taken;
    } forms[] = {
        {"06 01 2A 05 00", true},
        {"06 01 2A 30 00", true},
        {"06 01 2A 30 02 30 00", true},
        {"06 01 2A 04 04 30 80 00 00", true},
        {"06 02 81 00 05 00", true},
        {"L", true},
        {"L30 05 06 01 2A 05 00", true},
        {"06 01 2A 30 80 00 00", false},
        {"06 01 2A 30 04 30 80 00 00", false},
        {"06 01 2A 05 81 00", false},
        {"06 81 01 2A 05 00", false},
        {"06 01 2A 30 03 05 81 00", false},
        {"06 01 2A 30 02 00 00", false},
        {"06 01 2A 30 01 05", false},
        {"06 01 2A", false},
        {"06 01 2A 05 00 05 00", false},
        {"06 01 80 05 00", false},
        {"06 02 80 01 05 00", false},
        {"06 00 05 00", false},
        {"06 01 2A 00 00", false},
        {"06 01 2A 04 80", false},
        {"", false},
        {"L30 80 06 01 2A 05 00 00 00", false},
        {"L30 81 05 06 01 2A 05 00", false},
        {"L30 06 06 01 2A 05 81 00", false},
        {"L06 01 2A 05 00", false},
    };
    for (size_t i = 0; i < sizeof forms / sizeof *forms; i++) {
        bool list = forms[i].octets[0] == 'L';
        aoc_either a = read_by(AOC_PROFILE_TRUNK, (const uint8_t *)"\xA1\x08\x02\x01\x05\x02\x01\x3C\x05\x00", 10, "forms");
        a.trunk.extended = list ? AOC_EXTENDED_LIST : AOC_EXTENDED_ONCE;
        a.trunk.extent = (uint8_t)unhex(forms[i].octets + list, a.trunk.extension);
        uint8_t *buffer = make_room(AOC_LIMIT_COMPONENT_OCTETS);
        aoc_written w = aoc_write_by(AOC_PROFILE_TRUNK, &a, buffer, AOC_LIMIT_COMPONENT_OCTETS);
        CHECK(w.refusal == (forms[i].taken ? AOC_ACCEPTED : AOC_REFUSED_BAD_RECORD), forms[i].octets);
        CHECK(!forms[i].taken || (w.count == 10u + a.trunk.extent && !memcmp(buffer + 10, a.trunk.extension, a.trunk.extent)), forms[i].octets);
        CHECK(forms[i].taken || (w.count == 0 && holds(buffer, AOC_LIMIT_COMPONENT_OCTETS, buffer, 0)), forms[i].octets);
    }
}

int main(void)
{
    make_edges();
    load_trunk_cases();
    for (size_t i = 0; i < trunk_case_count; i++) {
        const struct trunk_case *c = trunk_cases + i;
        if (c->name[0] == 'E' || (strcmp(c->wanted, "same") && !strchr(c->wanted, ' ')))
            continue;
        check_written(c);
        if (c->octets[0] == AOC_PROFILE_TRUNK)
            check_fields(c);
    }
    test_forms();
    return report("trunks written");
}
