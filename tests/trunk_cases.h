/* The cases of the readings of document 02's request 1, out of second/trunk_cases.txt: components behind their profile octet, and
 * elements. */
#include "check.h"

struct trunk_case {
    char name[8], wanted[640], reply[64];
    uint8_t octets[320];        /* of a component the profile octet first */
    size_t n;
};

static struct trunk_case trunk_cases[160];
static size_t trunk_case_count;

/* The next field of a line, up to " | " or its end. */
static inline const char *field_of(const char *line, char *to, size_t room)
{
    const char *end = strstr(line, " | ");
    size_t n = end ? (size_t)(end - line) : strcspn(line, "\n");
    if (n >= room) {
        printf("a case is too long: %s", line);
        exit(1);
    }
    memcpy(to, line, n);
    to[n] = 0;
    return end ? end + 3 : line + n;
}

static inline void load_trunk_cases(void)
{
    char line[2048], hex[1024];
    FILE *file = fopen("second/trunk_cases.txt", "r");
    while (file && fgets(line, sizeof line, file)) {
        struct trunk_case *c = trunk_cases + trunk_case_count;
        if (line[0] == '#' || trunk_case_count == sizeof trunk_cases / sizeof *trunk_cases)
            continue;
        const char *rest = field_of(field_of(field_of(line, c->name, sizeof c->name), hex, sizeof hex), c->wanted, sizeof c->wanted);
        field_of(rest, c->reply, sizeof c->reply);
        c->n = unhex(hex, c->octets);
        trunk_case_count++;
    }
    if (!file || trunk_case_count != 120) {
        printf("second/trunk_cases.txt has not the 108 components and 12 elements\n");
        exit(1);
    }
    fclose(file);
}

/* What is read by a profile octet into memory that held anything, with nothing beside it touched; of a refusal, and of the other
 * family, there is nothing. */
static inline aoc_either read_by(uint8_t profile, const uint8_t *octets, size_t n, const char *of)
{
    struct {
        uint8_t before[GUARD];
        aoc_either answer;
        uint8_t after[GUARD];
    } lent;
    memset(&lent, MARK, sizeof lent);
    aoc_either *a = &lent.answer;
    aoc_refusal refusal = aoc_read_by(profile, octets, n, a);
    bool line = profile == AOC_PROFILE_LINE, trunk = profile == AOC_PROFILE_TRUNK;
    CHECK(refusal == a->refusal && all(lent.before, GUARD, MARK) && all(lent.after, GUARD, MARK), of);
    CHECK(a->family == (line ? AOC_FAMILY_LINE : trunk ? AOC_FAMILY_TRUNK : AOC_FAMILY_NONE), of);
    CHECK((refusal == AOC_REFUSED_OTHER_PROFILE) == (!line && !trunk), of);
    CHECK((line && !refusal) || all(&a->record, sizeof a->record, 0), of);
    CHECK((trunk && !refusal) || all(&a->trunk, sizeof a->trunk, 0), of);
    CHECK(refusal >= AOC_REFUSED_MISSING && refusal <= AOC_REFUSED_PAST_LIMIT ? a->offset >= 2 && a->offset <= n : a->offset == 0, of);
    return *a;
}
