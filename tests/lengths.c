/* Lengths without a number: every valid component with 80 for the length of each element made of elements, and how much stack
 * the deepest search takes. */
#include "check.h"
#include "components.h"
#include <ucontext.h>

enum { VALID = sizeof valid / sizeof *valid, CUT = 1, TOO_LONG = 3, TRAILING = 5, BAD_FRAME = 6 };

static uint32_t read_number(const uint8_t *octets, size_t n)
{
    aoc_answer a;
    return aoc_read(lend(octets, n), n, &a);
}

/* The elements from `at` up to `end`, whose lengths are shortest, those made of elements with 80 and an end marker. */
static size_t without_numbers(const uint8_t *at, const uint8_t *end, uint8_t *out)
{
    uint8_t *to = out;
    while (at < end) {
        size_t head = at[1] < 0x80 ? 2 : 3, size = at[head - 1];
        if (at[0] & 0x20) {
            *to++ = at[0];
            *to++ = 0x80;
            to += without_numbers(at + head, at + head + size, to);
            *to++ = 0;
            *to++ = 0;
        } else {
            memcpy(to, at, head + size);
            to += head + size;
        }
        at += head + size;
    }
    return (size_t)(to - out);
}

static void check_tiles(const uint8_t *octets, size_t n, const char *name)
{
    uint8_t element[300] = {0x1C, (uint8_t)(n + 1), 0x91};
    memcpy(element + 3, octets, n);
    struct walked s = walk(lend(element, n + 3), n + 3);
    CHECK(s.count == 1 && s.starts[0] == 3, name);
    element[1] = (uint8_t)n;
    CHECK(walk(lend(element, n + 2), n + 2).count == 0, name);
    if (n <= 252) {
        element[1] = (uint8_t)(n + 3);
        s = walk(lend(element, n + 5), n + 5);
        CHECK(s.count == 2 && s.starts[0] == 3 && s.starts[1] == n + 3, name);
    }
}

static void test_all_without_numbers(void)
{
    long read = 0;
    for (size_t i = 0; i < VALID; i++) {
        uint8_t octets[300], other[600];
        size_t n = unhex(valid[i].hex, octets), m = without_numbers(octets, octets + n, other);
        if (m > 254) {
            CHECK(read_number(other, m) == TOO_LONG, valid[i].name);
            continue;
        }
        aoc_answer a = read_octets(lend(octets, n), n), b = read_octets(lend(other, m), m);
        CHECK(!memcmp(&a, &b, sizeof a), valid[i].name);
        for (size_t k = 0; k < m; k++)
            CHECK(read_number(other, k) == CUT, valid[i].name);
        check_tiles(other, m, valid[i].name);
        other[m] = 0;
        if (m < 254)
            CHECK(read_number(other, m + 1) == TRAILING, valid[i].name);
        read++;
    }
    CHECK(read > 40, "components without numbers");
}

/* With numbers beside them. */
static void test_mixed(void)
{
    static const char *const mixed[][2] = {
        {"A1 0C 02 01 04 02 01 23 30 80 81 00 00 00", "A1 0A 02 01 04 02 01 23 30 02 81 00"},
        {"A1 80 02 01 04 02 01 23 30 02 81 00 00 00", "A1 0A 02 01 04 02 01 23 30 02 81 00"},
        {"A1 80 02 01 01 02 01 21 30 80 A1 80 81 02 00 00 A2 06 81 01 00 82 01 00 00 00 82 01 00 00 00 00 00",
         "A1 19 02 01 01 02 01 21 30 11 A1 0C 81 02 00 00 A2 06 81 01 00 82 01 00 82 01 00"},
    };
    for (size_t i = 0; i < sizeof mixed / sizeof *mixed; i++) {
        uint8_t one[64], two[64];
        size_t n = unhex(mixed[i][0], one), m = unhex(mixed[i][1], two);
        aoc_answer a = read_octets(lend(one, n), n), b = read_octets(lend(two, m), m);
        CHECK(read_number(one, n) == 0 && !memcmp(&a, &b, sizeof a), mixed[i][0]);
    }
}

/* ------------------------------------------------------------------ the stack */

/* A call on a stack of its own, marked before; what is not marked any more was used. */
static uint8_t stack[64 * 1024];
static ucontext_t caller, there;
static const uint8_t *given;
static size_t given_count;
static uint32_t answered;

static void read_there(void)
{
    aoc_answer a;
    answered = aoc_read(given, given_count, &a);
}

static size_t stack_used(const uint8_t *octets, size_t n)
{
    memset(stack, MARK, sizeof stack);
    given = lend(octets, n);
    given_count = n;
    getcontext(&there);
    there.uc_stack.ss_sp = stack;
    there.uc_stack.ss_size = sizeof stack;
    there.uc_link = &caller;
    makecontext(&there, read_there, 0);
    swapcontext(&caller, &there);
    size_t untouched = 0;
    while (untouched < sizeof stack && stack[untouched] == MARK)
        untouched++;
    return sizeof stack - untouched;
}

static void test_stack(void)
{
    uint8_t octets[254];
    size_t n = unhex("A1 1A 02 01 01 02 01 21 30 12 A1 0D 81 03 45 55 52 A2 06 81 01 32 82 01 01 82 01 00", octets);
    size_t plain = stack_used(octets, n);
    CHECK(answered == 0, "with numbers");
    /* the deepest that 254 octets hold: 127 elements in one another, and no end marker */
    for (size_t i = 0; i < 254; i += 2) {
        octets[i] = i ? 0x30 : 0xA1;
        octets[i + 1] = 0x80;
    }
    size_t most = stack_used(octets, 254);
    CHECK(answered == CUT, "127 elements");
    /* the most elements side by side: each is one call further too */
    for (size_t i = 2; i < 254; i += 2) {
        octets[i] = 0x05;
        octets[i + 1] = 0;
    }
    size_t beside = stack_used(octets, 254);
    CHECK(answered == CUT, "126 elements side by side");
    printf("lengths: octets of stack: %zu with numbers, %zu for 127 elements in one another, %zu for 126 side by side\n", plain, most, beside);
    CHECK(most < 24 * 1024 && beside < 24 * 1024, "stack");
}

int main(void)
{
    make_edges();
    test_all_without_numbers();
    test_mixed();
    test_stack();
    return report("lengths");
}
