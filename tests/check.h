/* What the C tests share: checks that are counted, hex text, and memory that ends at a page which must not be touched. */
#define _GNU_SOURCE
#include "aoc.h"
#include <stdio.h>
#include <stdlib.h>
#include <string.h>
#include <sys/mman.h>

static long passed, failed;

static inline void check(int ok, const char *what, const char *of)
{
    if (ok) {
        passed++;
    } else if (failed++ < 20) {
        printf("FAILED: %s: %s\n", of, what);
    }
}

#define CHECK(fact, of) check(fact, #fact, of)

static inline int report(const char *name)
{
    printf("%s: %ld checks passed, %ld failed\n", name, passed, failed);
    return failed != 0;
}

enum { GUARD = 64, MARK = 0xA5, PAGE = 4096 };

/* Two places up to which memory may be touched; what lies past them ends the program. */
static uint8_t *edges[2];

static inline void make_edges(void)
{
    for (int i = 0; i < 2; i++) {
        uint8_t *p = mmap(NULL, 3 * PAGE, PROT_READ | PROT_WRITE, MAP_PRIVATE | MAP_ANONYMOUS, -1, 0);
        if (p == MAP_FAILED || mprotect(p + 2 * PAGE, PAGE, PROT_NONE)) {
            printf("no memory\n");
            exit(1);
        }
        edges[i] = p + 2 * PAGE;
    }
}

/* The octets, copied so that they end at the edge. */
static inline const uint8_t *lend(const void *octets, size_t n)
{
    return n ? memcpy(edges[0] - n, octets, n) : edges[0];
}

/* A marked buffer that ends at the other edge, with a guard before it. */
static inline uint8_t *make_room(size_t n)
{
    memset(edges[1] - n - GUARD, MARK, n + GUARD);
    return edges[1] - n;
}

static inline int all(const void *from, size_t n, uint8_t value)
{
    const uint8_t *o = from;
    for (size_t i = 0; i < n; i++)
        if (o[i] != value)
            return 0;
    return 1;
}

/* Whether the first `count` octets of a buffer are these, and the rest of it and its guard are untouched. */
static inline int holds(const uint8_t *buffer, size_t room, const uint8_t *octets, size_t count)
{
    return count <= room && !memcmp(buffer, octets, count) && all(buffer - GUARD, GUARD, MARK) &&
           all(buffer + count, room - count, MARK);
}

/* An element gone through: where its components begin, and why the pass ended. */
struct walked {
    uint32_t refusal;
    size_t count, starts[AOC_LIMIT_COMPONENTS + 1];
};

static inline struct walked walk(const uint8_t *octets, size_t n)
{
    struct walked w = {0, 0, {0}};
    size_t place = AOC_FIRST_PLACE, from = place;
    aoc_answer a;
    for (; aoc_next(octets, n, &place, &a) && w.count <= AOC_LIMIT_COMPONENTS; from = place)
        w.starts[w.count++] = from;
    w.refusal = a.refusal;
    return w;
}

/* What is read into memory that held anything, with nothing beside it touched. */
static inline aoc_answer read_octets(const uint8_t *octets, size_t n)
{
    struct {
        uint8_t before[GUARD];
        aoc_answer answer;
        uint8_t after[GUARD];
    } lent;
    memset(&lent, MARK, sizeof lent);
    aoc_refusal refusal = aoc_read(octets, n, &lent.answer);
    CHECK(refusal == lent.answer.refusal && all(lent.before, GUARD, MARK) && all(lent.after, GUARD, MARK), "read");
    return lent.answer;
}

static inline int digit(char c)
{
    return c >= '0' && c <= '9' ? c - '0' : c >= 'A' && c <= 'F' ? c - 'A' + 10 : -1;
}

/* The octets of hex text with spaces. */
static inline size_t unhex(const char *text, uint8_t *to)
{
    size_t n = 0;
    while (*text) {
        if (*text == ' ') {
            text++;
            continue;
        }
        to[n++] = (uint8_t)(digit(text[0]) << 4 | digit(text[1]));
        text += 2;
    }
    return n;
}

/* The same octets on every run. */
static uint64_t seed = 88172645463325252u;

static inline uint64_t chance(void)
{
    seed ^= seed << 13;
    seed ^= seed >> 7;
    return seed ^= seed << 17;
}

/* An event of a made-up call: a Setup first, and then mostly components, which have their octets from elsewhere. */
static inline aoc_event any_event(size_t i)
{
    uint64_t c = chance();
    if (i == 0 || c % 16 == 0) {
        aoc_identifiers ids = {(uint16_t)(c >> 8 & 3), (uint16_t)(c >> 10 & 3), (uint16_t)(c >> 12 & 3)};
        aoc_services asked = {(uint8_t)(c >> 20 & 1), (uint8_t)(c >> 21 & 1), (uint8_t)(c >> 22 & 1)};
        return aoc_event_of_setup(asked, ids);
    }
    return aoc_event_of((uint8_t)(c % 16 < 10 ? AOC_EVENT_COMPONENT : c / 16 % 9));
}
