/* Our side: the C library as a host calls it. */
#include "aoc.h"
#include "side.h"

/* A Facility element of the row's eight components, one of C1 alone, and the row as records. */
static struct element {
    uint8_t octets[257];
    size_t length;
} eight, one;
static aoc_answer records[8];

static void lay(struct element *e, int components)
{
    size_t n = 3;
    for (int i = 0; i < components; i++)
        for (size_t k = 0; k < row[i].length; k++)
            e->octets[n++] = row[i].octets[k];
    e->octets[0] = 0x1C;
    e->octets[1] = (uint8_t)(n - 2);
    e->octets[2] = 0x91;
    e->length = n;
}

void start_side(void)
{
    lay(&eight, 8);
    lay(&one, 1);
    for (int i = 0; i < 8; i++)
        aoc_read(row[i].octets, row[i].length, &records[i]);
}

int rewrite(const uint8_t *octets, size_t length, uint8_t *buffer, size_t room)
{
    aoc_answer a;
    if (aoc_read(octets, length, &a))
        return -1;
    aoc_written w = aoc_write(&a.record, buffer, room);
    return w.refusal ? -1 : (int)w.count;
}

static unsigned read_one(long i)
{
    aoc_answer a;
    aoc_read(row[i & 7].octets, row[i & 7].length, &a);
    return a.refusal + a.record.frame;
}

static unsigned rewrite_one(long i)
{
    uint8_t buffer[254];
    return (unsigned)rewrite(row[i & 7].octets, row[i & 7].length, buffer, sizeof buffer);
}

static unsigned write_one(long i)
{
    uint8_t buffer[254];
    return aoc_write(&records[i & 7].record, buffer, sizeof buffer).count;
}

/* Goes through an element up to its last component: where the place is the length there is no further one. */
static unsigned through(const struct element *e)
{
    aoc_answer a;
    unsigned frames = 0;
    size_t place = AOC_FIRST_PLACE;
    while (aoc_next(e->octets, e->length, &place, &a)) {
        frames += a.record.frame;
        if (place == e->length)
            break;
    }
    return frames;
}

static unsigned element_one(long i)
{
    (void)i;
    return through(&eight);
}

static unsigned single_one(long i)
{
    (void)i;
    return through(&one);
}

/* A call of nine events: Setup that asks for D, Connect, C1 (ignored), C4 (granted), C1, Clear, C2, C2 again, Released. */
static unsigned step_one(long i)
{
    static aoc_account account;
    static const aoc_identifiers ids = {4, 5, 6};
    static const aoc_services only_d = {0, 1, 0};
    static const int component[9] = {0, 0, 0, 3, 0, 0, 1, 1, 0};
    int at = (int)(i % 9);
    switch (at) {
    case 0:
        account = aoc_fresh();
        return aoc_setup(&account, only_d, ids).number;
    case 1:
        return aoc_connect(&account).number;
    case 5:
        return aoc_clear(&account).number;
    case 8:
        return aoc_released(&account).number;
    default:
        return aoc_component(&account, row[component[at]].octets, row[component[at]].length).number;
    }
}

const struct job jobs[] = {
    {"read", read_one, 9, 1},       {"rewrite", rewrite_one, 9, 1}, {"write", write_one, 1, 1}, {"element", element_one, 1, 8},
    {"single", single_one, 1, 1}, {"step", step_one, 1, 1},       {0}};
