/* Our side for a row of a trunk's components: the C library as a host calls it, by the profile octet. */
#include "aoc.h"
#include "side.h"

void start_side(void)
{
}

int rewrite(const uint8_t *octets, size_t length, uint8_t *buffer, size_t room)
{
    aoc_either a;
    if (aoc_read_by(AOC_PROFILE_TRUNK, octets, length, &a))
        return -1;
    aoc_written w = aoc_write_by(AOC_PROFILE_TRUNK, &a, buffer, room);
    return w.refusal ? -1 : (int)w.count;
}

static unsigned read_one(long i)
{
    aoc_either a;
    aoc_read_by(AOC_PROFILE_TRUNK, row[i & 7].octets, row[i & 7].length, &a);
    return a.refusal + a.trunk.frame;
}

static unsigned rewrite_one(long i)
{
    uint8_t buffer[254];
    return (unsigned)rewrite(row[i & 7].octets, row[i & 7].length, buffer, sizeof buffer);
}

const struct job jobs[] = {{"read", read_one, 9, 1}, {"rewrite", rewrite_one, 9, 1}, {0}};
