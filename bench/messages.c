/* The messages of one call with so many charges (`messages EVENTS`, 1000): CPU time of its event list beside a bare walk of the messages'
 * elements, and of the plain engine's answers on that list. */
#include "aoc.h"
#include <stdio.h>
#include <stdlib.h>
#include <string.h>
#include <time.h>

/* a FACILITY of the network with C1 of document 01: a subtotal */
static const uint8_t facility[] = {0x08, 0x01, 0x85, 0x62, 0x1C, 0x1D, 0x91, 0xA1, 0x1A, 0x02, 0x01, 0x01, 0x02, 0x01, 0x21, 0x30, 0x12, 0xA1,
                                   0x0D, 0x81, 0x03, 0x45, 0x55, 0x52, 0xA2, 0x06, 0x81, 0x01, 0x32, 0x82, 0x01, 0x01, 0x82, 0x01, 0x00};
static const uint8_t set_up[] = {0x08, 0x01, 0x05, 0x05}, connect[] = {0x08, 0x01, 0x85, 0x07};
static const uint8_t release[] = {0x08, 0x01, 0x05, 0x45}, end[] = {0x08, 0x01, 0x85, 0x5A};

static uint8_t *octets, *out;
static uint32_t *pairs;
static uint16_t *rows;
static size_t length, numbers;

static void add(const uint8_t *from, size_t n, uint32_t network)
{
    memcpy(octets + length, from, n);
    pairs[numbers++] = (uint32_t)n;
    pairs[numbers++] = network;
    length += n;
}

/* The elements of every message gone over, and nothing looked at: how many there are. */
static size_t bare_walk(void)
{
    size_t count = 0, at = 0;
    for (size_t i = 0; i < numbers; i += 2) {
        size_t stop = at + pairs[i];
        at += 3u + octets[at + 1];
        for (; at < stop; count++)
            at += octets[at] & 0x80 ? 1u : 2u + octets[at + 1];
    }
    return count;
}

static double seconds(void)
{
    return (double)clock() / CLOCKS_PER_SEC;
}

int main(int words, char **arguments)
{
    size_t events = words > 1 ? strtoul(arguments[1], 0, 10) : 1000, charges = events - 4, most = sizeof facility * events, sum = 0;
    octets = malloc(most), out = malloc(most), pairs = malloc(8 * events), rows = malloc(12 * most);
    if (!octets || !out || !pairs || !rows)
        return 2;
    add(set_up, sizeof set_up, 0);
    add(connect, sizeof connect, 1);
    for (size_t i = 0; i < charges; i++)
        add(facility, sizeof facility, 1);
    add(release, sizeof release, 0);
    add(end, sizeof end, 1);

    aoc_trace_answer a = {0, 0, 0, 0};
    double list = 1e9, walk = 1e9;
    for (int turn = 0; turn < 20; turn++) {
        double t = seconds();
        for (int i = 0; i < 200; i++)
            a = aoc_trace_events(pairs, numbers, octets, length, rows, 6 * length, out, length);
        double u = seconds();
        for (int i = 0; i < 200; i++)
            sum += bare_walk() + (size_t)i;
        double v = seconds();
        list = (u - t) / 200 < list ? (u - t) / 200 : list;
        walk = (v - u) / 200 < walk ? (v - u) / 200 : walk;
    }
    if (a.refusal || a.events != events || !sum)
        return 1;
    printf("%zu events, %zu octets: list %.1f us (%.0f MB/s), bare walk %.1f us\n", events, length, list * 1e6, (double)length / list / 1e6, walk * 1e6);

    double t = seconds();
    for (size_t k = 1; k <= events; k++)
        sum += aoc_plain_outcome(rows, 6 * events, out, a.octets, k).outcome.number;
    double u = seconds();
    sum += aoc_plain_rate(rows, 6 * events, out, a.octets).refusal + aoc_plain_running(rows, 6 * events, out, a.octets).refusal;
    sum += aoc_plain_closing(rows, 6 * events, out, a.octets).refusal + aoc_plain_marks(rows, 6 * events, out, a.octets).refusal;
    sum += aoc_plain_pending(rows, 6 * events, out, a.octets).refusal + aoc_plain_phase(rows, 6 * events, out, a.octets).refusal;
    double v = seconds();
    printf("plain engine: all outcomes %.3f s, all that stands at the end %.3f s\n", u - t, v - u);
    return sum == 0;
}
