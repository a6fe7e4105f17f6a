/* bench check                 every component of the row is read and written again; prints how many come back the same
 * bench lines TIMES           prints the row as lines of hex, so many times over
 * bench times ROUNDS ITEMS    prints, for each job and choice of items, the nanoseconds of an item in the best of so many rounds
 * bench count ITEMS           the same jobs, for an instruction counter: mark() is called before and after each; prints their items
 * Choice 0 is the row over and over, 1 to 8 is one of its components alone. */
#define _GNU_SOURCE
#include <stdio.h>
#include <stdlib.h>
#include <string.h>
#include <time.h>

#include "side.h"

static volatile unsigned sum;

static int check(void)
{
    int same = 0;
    for (int i = 0; i < 8; i++) {
        uint8_t buffer[254];
        int n = rewrite(row[i].octets, row[i].length, buffer, sizeof buffer);
        same += n == (int)row[i].length && !memcmp(buffer, row[i].octets, row[i].length);
    }
    printf("%d of 8\n", same);
    return same != 8;
}

static int lines(long times)
{
    for (long n = 0; n < 8 * times; n++)
        for (size_t k = 0; k < row[n & 7].length; k++)
            printf("%02X%c", row[n & 7].octets[k], k + 1 < row[n & 7].length ? ' ' : '\n');
    return 0;
}

static void go(const struct job *job, int choice, long items)
{
    unsigned all = 0;
    for (long i = 0; i < items; i++)
        all += job->one(choice ? choice - 1 : i);
    sum += all;
}

static double now(void)
{
    struct timespec t;
    clock_gettime(CLOCK_MONOTONIC, &t);
    return (double)t.tv_sec * 1e9 + (double)t.tv_nsec;
}

/* Of many short rounds the best, so that other work on the machine falls between them. */
static double best(const struct job *job, int choice, long rounds, long items)
{
    double least = 1e18;
    while (rounds--) {
        double from = now();
        go(job, choice, items);
        double took = now() - from;
        least = took < least ? took : least;
    }
    return least / (double)items;
}

__attribute__((noinline)) void mark(void);
void mark(void)
{
    __asm__ volatile("");
}

int main(int count, char **words)
{
    start_side();
    if (count == 2 && !strcmp(words[1], "check"))
        return check();
    if (count == 3 && !strcmp(words[1], "lines"))
        return lines(atol(words[2]));
    int timed = count == 4 && !strcmp(words[1], "times");
    if (!timed && (count != 3 || strcmp(words[1], "count")))
        return 2;
    for (const struct job *job = jobs; job->name; job++)
        for (int choice = 0; choice < job->choices; choice++) {
            long items = atol(words[count - 1]) / job->components;
            if (timed) {
                printf("%s %d %.2f\n", job->name, choice, best(job, choice, atol(words[2]), items));
                continue;
            }
            go(job, choice, 72);
            mark();
            go(job, choice, items);
            mark();
            printf("%s %d %ld\n", job->name, choice, items);
        }
    return 0;
}
