/* Eight threads at once, each with calls of its own: every account is the one that a single thread makes of the same events.
 * threads [ROUNDS]. A race detector tells of memory that two of them share. */
#include "check.h"
#include "components.h"
#include <pthread.h>

enum { VALID = sizeof valid / sizeof *valid, THREADS = 8, EVENTS = 16 };

static long rounds = 2000;

struct work {
    uint64_t state, sum;
};

/* The same for the same state: a sum over all that is read off each of the calls. */
static uint64_t add(uint64_t sum, const void *memory, size_t length)
{
    const uint8_t *octets = memory;
    for (size_t i = 0; i < length; i++)
        sum = (sum ^ octets[i]) * 1099511628211u;
    return sum;
}

static uint64_t draw(struct work *work)
{
    work->state = work->state * 6364136223846793005u + 1442695040888963407u;
    return work->state >> 33;
}

static void one_call(struct work *work)
{
    aoc_account call = aoc_fresh();
    uint16_t rows[AOC_ROW_NUMBERS * EVENTS];
    uint8_t list[EVENTS * 300];
    size_t length = 0;
    for (size_t i = 0; i < EVENTS; i++) {
        uint8_t octets[300], buffer[AOC_LIMIT_ELEMENT_OCTETS];
        size_t n = unhex(valid[draw(work) % VALID].hex, octets);
        uint16_t *row = rows + AOC_ROW_NUMBERS * i;
        aoc_event event = aoc_event_of((uint8_t)(draw(work) % 3 ? AOC_EVENT_COMPONENT : draw(work) % 8));
        if (i == 0)
            event = aoc_event_of_setup(aoc_with_service(aoc_no_services(), AOC_SERVICE_E), aoc_three_identifiers((uint16_t)draw(work)));
        octets[draw(work) % n] ^= (uint8_t)(draw(work) % 4 ? 0 : draw(work));
        aoc_outcome outcome = aoc_take(&call, event, octets, n, row);
        memcpy(list + length, octets, row[5]);
        length += row[5];
        aoc_answer answer;
        aoc_read(octets, n, &answer);
        aoc_written written = aoc_write(&answer.record, buffer, sizeof buffer), reply = aoc_reply(octets, n, buffer, sizeof buffer);
        work->sum = add(add(add(work->sum, &outcome, sizeof outcome), &written, sizeof written), &reply, sizeof reply);
        written = aoc_write_element(octets, n, buffer, sizeof buffer);
        work->sum = add(add(work->sum, &written, sizeof written), &answer, sizeof answer);
    }
    aoc_why_answer why = aoc_why(rows, AOC_ROW_NUMBERS * EVENTS, list, length);
    aoc_closing closing = aoc_closing_of(&call);
    aoc_priced priced = aoc_price(closing);
    work->sum = add(add(add(work->sum, &why, sizeof why), &priced.refusal, sizeof priced.refusal), &call, sizeof call);
}

static void *calls(void *work)
{
    for (long i = 0; i < rounds; i++)
        one_call(work);
    return work;
}

int main(int argc, char **argv)
{
    static struct work at_once[THREADS], alone[THREADS];
    pthread_t threads[THREADS];
    rounds = argc > 1 ? atol(argv[1]) : rounds;
    for (size_t i = 0; i < THREADS; i++) {
        at_once[i].state = alone[i].state = i;
        if (pthread_create(threads + i, NULL, calls, at_once + i)) {
            printf("no threads\n");
            return 1;
        }
    }
    for (size_t i = 0; i < THREADS; i++)
        pthread_join(threads[i], NULL);
    for (size_t i = 0; i < THREADS; i++) {
        calls(alone + i);
        CHECK(alone[i].sum == at_once[i].sum, "a thread");
    }
    return report("threads");
}
