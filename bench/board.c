/* Events of one account, and the same on a full switchboard: `board MODE COUNT` does COUNT of them. bench/board.sh counts them. */
#include "aoc.h"
#include <stdio.h>
#include <stdlib.h>
#include <string.h>

/* C1 of document 01: a subtotal, which a call that is connected answers 21 */
static const uint8_t c1[] = {0xA1, 0x1A, 0x02, 0x01, 0x01, 0x02, 0x01, 0x21, 0x30, 0x12, 0xA1, 0x0D, 0x81, 0x03,
                             0x45, 0x55, 0x52, 0xA2, 0x06, 0x81, 0x01, 0x32, 0x82, 0x01, 0x01, 0x82, 0x01, 0x00};

static aoc_event event_of(uint8_t kind)
{
    aoc_event e;
    memset(&e, 0, sizeof e);
    e.kind = kind;
    return e;
}

static void expect(uint32_t number, uint32_t wanted)
{
    if (number != wanted) {
        printf("%u where %u was expected\n", (unsigned)number, (unsigned)wanted);
        exit(1);
    }
}

static aoc_account call;

static int on_account(const char *mode, long count)
{
    expect(aoc_setup(&call, aoc_no_services(), (aoc_identifiers){0, 0, 0}).number, 0);
    expect(aoc_connect(&call).number, 0);
    if (!strcmp(mode, "component"))
        for (long i = 0; i < count; i++)
            expect(aoc_component(&call, c1, sizeof c1).number, 21);
    else if (!strcmp(mode, "plain"))
        for (long i = 0; i < count; i++)
            expect(i % 2 ? aoc_resume(&call).number : aoc_suspend(&call).number, 0);
    else if (!strcmp(mode, "plain-step"))
        for (long i = 0; i < count; i++)
            expect(aoc_step(&call, event_of(i % 2 ? AOC_EVENT_RESUME : AOC_EVENT_SUSPEND), NULL, 0).number, 0);
    else
        return 0;
    return 1;
}

#ifdef AOC_ONE_ACCOUNT
static void on_board(const char *mode, long count)
{
    (void)mode;
    (void)count;
}
#else
static aoc_board board;

static uint32_t on(uint16_t reference, uint8_t kind)
{
    return aoc_board_event(&board, reference, event_of(kind), NULL, 0).number;
}

static void on_board(const char *mode, long count)
{
    for (uint16_t r = 1; r <= 64; r++) {
        expect(on(r, AOC_EVENT_SETUP), 0);
        expect(on(r, AOC_EVENT_CONNECT), 0);
    }
    uint16_t last = 64, first = 1;
    if (!strcmp(mode, "board-component"))
        for (long i = 0; i < count; i++)
            expect(aoc_board_event(&board, last, event_of(AOC_EVENT_COMPONENT), c1, sizeof c1).number, 21);
    else if (!strcmp(mode, "board-component-first"))
        for (long i = 0; i < count; i++)
            expect(aoc_board_event(&board, first, event_of(AOC_EVENT_COMPONENT), c1, sizeof c1).number, 21);
    else if (!strcmp(mode, "board-plain"))
        for (long i = 0; i < count; i++)
            expect(on(last, i % 2 ? AOC_EVENT_RESUME : AOC_EVENT_SUSPEND), 0);
    else if (!strcmp(mode, "board-not-held"))
        for (long i = 0; i < count; i++)
            expect(on(65, AOC_EVENT_CONNECT), 37);
    else if (!strcmp(mode, "board-full"))
        for (long i = 0; i < count; i++)
            expect(on(65, AOC_EVENT_SETUP), 36);
    else if (!strcmp(mode, "board-call"))
        for (long i = 0; i < count; i++) {
            expect(on(last, AOC_EVENT_CLEAR), 0);
            expect(on(last, AOC_EVENT_RELEASED), 0);
            expect(aoc_board_collect(&board, last).refusal, 0);
            expect(on(last, AOC_EVENT_SETUP), 0);
        }
    else if (!strcmp(mode, "board-view"))
        for (long i = 0; i < count; i++)
            expect(aoc_board_view(&board, last).refusal, 0);
    else
        exit(2);
}
#endif

int main(int count, char **arguments)
{
    if (count != 3)
        return 2;
    if (!on_account(arguments[1], atol(arguments[2])))
        on_board(arguments[1], atol(arguments[2]));
    return 0;
}
