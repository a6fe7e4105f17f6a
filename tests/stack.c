/* The stack that each function which takes octets needs: every one is called on hostile octets, up to 4,000,000 of them, on a stack
 * of its own of 16 KB with pages beside it that must not be touched. It prints what each call has used at the most. */
#include "check.h"
#include <signal.h>
#include <ucontext.h>
#include <unistd.h>

enum { STACK = 16 * 1024, MOST = 4000000, ROW_OCTETS = 65535, ROWS = 40, TOO_LONG = 3 };

/* What a call is given, and what it answers. They are no locals: a call's stack holds what the library takes and little else. */
static uint8_t *octets;
static size_t length;
static uint16_t rows[AOC_ROW_NUMBERS * ROWS];
static size_t numbers;
static uint32_t pairs[AOC_PAIR_NUMBERS];
static uint8_t profile;
static uint8_t buffer[AOC_LIMIT_ELEMENT_OCTETS];
static uint16_t *trace_rows;
static uint8_t *trace_octets;
static aoc_answer answer;
static aoc_either either;
static aoc_account account;
static aoc_board board;
static aoc_event event;
static aoc_written written;
static uint32_t refusal;
static size_t place;

static void call_read(void) { refusal = aoc_read(octets, length, &answer); }
static void call_read_by(void) { refusal = aoc_read_by(profile, octets, length, &either); }
static void call_reply(void) { written = aoc_reply(octets, length, buffer, sizeof buffer); }
static void call_reply_by(void) { written = aoc_reply_by(profile, octets, length, buffer, sizeof buffer); }
static void call_write_by(void) { written = aoc_write_by(profile, &either, buffer, sizeof buffer); }
static void call_next(void) { place = AOC_FIRST_PLACE, (void)aoc_next(octets, length, &place, &answer); }
static void call_next_by(void) { place = AOC_FIRST_PLACE, (void)aoc_next_by(octets, length, &place, &either); }
static void call_write_element(void) { written = aoc_write_element(octets, length, buffer, sizeof buffer); }
static void call_write_element_by(void) { written = aoc_write_element_by(profile, octets, length, buffer, sizeof buffer); }
static void call_component(void) { refusal = aoc_component(&account, octets, length).number; }
static void call_step(void) { refusal = aoc_step(&account, event, octets, length).number; }
static void call_board_event(void) { refusal = aoc_board_event(&board, 1, event, octets, length).number; }
static void call_why(void) { refusal = aoc_why(rows, numbers, octets, length).refusal; }
static void call_fault(void) { refusal = aoc_fault(rows, numbers, octets, length).refusal; }
static void call_outcome(void) { refusal = aoc_plain_outcome(rows, numbers, octets, length, numbers / AOC_ROW_NUMBERS).refusal; }
static void call_phase(void) { refusal = aoc_plain_phase(rows, numbers, octets, length).refusal; }
static void call_pending(void) { refusal = aoc_plain_pending(rows, numbers, octets, length).refusal; }
static void call_rate(void) { refusal = aoc_plain_rate(rows, numbers, octets, length).refusal; }
static void call_running(void) { refusal = aoc_plain_running(rows, numbers, octets, length).refusal; }
static void call_closing(void) { refusal = aoc_plain_closing(rows, numbers, octets, length).refusal; }
static void call_marks(void) { refusal = aoc_plain_marks(rows, numbers, octets, length).refusal; }
static void call_trace(void)
{
    aoc_trace_answer a = aoc_trace_events(pairs, AOC_PAIR_NUMBERS, octets, length, trace_rows, AOC_ROW_NUMBERS * length, trace_octets, length);
    refusal = (uint32_t)a.refusal;
}

/* The name is that of the function in the archive which does the work. */
static struct function {
    const char *name;
    void (*call)(void);
    size_t used;
} functions[] = {
    {"aoc_read_into", call_read, 0},         {"aoc_read_by_into", call_read_by, 0},    {"aoc_reply", call_reply, 0},
    {"aoc_reply_by", call_reply_by, 0},      {"aoc_next_into", call_next, 0},          {"aoc_next_by_into", call_next_by, 0},
    {"aoc_write_element", call_write_element, 0}, {"aoc_component", call_component, 0}, {"aoc_step", call_step, 0},
    {"aoc_board_event", call_board_event, 0}, {"aoc_trace_events", call_trace, 0}, {"aoc_write_element_by", call_write_element_by, 0},
};
static struct function listed[] = {
    {"aoc_why", call_why, 0},             {"aoc_fault", call_fault, 0},           {"aoc_plain_outcome", call_outcome, 0},
    {"aoc_plain_phase", call_phase, 0},   {"aoc_plain_pending", call_pending, 0}, {"aoc_plain_rate", call_rate, 0},
    {"aoc_plain_running", call_running, 0}, {"aoc_plain_closing", call_closing, 0}, {"aoc_plain_marks", call_marks, 0},
};
enum { FUNCTIONS = sizeof functions / sizeof *functions, LISTED = sizeof listed / sizeof *listed };

/* ------------------------------------------------------------------ a stack of its own */

static uint8_t *stack;
static ucontext_t caller, there;
static const char *running;

static void overrun(int number)
{
    static const char told[] = "stack: the stack was overrun, or memory beside the octets was touched, by ";
    (void)number;
    (void)!write(STDOUT_FILENO, told, sizeof told - 1);
    (void)!write(STDOUT_FILENO, running, strlen(running));
    (void)!write(STDOUT_FILENO, "\n", 1);
    _exit(1);
}

static void make_stack(void)
{
    static uint8_t other[64 * 1024];
    stack_t alternate = {.ss_sp = other, .ss_size = sizeof other};
    struct sigaction on = {.sa_handler = overrun, .sa_flags = SA_ONSTACK};
    size_t guard = 64 * 1024; /* at least a page of any machine */
    uint8_t *p = mmap(NULL, STACK + 2 * guard, PROT_NONE, MAP_PRIVATE | MAP_ANONYMOUS, -1, 0);
    if (p == MAP_FAILED || mprotect(p + guard, STACK, PROT_READ | PROT_WRITE) || sigaltstack(&alternate, NULL) ||
        sigaction(SIGSEGV, &on, NULL) || sigaction(SIGBUS, &on, NULL)) {
        printf("stack: no memory\n");
        exit(1);
    }
    stack = p + guard;
}

static void call_on_stack(struct function *f)
{
    running = f->name;
    memset(stack, MARK, STACK);
    getcontext(&there);
    there.uc_stack.ss_sp = stack;
    there.uc_stack.ss_size = STACK;
    there.uc_link = &caller;
    makecontext(&there, f->call, 0);
    swapcontext(&caller, &there);
    size_t untouched = 0;
    while (untouched < STACK && stack[untouched] == MARK)
        untouched++;
    if (f->used < STACK - untouched)
        f->used = STACK - untouched;
}

/* ------------------------------------------------------------------ hostile octets */

/* A head, and then two octets again and again, up to a length. */
static void fill(const char *head, uint8_t first, uint8_t second, size_t n)
{
    size_t at = unhex(head, octets);
    for (; at < n; at += 2) {
        octets[at] = first;
        octets[at + 1] = second;
    }
    length = n;
}

/* A trunk's component whose extension has elements in one another to as many octets as fit. Around what is innermost, so many have a
 * number and the others none. Every number is in one octet, or two from 128 on, so that they are as deep as can be. */
static void fill_extension(const char *innermost, size_t numbered, bool list, bool error)
{
    uint8_t inner[300];
    size_t n = unhex(innermost, inner), most = 254 - (list ? 21 : error ? 18 : 17);
    for (size_t depth = 0;; depth++) {
        size_t head = depth < numbered ? (n < 128 ? 2 : 3) : 2, tail = depth < numbered ? 0 : 2;
        if (n + head + tail > most)
            break;
        memmove(inner + head, inner, n);
        inner[0] = 0x30;
        inner[1] = (uint8_t)(tail ? 0x80 : n < 128 ? n : 0x81);
        if (head == 3)
            inner[2] = (uint8_t)n;
        n += head;
        memset(inner + n, 0, tail);
        n += tail;
    }
    length = unhex(error ? "A3 80 02 01 05 02 02 03 F0 30 80" : list ? "A1 80 02 01 05 02 01 3C A2 80 30 80" : "A1 80 02 01 05 02 01 3C A1 80", octets);
    length += unhex("06 01 2A", octets + length);
    memcpy(octets + length, inner, n);
    length += n;
    for (int i = 0; i < (list && !error ? 6 : 4); i++)
        octets[length++] = 0;
}

static void set_up(void)
{
    static const uint8_t none;
    account = aoc_fresh();
    memset(&board, 0, sizeof board);
    (void)aoc_setup(&account, aoc_no_services(), aoc_three_identifiers(0));
    (void)aoc_connect(&account);
    (void)aoc_board_event(&board, 1, aoc_event_of_setup(aoc_no_services(), aoc_three_identifiers(0)), &none, 0);
    (void)aoc_board_event(&board, 1, aoc_event_of(AOC_EVENT_CONNECT), &none, 0);
    event = aoc_event_of(AOC_EVENT_COMPONENT);
}

static void all_on(uint8_t under)
{
    profile = under;
    pairs[0] = (uint32_t)length;
    pairs[1] = AOC_FROM_NETWORK;
    for (size_t i = 0; i < FUNCTIONS; i++)
        call_on_stack(functions + i);
}

static const struct {
    const char *head;
    uint8_t first, second;
} shapes[] = {
    {"A1 80", 0x30, 0x80},                               /* elements in one another */
    {"A1 80", 0x05, 0x00},                               /* side by side */
    {"A2 80", 0x30, 0x80},
    {"AA 80", 0xA1, 0x80},
    {"A1 80 02 01 01 02 01 3D 30 80 81 00 A1 80 06 01 2A", 0x30, 0x80}, /* in a trunk's extension */
    {"A1 80 02 01 01 02 01 3D 30 80 81 00 A1 80 06 01 2A 30 80", 0x05, 0x00},
    {"1C FD 91", 0x30, 0x80},
    {"1C FF 91", 0x05, 0x00},
    {"1C FF 9F", 0xA1, 0x80},
    {"08 01 81 45 1C FD 91", 0xA1, 0x80},                /* a DISCONNECT with such an element */
    {"08 01 81 45", 0x1C, 0x00},
    {"08 00 62", 0xA0, 0xA0},
};

static void test_octets(void)
{
    static const size_t sizes[] = {0, 2, 28, 100, 253, 254, 255, 256, 257, 258, 500, 70000, MOST};
    for (size_t s = 0; s < sizeof shapes / sizeof *shapes; s++)
        for (size_t i = 0; i < sizeof sizes / sizeof *sizes; i++)
            for (int trunk = 0; trunk < 2; trunk++) {
                set_up();
                fill(shapes[s].head, shapes[s].first, shapes[s].second, sizes[i]);
                all_on(trunk ? AOC_PROFILE_TRUNK : AOC_PROFILE_LINE);
            }
}

/* Extensions, read, gone through in an element, replied to and written. */
static void test_extensions(void)
{
    static struct function write_by = {"aoc_write_by_from", call_write_by, 0};
    static const char *const innermost[] = {"", "05 00", "05 81 00", "30 80 00 00", "00 00", "04 80", "05 00 05 81 00", "05"};
    for (size_t i = 0; i < sizeof innermost / sizeof *innermost; i++)
        for (size_t numbered = 0; numbered <= 128; numbered += 8)
            for (int shape = 0; shape < 3; shape++) {
                uint8_t component[254];
                set_up();
                fill_extension(innermost[i], numbered, shape == 1, shape == 2);
                all_on(AOC_PROFILE_TRUNK);
                bool whole = i < 4 || i == 6;
                call_on_stack(functions + 1);
                CHECK(either.refusal == AOC_ACCEPTED ? whole : !whole, innermost[i]);
                call_on_stack(&write_by);
                CHECK(written.refusal == (whole ? AOC_ACCEPTED : AOC_REFUSED_BAD_RECORD), "written");
                memcpy(component, octets, length);
                octets[0] = 0x1C, octets[1] = (uint8_t)(length + 1), octets[2] = AOC_PROFILE_TRUNK;
                memcpy(octets + 3, component, length);
                length += 3;
                call_on_stack(functions + 5);
                CHECK(either.family == AOC_FAMILY_TRUNK || !whole, "gone through");
            }
    printf("used %s %zu\n", write_by.name, write_by.used);
}

/* A reply to over 254 octets is that to too long a component, whatever they are. */
static void test_replies(void)
{
    static const uint8_t too_long[] = {0xA4, 0x05, 0x05, 0x00, 0x80, 0x01, 0x02};
    static const size_t sizes[] = {255, 500, 200000, MOST};
    for (size_t i = 0; i < sizeof sizes / sizeof *sizes; i++)
        for (int beside = 0; beside < 2; beside++) {
            fill("A1 80", beside ? 0x05 : 0x30, beside ? 0x00 : 0x80, sizes[i]);
            call_on_stack(functions);
            CHECK(refusal == TOO_LONG, "read");
            for (int by = 0; by < 3; by++) {
                profile = by == 1 ? AOC_PROFILE_LINE : AOC_PROFILE_TRUNK;
                memset(buffer, MARK, sizeof buffer);
                call_on_stack(functions + (by ? 3 : 2));
                CHECK(written.refusal == 0 && written.count == sizeof too_long && !memcmp(buffer, too_long, sizeof too_long) &&
                          all(buffer + sizeof too_long, sizeof buffer - sizeof too_long, MARK),
                      "reply");
            }
        }
}

/* ------------------------------------------------------------------ lists of many rows */

static void put_row(size_t i, uint16_t kind, uint16_t n)
{
    uint16_t *row = rows + AOC_ROW_NUMBERS * i;
    memset(row, 0, AOC_ROW_NUMBERS * sizeof *row);
    row[0] = kind;
    row[5] = n;
}

static void test_lists(void)
{
    static const uint16_t sizes[] = {28, 254, 255, 500, ROW_OCTETS};
    for (size_t s = 0; s < sizeof shapes / sizeof *shapes; s++)
        for (size_t i = 0; i < sizeof sizes / sizeof *sizes; i++) {
            fill(shapes[s].head, shapes[s].first, shapes[s].second, sizes[i]);
            for (size_t k = 1; k < ROWS - 4; k++)
                memcpy(octets + k * sizes[i], octets, sizes[i]);
            put_row(0, AOC_EVENT_SETUP, 0);
            put_row(1, AOC_EVENT_CONNECT, 0);
            put_row(2, AOC_EVENT_CLEAR, 0);
            for (size_t k = 3; k < ROWS - 1; k++)
                put_row(k, AOC_EVENT_COMPONENT, sizes[i]);
            put_row(ROWS - 1, AOC_EVENT_RELEASED, 0);
            length = (size_t)sizes[i] * (ROWS - 4);
            numbers = AOC_ROW_NUMBERS * ROWS;
            for (size_t k = 0; k < LISTED; k++) {
                call_on_stack(listed + k);
                CHECK(refusal == (listed[k].call == call_fault ? 34u : 0u), listed[k].name);
            }
        }
}

int main(void)
{
    make_stack();
    octets = malloc(MOST + 64);
    trace_rows = malloc(AOC_ROW_NUMBERS * sizeof *trace_rows * (size_t)MOST);
    trace_octets = malloc(MOST);
    if (!octets || !trace_rows || !trace_octets) {
        printf("stack: no memory\n");
        return 1;
    }
    test_octets();
    test_extensions();
    test_replies();
    test_lists();
    for (size_t i = 0; i < FUNCTIONS; i++)
        printf("used %s %zu\n", functions[i].name, functions[i].used);
    for (size_t i = 0; i < LISTED; i++)
        printf("used %s %zu\n", listed[i].name, listed[i].used);
    return report("stack");
}
