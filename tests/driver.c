/* Answers the lines of second/answer.py through the C library, one for one and in its words, and like it with the argument
 * `octets` figures by their octets. What no answer shows is tested here too: that no octet past those written is touched, and
 * that what is unused is zero. A fault of that kind is added to the answer, so that it differs. */
#define _GNU_SOURCE
#include "aoc.h"
#include <stdio.h>
#include <stdlib.h>
#include <string.h>

enum { WIDEST = 1 << 20, GUARD = 16, MARK = 0xA5 };

static char line[WIDEST];
static uint8_t octets[WIDEST / 2], buffer[WIDEST];
static bool whole_figures;

static int digit(char c)
{
    return c >= '0' && c <= '9' ? c - '0' : c >= 'a' && c <= 'f' ? c - 'a' + 10 : -1;
}

/* The octets of a hex text, which ends at the first other character. */
static size_t unhex(const char *text, uint8_t *to)
{
    size_t n = 0;
    for (; digit(text[0]) >= 0 && digit(text[1]) >= 0; text += 2)
        to[n++] = (uint8_t)(digit(text[0]) << 4 | digit(text[1]));
    return n;
}

static void put_hex(const void *from, size_t n)
{
    static const char digits[] = "0123456789abcdef";
    static char text[WIDEST];
    const uint8_t *o = from;
    for (size_t i = 0; i < n; i++) {
        text[2 * i] = digits[o[i] >> 4];
        text[2 * i + 1] = digits[o[i] & 15];
    }
    fwrite(text, 1, 2 * n, stdout);
}

static int all(const void *from, size_t n, uint8_t value)
{
    const uint8_t *o = from;
    for (size_t i = 0; i < n; i++)
        if (o[i] != value)
            return 0;
    return 1;
}

static void answer_read(const char *rest)
{
    aoc_answer a;
    memset(&a, MARK, sizeof a);
    aoc_read(octets, unhex(rest, octets), &a);
    printf("%u %u ", (unsigned)a.refusal, (unsigned)a.offset);
    put_hex(&a.record, sizeof a.record);
}

/* What was written into the buffer, which lies between two guards. */
static void answer_written(aoc_written w, size_t room)
{
    uint8_t *at = buffer + GUARD;
    printf("%u %u ", (unsigned)w.refusal, (unsigned)w.count);
    put_hex(at, w.count);
    if (w.count > room || (w.refusal && w.count) || !all(buffer, GUARD, MARK) ||
        !all(at + w.count, room - w.count + GUARD, MARK))
        fputs(" touched", stdout);
}

static void answer_write(const char *rest)
{
    char *next;
    aoc_record r;
    size_t room = strtoul(rest, &next, 10);
    if (unhex(next + 1, octets) != sizeof r) {
        fputs("not a record", stdout);
        return;
    }
    memcpy(&r, octets, sizeof r);
    memset(buffer, MARK, room + 2 * GUARD);
    answer_written(aoc_write(&r, buffer + GUARD, room), room);
}

static void answer_reply(const char *rest)
{
    char *next;
    size_t room = strtoul(rest, &next, 10);
    size_t n = unhex(next + 1, octets);
    memset(buffer, MARK, room + 2 * GUARD);
    answer_written(aoc_reply(octets, n, buffer + GUARD, room), room);
}

static void answer_element(const char *rest)
{
    size_t n = unhex(rest, octets), place = AOC_FIRST_PLACE, starts[AOC_LIMIT_COMPONENTS + 1] = {AOC_FIRST_PLACE};
    unsigned count = 0;
    aoc_answer a;
    while (count < AOC_LIMIT_COMPONENTS && aoc_next(octets, n, &place, &a))
        starts[++count] = place;
    if (count == AOC_LIMIT_COMPONENTS && aoc_next(octets, n, &place, &a))
        fputs("too many ", stdout);
    printf("%u %u ", (unsigned)a.refusal, count);
    for (unsigned i = 0; i < count; i++)
        printf(i ? ",%u" : "%u", (unsigned)starts[i]);
}

static void answer_write_element(const char *rest)
{
    char *next;
    size_t room = strtoul(rest, &next, 10);
    size_t n = unhex(next + 1, octets);
    memset(buffer, MARK, room + 2 * GUARD);
    answer_written(aoc_write_element(octets, n, buffer + GUARD, room), room);
}

static void answer_write_element_by(const char *rest)
{
    char *next;
    uint8_t profile = (uint8_t)strtoul(rest, &next, 16);
    size_t room = strtoul(next, &next, 10);
    size_t n = unhex(next + 1, octets);
    memset(buffer, MARK, room + 2 * GUARD);
    answer_written(aoc_write_element_by(profile, octets, n, buffer + GUARD, room), room);
}

static void answer_next(const char *rest)
{
    char *next;
    size_t from = strtoul(rest, &next, 10), place = from, n = unhex(next + 1, octets);
    aoc_answer a;
    memset(&a, MARK, sizeof a);
    bool found = aoc_next(octets, n, &place, &a);
    printf("%u %u %u %d ", (unsigned)a.refusal, (unsigned)a.offset, found ? (unsigned)place : 0, !found && a.refusal == AOC_ACCEPTED);
    put_hex(&a.record, sizeof a.record);
    if (!found && place != from)
        fputs(" moved", stdout);
}

static void answer_thousandths(const char *rest)
{
    char *next;
    uint32_t number = (uint32_t)strtoul(rest, &next, 10);
    printf("%llu", (unsigned long long)aoc_thousandths(number, (uint8_t)strtoul(next, &next, 10)));
}

static void answer_price(const char *rest)
{
    char *next;
    aoc_closing c;
    c.service = (uint32_t)strtoul(rest, &next, 10);
    if (unhex(next + 1, octets) != sizeof c.charge) {
        fputs("not a charge", stdout);
        return;
    }
    memcpy(&c.charge, octets, sizeof c.charge);
    aoc_priced p = aoc_price(c);
    uint64_t doubles[2];
    memcpy(doubles, &p.thousandths, sizeof doubles);
    printf("%u %u %u ", (unsigned)p.refusal, p.is_free, p.currency.count);
    put_hex(p.currency.octets, sizeof p.currency.octets);
    printf(" %016llx %016llx", (unsigned long long)doubles[0], (unsigned long long)doubles[1]);
}

static void answer_month(const char *rest)
{
    aoc_month month = aoc_month_empty();
    unsigned long runs = 0, number = 0;
    char *at;
    if (rest[0] != '-') {
        static uint8_t held[sizeof month];
        char *end = strchr((char *)rest, ' ');
        *end = 0;
        if (unhex(rest, held) != sizeof month) {
            fputs("not a month", stdout);
            return;
        }
        memcpy(&month, held, sizeof month);
        at = end + 1;
    } else {
        at = (char *)rest + 2;
    }
    for (char *figure = strtok(at, ";"); figure; figure = strtok(NULL, ";")) {
        char *next;
        unsigned long times = strtoul(figure, &next, 10);
        aoc_closing c;
        c.service = (uint32_t)strtoul(next + 1, &next, 10);
        if (unhex(next + 1, octets) != sizeof c.charge) {
            fputs("not a charge", stdout);
            return;
        }
        memcpy(&c.charge, octets, sizeof c.charge);
        for (; times; times--) {
            unsigned long refusal = aoc_month_post(&month, &c);
            if (runs && refusal != number) {
                printf("%lu*%lu,", number, runs);
                runs = 0;
            }
            number = refusal;
            runs++;
        }
    }
    if (runs)
        printf("%lu*%lu", number, runs);
    putchar(' ');
    put_hex(&month, sizeof month);
}

static uint32_t crc(const void *from, size_t n)
{
    static uint32_t table[256];
    if (!table[1])
        for (uint32_t i = 0; i < 256; i++) {
            uint32_t c = i;
            for (int k = 0; k < 8; k++)
                c = c & 1 ? c >> 1 ^ 0xEDB88320 : c >> 1;
            table[i] = c;
        }
    const uint8_t *o = from;
    uint32_t c = ~0u;
    for (size_t i = 0; i < n; i++)
        c = table[(c ^ o[i]) & 255] ^ c >> 8;
    return ~c;
}

static void put_figure(const aoc_charge *c)
{
    putchar(',');
    if (all(c, sizeof *c, 0))
        putchar('-');
    else if (whole_figures)
        put_hex(c, sizeof *c);
    else
        printf("%08x", (unsigned)crc(c, sizeof *c));
}

static unsigned bits(aoc_services set)
{
    unsigned of_s = aoc_has_service(set, AOC_SERVICE_S), of_d = aoc_has_service(set, AOC_SERVICE_D), of_e = aoc_has_service(set, AOC_SERVICE_E);
    return of_s | of_d << 1 | of_e << 2;
}

static aoc_outcome setup(aoc_account *account, const char *text)
{
    aoc_services asked = aoc_no_services();
    aoc_identifiers ids = {0, 0, 0};
    uint16_t *id[] = {&ids.s, &ids.d, &ids.e};
    for (uint8_t service = AOC_SERVICE_S; service <= AOC_SERVICE_E; service++) {
        char *next = (char *)text + 1;
        if (*text != '-') {
            *id[service - AOC_SERVICE_S] = (uint16_t)strtoul(text, &next, 10);
            asked = aoc_with_service(asked, service);
        }
        text = next + 1;
    }
    return aoc_setup(account, asked, ids);
}

static aoc_outcome do_event(aoc_account *account, const char *text)
{
    switch (*text) {
    case 'S':
        return setup(account, text + 2);
    case 'C':
        return aoc_connect(account);
    case 'X':
        return aoc_clear(account);
    case 'L':
        return aoc_released(account);
    case 'P':
        return aoc_suspend(account);
    case 'U':
        return aoc_resume(account);
    default:
        return aoc_component(account, octets, unhex(text + 1, octets));
    }
}

static void answer_account(const char *rest)
{
    aoc_account account = aoc_fresh();
    int told = 0;
    while (*rest) {
        if (*rest == '~') {
            /* an event that is left out */
            rest = strchr(rest, ';');
            if (!rest)
                return;
            rest++;
            continue;
        }
        if (told++)
            putchar(';');
        aoc_outcome outcome = do_event(&account, rest);
        aoc_charge rate = aoc_rate_of(&account), running = aoc_running_of(&account);
        aoc_closing closing = aoc_closing_of(&account);
        aoc_marks marks = aoc_marks_of(&account);
        aoc_pending pending = aoc_pending_of(&account);
        printf("%u,%u,%u", outcome.number, outcome.service, aoc_phase_of(&account));
        put_figure(&rate);
        put_figure(&running);
        put_figure(&closing.charge);
        printf(",%u,%u,%u", closing.service, bits(marks.absent) | bits(marks.conflict) << 2, bits(pending.asked));
        printf(",%u,%u,%u", pending.s, pending.d, pending.e);
        rest = strchr(rest, ';');
        if (!rest)
            return;
        rest++;
    }
}

/* An account that holds anything and lies between two guards, and one event. */
static void answer_held(const char *rest)
{
    struct {
        uint8_t before[GUARD];
        aoc_account account;
        uint8_t after[GUARD];
    } lent;
    aoc_account *a = &lent.account, left;
    aoc_event event;
    memset(&lent, MARK, sizeof lent);
    size_t n = unhex(rest, octets);
    const char *next = rest + 2 * n + 1;
    if (n != sizeof *a) {
        fputs("not an account", stdout);
        return;
    }
    memcpy(a, octets, n);
    n = unhex(next, octets);
    next += 2 * n + 1;
    if (n != sizeof event) {
        fputs("not an event", stdout);
        return;
    }
    memcpy(&event, octets, n);
    aoc_outcome outcome = aoc_step(a, event, octets, unhex(next, octets));
    left = *a;

    aoc_charge rate = aoc_rate_of(a), running = aoc_running_of(a);
    aoc_closing closing = aoc_closing_of(a);
    aoc_marks marks = aoc_marks_of(a);
    aoc_pending pending = aoc_pending_of(a);
    printf("%u,%u,", outcome.number, outcome.service);
    put_hex(&left, offsetof(aoc_account, rate));
    put_figure(&left.rate);
    put_figure(&left.running);
    put_figure(&left.d_final);
    put_figure(&left.e_final);
    printf(",%u", aoc_phase_of(a));
    put_figure(&rate);
    put_figure(&running);
    put_figure(&closing.charge);
    printf(",%u,", closing.service);
    put_hex(&marks, sizeof marks);
    putchar(',');
    put_hex(&pending, sizeof pending);
    if (!all(lent.before, GUARD, MARK) || !all(lent.after, GUARD, MARK))
        fputs(" touched", stdout);
    if (memcmp(&left, a, sizeof left))
        fputs(" changed by reading", stdout);
}

/* What was read of either family: its own record, and of the other nothing. */
static void put_either(const aoc_either *a)
{
    bool line = a->family == AOC_FAMILY_LINE && a->refusal == AOC_ACCEPTED, trunk = a->family == AOC_FAMILY_TRUNK && a->refusal == AOC_ACCEPTED;
    if (line)
        put_hex(&a->record, sizeof a->record);
    if (trunk)
        put_hex(&a->trunk, sizeof a->trunk);
    if ((!line && !all(&a->record, sizeof a->record, 0)) || (!trunk && !all(&a->trunk, sizeof a->trunk, 0)))
        fputs(" not zero", stdout);
}

static void answer_read_by(const char *rest)
{
    char *next;
    uint8_t profile = (uint8_t)strtoul(rest, &next, 16);
    aoc_either a;
    memset(&a, MARK, sizeof a);
    aoc_read_by(profile, octets, unhex(next + 1, octets), &a);
    printf("%u %u %u ", (unsigned)a.refusal, (unsigned)a.offset, (unsigned)a.family);
    put_either(&a);
}

static void answer_next_by(const char *rest)
{
    char *next;
    size_t from = strtoul(rest, &next, 10), place = from, n = unhex(next + 1, octets);
    aoc_either a;
    memset(&a, MARK, sizeof a);
    bool found = aoc_next_by(octets, n, &place, &a);
    printf("%u %u %u %u %d ", (unsigned)a.refusal, (unsigned)a.offset, found ? (unsigned)a.family : 0, found ? (unsigned)place : 0,
           !found && a.refusal == AOC_ACCEPTED);
    if (found)
        put_either(&a);
    else if (place != from || !all(&a.record, sizeof a.record, 0) || !all(&a.trunk, sizeof a.trunk, 0))
        fputs(" moved", stdout);
}

static void answer_reply_by(const char *rest)
{
    char *next;
    uint8_t profile = (uint8_t)strtoul(rest, &next, 16);
    size_t room = strtoul(next, &next, 10);
    size_t n = unhex(next + 1, octets);
    memset(buffer, MARK, room + 2 * GUARD);
    answer_written(aoc_reply_by(profile, octets, n, buffer + GUARD, room), room);
}

/* A record of one family in an answer that is zero but for it. */
static void answer_write_by(const char *rest)
{
    char *next;
    uint8_t profile = (uint8_t)strtoul(rest, &next, 16);
    size_t room = strtoul(next, &next, 10), n = unhex(next + 1, octets);
    aoc_either a;
    memset(&a, 0, sizeof a);
    if (n != sizeof a.record && n != sizeof a.trunk) {
        fputs("not a record", stdout);
        return;
    }
    memcpy(n == sizeof a.record ? (void *)&a.record : (void *)&a.trunk, octets, n);
    memset(buffer, MARK, room + 2 * GUARD);
    answer_written(aoc_write_by(profile, &a, buffer + GUARD, room), room);
}

static uint16_t rows[WIDEST / 4];

/* An event list: how many numbers its rows have, and how many octets. */
static size_t list_in(const char *rest, size_t *length)
{
    size_t n = unhex(rest, octets);
    for (size_t i = 0; i < n / 2; i++)
        rows[i] = (uint16_t)(octets[2 * i] << 8 | octets[2 * i + 1]);
    *length = unhex(strchr(rest, ' ') + 1, octets);
    return n / 2;
}

static void answer_fault(const char *rest)
{
    size_t length, numbers = list_in(rest, &length);
    aoc_fault_answer fault = aoc_fault(rows, numbers, octets, length);
    printf("%u %u %llu", (unsigned)fault.refusal, (unsigned)fault.rule, (unsigned long long)fault.event);
}

static void answer_why(const char *rest)
{
    size_t length, numbers = list_in(rest, &length);
    aoc_why_answer why = aoc_why(rows, numbers, octets, length);
    printf("%u %u %llu", (unsigned)why.refusal, (unsigned)why.reason, (unsigned long long)why.event);
}

/* The event of a switchboard's operation, and its octets. */
static aoc_event board_event(const char *text, size_t *n)
{
    static const char kinds[] = ".SCXLMPU";
    aoc_event event;
    memset(&event, 0, sizeof event);
    *n = 0;
    event.kind = text[0] == 'O' ? (uint8_t)atoi(text + 1) : (uint8_t)(strchr(kinds, text[0]) - kinds);
    if (event.kind == AOC_EVENT_COMPONENT && text[0] == 'M')
        *n = unhex(text + 1, octets);
    if (text[0] == 'S') {
        uint8_t *asked[] = {&event.asked.s, &event.asked.d, &event.asked.e};
        uint16_t *ids[] = {&event.s, &event.d, &event.e};
        text += 2;
        for (int i = 0; i < 3; i++) {
            if (*text != '-') {
                *asked[i] = 1;
                *ids[i] = (uint16_t)atoi(text);
            }
            text += strcspn(text, ",;");
            text += *text == ',';
        }
    }
    return event;
}

static void answer_board(const char *rest)
{
    static struct {
        uint8_t before[GUARD];
        aoc_board board;
        uint8_t after[GUARD];
    } lent;
    memset(&lent, MARK, sizeof lent);
    aoc_board_clear(&lent.board);
    while (*rest) {
        uint16_t reference = (uint16_t)atoi(rest);
        rest = strchr(rest, ' ') + 1;
        if (*rest == 'K') {
            aoc_collected c = aoc_board_collect(&lent.board, reference);
            printf("%u,%u", (unsigned)c.refusal, (unsigned)c.closing.service);
            put_figure(&c.closing.charge);
        } else if (*rest == 'V') {
            aoc_viewed v = aoc_board_view(&lent.board, reference);
            printf("%u,", (unsigned)v.refusal);
            if (all(&v.account, sizeof v.account, 0))
                putchar('-');
            else if (whole_figures)
                put_hex(&v.account, sizeof v.account);
            else
                printf("%08x", (unsigned)crc(&v.account, sizeof v.account));
        } else {
            size_t n;
            aoc_event event = board_event(rest, &n);
            aoc_outcome outcome = aoc_board_event(&lent.board, reference, event, octets, n);
            printf("%u,%u", outcome.number, outcome.service);
        }
        rest = strchr(rest, ';');
        if (!rest)
            break;
        rest++;
        putchar(';');
    }
    if (!all(lent.before, GUARD, MARK) || !all(lent.after, GUARD, MARK))
        fputs(" touched", stdout);
}

/* The plain engine's answers about an event list. */
static void put_engine(const uint16_t *rows, size_t numbers, const uint8_t *from, size_t n)
{
    for (size_t k = 1; k <= numbers / 6; k++) {
        aoc_plain_outcome_answer o = aoc_plain_outcome(rows, numbers, from, n, k);
        printf("%u,%u;", o.outcome.number, o.outcome.service);
    }
    aoc_plain_charge_answer rate = aoc_plain_rate(rows, numbers, from, n), running = aoc_plain_running(rows, numbers, from, n);
    aoc_plain_closing_answer closing = aoc_plain_closing(rows, numbers, from, n);
    aoc_marks marks = aoc_plain_marks(rows, numbers, from, n).marks;
    aoc_pending pending = aoc_plain_pending(rows, numbers, from, n).pending;
    printf("%u", aoc_plain_phase(rows, numbers, from, n).phase);
    put_figure(&rate.charge);
    put_figure(&running.charge);
    put_figure(&closing.closing.charge);
    printf(",%u,%u,%u", closing.closing.service, bits(marks.absent) | bits(marks.conflict) << 2, bits(pending.asked));
    printf(",%u,%u,%u", pending.s, pending.d, pending.e);
}

static void answer_plain(const char *rest)
{
    static uint16_t rows[WIDEST / 4];
    size_t n = unhex(rest, octets);
    for (size_t i = 0; i < n / 2; i++)
        rows[i] = (uint16_t)(octets[2 * i] << 8 | octets[2 * i + 1]);
    size_t length = unhex(strchr(rest, ' ') + 1, octets);
    uint32_t refusal = aoc_plain_phase(rows, n / 2, octets, length).refusal;
    printf("%u", (unsigned)refusal);
    if (!refusal) {
        putchar(' ');
        put_engine(rows, n / 2, octets, length);
    }
}

static void answer_trace(const char *rest)
{
    static uint32_t pairs[WIDEST / 8];
    static uint16_t rows[WIDEST];
    char *next;
    size_t row_room = strtoul(rest, &next, 10), out_room = strtoul(next + 1, &next, 10), n = unhex(next + 1, octets);
    for (size_t i = 0; i < n / 4; i++)
        pairs[i] = (uint32_t)octets[4 * i] << 24 | (uint32_t)octets[4 * i + 1] << 16 | (uint32_t)octets[4 * i + 2] << 8 | octets[4 * i + 3];
    size_t length = unhex(next + 2 + 2 * n, octets);
    memset(rows, MARK, 2 * row_room + GUARD);
    memset(buffer, MARK, out_room + GUARD);
    aoc_trace_answer a = aoc_trace_events(pairs, n / 4, octets, length, rows, row_room, buffer, out_room);
    size_t numbers = 6 * (size_t)a.events, count = (size_t)a.octets;
    printf("%u %u ", (unsigned)a.refusal, (unsigned)a.message);
    for (size_t i = 0; i < numbers; i++)
        printf("%04x", rows[i]);
    putchar(' ');
    put_hex(buffer, count);
    putchar(' ');
    put_engine(rows, numbers, buffer, count);
    if (numbers > row_room || count > out_room || !all(rows + numbers, 2 * (row_room - numbers) + GUARD, MARK) ||
        !all(buffer + count, out_room - count + GUARD, MARK))
        fputs(" touched", stdout);
}

int main(int count, char **arguments)
{
    whole_figures = count > 1 && !strcmp(arguments[1], "octets");
    while (fgets(line, sizeof line, stdin)) {
        size_t n = strlen(line);
        if (n < 3 || line[n - 1] != '\n') {
            fputs("driver: a line is cut or too long\n", stderr);
            return 1;
        }
        line[n - 1] = 0;
        switch (line[0]) {
        case 'R':
            answer_read(line + 2);
            break;
        case 'W':
            answer_write(line + 2);
            break;
        case 'E':
            answer_element(line + 2);
            break;
        case 'N':
            answer_next(line + 2);
            break;
        case 'J':
            answer_reply(line + 2);
            break;
        case 'T':
            answer_thousandths(line + 2);
            break;
        case 'A':
        case 'D':
            answer_account(line + 2);
            break;
        case 'Z':
            answer_held(line + 2);
            break;
        case 'Y':
            answer_why(line + 2);
            break;
        case 'F':
            answer_fault(line + 2);
            break;
        case 'P':
            answer_price(line + 2);
            break;
        case 'B':
            answer_board(line + 2);
            break;
        case 'M':
            answer_month(line + 2);
            break;
        case 'G':
            answer_plain(line + 2);
            break;
        case 'X':
            answer_trace(line + 2);
            break;
        case 'L':
            answer_write_element(line + 2);
            break;
        case 'Q':
            answer_read_by(line + 2);
            break;
        case 'K':
            answer_next_by(line + 2);
            break;
        case 'U':
            answer_reply_by(line + 2);
            break;
        case 'O':
            answer_write_by(line + 2);
            break;
        case 'V':
            answer_write_element_by(line + 2);
            break;
        default:
            fputs("not a line", stdout);
        }
        putchar('\n');
    }
    return 0;
}
