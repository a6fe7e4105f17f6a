/* A charge client for one D channel: layer 3 messages in (text, one a line), octets to send out, the night's audit, the month.
 *   HH:MM n|u OCTETS      a message from the network / of our own exchange
 *   HH:MM restart         the program is stopped and started again: all state goes through the file
 *   HH:MM audit           the night audit
 * It is compiled as C and as C++ (tests/cxx.sh). */
#include "aoc_text.h"
#include <stdio.h>
#include <stdlib.h>

enum { CALLS = AOC_LIMIT_CALLS, LIST_ROWS = 400, LIST_OCTETS = 16384, MESSAGE = AOC_LIMIT_MESSAGE_OCTETS };

/* What the host keeps beside the board: the list of each call, for aoc_why, for the rules and for the restart. */
typedef struct {
    uint8_t held, trunk;                /* trunk: a figure came over QSIG; it is kept here, since no account takes it */
    uint16_t key;
    uint32_t rows, octets;
    char began[6];
    uint16_t row[LIST_ROWS][AOC_ROW_NUMBERS];
    uint8_t octet[LIST_OCTETS];
    aoc_charge figure;
} call_list;

static aoc_board board;
static call_list lists[CALLS];
static aoc_month month;
static uint16_t last_id;
static char now[6] = "--:--";

static call_list *list_of(uint16_t key)
{
    for (size_t i = 0; i < CALLS; i++)
        if (lists[i].held && lists[i].key == key)
            return &lists[i];
    return NULL;
}

static void hex(const char *what, uint16_t key, const uint8_t *octets, size_t count)
{
    printf("%s call %u %s:", now, (unsigned)key, what);
    for (size_t i = 0; i < count; i++)
        printf(" %02X", (unsigned)octets[i]);
    printf("\n");
}

static void send_reject(uint16_t key, uint8_t profile, const uint8_t *octets, size_t length)
{
    uint8_t reject[AOC_LIMIT_REPLY_OCTETS], element[AOC_LIMIT_ELEMENT_OCTETS];
    aoc_written reply = aoc_reply_by(profile, octets, length, reject, sizeof reject);
    aoc_written whole = aoc_write_element_by(profile, reject, reply.count, element, sizeof element);
    if (whole.refusal == AOC_ACCEPTED)
        hex("send reject", key, element, whole.count);
}

/* One event: to the board, and into the list of a call that is held. */
static aoc_outcome event(uint16_t key, const uint16_t *row, const uint8_t *octets)
{
    aoc_outcome outcome = aoc_board_event(&board, key, aoc_event_at(row), octets, row[5]);
    call_list *list = list_of(key);
    if (row[0] == AOC_EVENT_CLEAR && outcome.number == AOC_REFUSED_WRONG_PHASE)
        return outcome;                 /* a second clearing message */
    for (size_t i = 0; i < CALLS && !list && row[0] == AOC_EVENT_SETUP && !aoc_is_refusal(outcome.number); i++)
        if (!lists[i].held) {
            list = &lists[i];
            memset(list, 0, sizeof *list);
            list->held = 1;
            list->key = key;
            memcpy(list->began, now, sizeof now);
        }
    if (list && list->rows < LIST_ROWS && list->octets + row[5] <= LIST_OCTETS) {
        memcpy(list->row[list->rows++], row, sizeof list->row[0]);
        memcpy(list->octet + list->octets, octets, row[5]);
        list->octets += row[5];
    } else if (list) {
        printf("%s call %u: list full\n", now, (unsigned)key);
    }
    printf("%s call %u %s: %s%s%s\n", now, (unsigned)key, aoc_event_text(row[0]), aoc_outcome_text(outcome.number),
           outcome.service ? ", " : "", outcome.service ? aoc_service_text(outcome.service) : "");
    return outcome;
}

/* A Facility element of a trunk. No other service is here: what nobody knows goes by the interpretation. */
static void trunk(uint16_t key, const uint8_t *element, size_t length)
{
    char text[AOC_LIMIT_CHARGE_TEXT];
    aoc_either answer;
    size_t place = AOC_FIRST_PLACE, from = place;
    call_list *list = list_of(key);
    for (; aoc_next_by(element, length, &place, &answer); from = place) {
        const aoc_trunk *t = &answer.trunk;
        bool exchange = aoc_is_for_exchange(&answer, element + from, place - from);
        uint8_t wish = aoc_interpretation_in(element, length);
        if (answer.family != AOC_FAMILY_TRUNK)
            continue;
        if (answer.refusal != AOC_ACCEPTED)
            printf("%s call %u trunk: %s%s\n", now, (unsigned)key, aoc_refusal_text(answer.refusal), exchange ? ", for the exchange" : "");
        if (answer.refusal == AOC_REFUSED_UNKNOWN_OPERATION ? wish != AOC_INTERPRETATION_DISCARD : !exchange)
            send_reject(key, AOC_PROFILE_TRUNK, element + from, place - from);
        if (answer.refusal != AOC_ACCEPTED || t->frame != AOC_FRAME_INVOKE)
            continue;
        aoc_print_charge(text, sizeof text, &t->charge);
        printf("%s call %u trunk %s: %s\n", now, (unsigned)key, aoc_operation_text(t->operation), text);
        if (list && t->operation == AOC_OPERATION_FINAL && t->charge.kind != AOC_CHARGE_NONE) {
            list->trunk = 1;
            list->figure = t->charge;
        }
    }
    if (answer.refusal != AOC_ACCEPTED)
        printf("%s call %u element: %s\n", now, (unsigned)key, aoc_refusal_text(answer.refusal));
}

static void post(call_list *list)
{
    static uint16_t rows[LIST_ROWS][AOC_ROW_NUMBERS];
    static uint8_t octets[LIST_OCTETS];
    char text[AOC_LIMIT_CHARGE_TEXT];
    unsigned key = list->key;
    size_t numbers = (size_t)list->rows * AOC_ROW_NUMBERS;
    aoc_closing closing = aoc_board_collect(&board, list->key).closing;
    if (closing.service == AOC_SERVICE_NONE && list->trunk) {
        closing.service = AOC_SERVICE_E;        /* a trunk's final is of the end of the call */
        closing.charge = list->figure;
    }
    if (closing.service == AOC_SERVICE_NONE) {
        aoc_why_answer why = aoc_why(&list->row[0][0], numbers, list->octet, list->octets);
        printf("%s call %u from %s NO PRICE: %s, event %u\n", now, key, list->began, aoc_reason_text(why.reason), (unsigned)why.event);
    } else {
        aoc_refusal refusal = aoc_month_post(&month, &closing);
        aoc_print_charge(text, sizeof text, &closing.charge);
        printf("%s call %u from %s POST %s%s%s\n", now, key, list->began, text, refusal ? "; month: " : "", refusal ? aoc_refusal_text(refusal) : "");
    }
    aoc_fault_answer fault = aoc_fault_of_accepted(&list->row[0][0], numbers, list->octet, list->octets, &rows[0][0], numbers, octets, LIST_OCTETS);
    if (fault.rule != AOC_RULE_KEPT)
        printf("%s call %u FAULT event %u: %s\n", now, key, (unsigned)fault.event, aoc_rule_text(fault.rule));
    list->held = 0;
}

/* A message as it comes, or as it is sent. */
static void message(uint32_t direction, const uint8_t *octets, size_t length)
{
    uint16_t rows[AOC_LIMIT_MESSAGE_NUMBERS], *row = rows, key;
    uint8_t out[MESSAGE], *at = out;
    size_t place = 0, from = 0;
    aoc_trace_answer got = aoc_message_events(direction, octets, length, rows, AOC_LIMIT_MESSAGE_NUMBERS, out, MESSAGE);
    if (got.refusal != AOC_ACCEPTED || !aoc_call_key(direction, octets, length, &key)) {
        printf("%s not a message of a call: %s\n", now, got.refusal ? aoc_refusal_text((uint32_t)got.refusal) : "its reference");
        return;
    }
    while (direction != AOC_FROM_USER && aoc_next_facility(octets, length, &place, &from))
        if (place - from > 2 && octets[from + 2] != AOC_PROFILE_LINE)
            trunk(key, octets + from, place - from);
    for (; row < rows + AOC_ROW_NUMBERS * got.events; at += row[5], row += AOC_ROW_NUMBERS) {
        aoc_outcome outcome = event(key, row, at);
        if (row[0] == AOC_EVENT_COMPONENT && aoc_is_refusal(outcome.number) && outcome.number != AOC_REFUSED_WRONG_PHASE && outcome.number != AOC_REFUSED_NOT_HELD)
            send_reject(key, AOC_PROFILE_LINE, at, row[5]);
        if (row[0] == AOC_EVENT_RELEASED && outcome.number == AOC_OUTCOME_DONE && list_of(key))
            post(list_of(key));
    }
    uint8_t type = octets[2 + octets[1]];
    if (direction == AOC_FROM_USER && (type == 0x25 || type == 0x26)) {        /* SUSPEND, RESUME: by their acknowledges in truth */
        aoc_row_of(aoc_event_of(type == 0x25 ? AOC_EVENT_SUSPEND : AOC_EVENT_RESUME), 0, rows);
        (void)event(key, rows, out);
    }
}

/* Our own SETUP goes out with a request for charges during the call. */
static size_t asking(uint8_t *octets, size_t length)
{
    uint8_t request[AOC_LIMIT_COMPONENT_OCTETS];
    aoc_identifiers ids = aoc_three_identifiers(last_id);
    aoc_written wrote = aoc_request(AOC_SERVICE_D, ids.d, request, sizeof request);
    aoc_written whole = aoc_write_element(request, wrote.count, octets + length, MESSAGE - length);
    last_id = ids.e;
    return length + whole.count;
}

/* Over a restart: the lists are stored, and the board is made of them again. */
static int restart(const char *path)
{
    FILE *file = fopen(path, "wb");
    if (!file || fwrite(lists, sizeof lists, 1, file) != 1 || fwrite(&month, sizeof month, 1, file) != 1 || fwrite(&last_id, sizeof last_id, 1, file) != 1 || fclose(file))
        return 1;
    memset(&board, 0xAA, sizeof board);
    memset(lists, 0, sizeof lists);
    memset(&month, 0, sizeof month);
    last_id = 0;
    file = fopen(path, "rb");
    if (!file || fread(lists, sizeof lists, 1, file) != 1 || fread(&month, sizeof month, 1, file) != 1 || fread(&last_id, sizeof last_id, 1, file) != 1 || fclose(file))
        return 1;
    aoc_board_clear(&board);
    for (size_t i = 0; i < CALLS; i++)
        if (lists[i].held && aoc_board_replay(&board, lists[i].key, &lists[i].row[0][0], (size_t)lists[i].rows * AOC_ROW_NUMBERS, lists[i].octet, lists[i].octets) != AOC_ACCEPTED)
            return 1;
    printf("%s restarted\n", now);
    return 0;
}

static void audit(void)
{
    char text[AOC_LIMIT_CHARGE_TEXT];
    printf("%s AUDIT\n", now);
    for (size_t i = 0; i < CALLS; i++) {
        aoc_viewed viewed = aoc_board_view(&board, lists[i].key);
        aoc_charge running = aoc_running_of(&viewed.account);
        aoc_print_charge(text, sizeof text, &running);
        if (lists[i].held)
            printf("  call %u %s, running %s\n", (unsigned)lists[i].key, aoc_phase_text(aoc_phase_of(&viewed.account)), text);
    }
    for (size_t i = 0; i < aoc_month_rows(&month); i++) {
        aoc_month_currency row = aoc_month_row(&month, i);
        aoc_print_currency(text, sizeof text, &row.currency);
        printf("  month %s %llu.%03llu in %u calls\n", text, (unsigned long long)(row.sum / 1000), (unsigned long long)(row.sum % 1000), (unsigned)row.calls);
    }
    printf("  month: %llu units, %u free, %u figures\n", (unsigned long long)aoc_month_units(&month, 0), (unsigned)month.free_calls, (unsigned)month.added);
}

int main(int argc, char **argv)
{
    char line[4096], what[16];
    if (aoc_version() != AOC_VERSION || argc < 2)
        return fprintf(stderr, "libaoc is of another version, or no file for the state is named\n"), 1;
    month = aoc_month_empty();
    while (fgets(line, sizeof line, stdin)) {
        uint8_t octets[MESSAGE];
        size_t count = 0;
        int at = 0;
        if (sscanf(line, "%5s %15s %n", now, what, &at) < 2)
            continue;
        for (char *p = line + at, *end; count < sizeof octets; p = end) {
            unsigned long value = strtoul(p, &end, 16);
            if (end == p)
                break;
            octets[count++] = (uint8_t)value;
        }
        if (!strcmp(what, "restart") && restart(argv[1]))
            return perror("state"), 1;
        if (!strcmp(what, "audit"))
            audit();
        if (!strcmp(what, "u") && count == 4 && octets[3] == 0x05) {
            count = asking(octets, count);
            hex("send SETUP", octets[2], octets, count);
        }
        if (!strcmp(what, "u") || !strcmp(what, "n"))
            message(what[0] == 'u' ? AOC_FROM_USER : AOC_FROM_NETWORK, octets, count);
    }
    return fflush(stdout) ? 1 : 0;
}
