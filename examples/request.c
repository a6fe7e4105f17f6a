/* A whole call of a host, from the request to what is posted: the request for the charge at the end is written and put into a
 * Facility element for the SETUP; the network's answer and its charge are read; the figure is posted. Between the two the
 * program is taken to start anew: the call's event list is what was stored, and the account is made of it again.
 *
 * The octets of the network stand here as they came over a line. */
#include <stdio.h>
#include <string.h>

#include "aoc_text.h"

enum { EVENTS = 16, OCTETS = 1024 };

/* What a host keeps of a call: its account, and the list of its events, which is what is stored. */
struct call {
    aoc_account account;
    uint16_t rows[AOC_ROW_NUMBERS * EVENTS];
    uint8_t octets[OCTETS];
    size_t numbers, length;
};

static void print_octets(const char *name, const uint8_t *octets, size_t count)
{
    printf("%s:", name);
    for (size_t i = 0; i < count; i++)
        printf(" %02X", octets[i]);
    puts("");
}

/* An event: the account takes it, and its row and octets go behind those of the list. */
static aoc_outcome take(struct call *call, aoc_event event, const uint8_t *octets, size_t length)
{
    uint16_t *row = call->rows + call->numbers;
    if (call->numbers == sizeof call->rows / sizeof *call->rows || length > OCTETS - call->length) {
        aoc_outcome none = {AOC_REFUSED_NO_ROOM, AOC_SERVICE_NONE};
        return none;
    }
    aoc_outcome outcome = aoc_take(&call->account, event, octets, length, row);
    if (row[5])
        memcpy(call->octets + call->length, octets, row[5]);
    call->length += row[5];
    call->numbers += AOC_ROW_NUMBERS;
    printf("%s: %s\n", aoc_event_text(event.kind), aoc_outcome_text(outcome.number));
    return outcome;
}

/* The Facility element to send with the SETUP: a request for each service asked for, end to end. 0 where it cannot be written. */
static size_t requests(aoc_services asked, aoc_identifiers ids, uint8_t *element, size_t room)
{
    uint8_t components[AOC_LIMIT_COMPONENT_OCTETS];
    size_t length = 0;
    for (uint8_t service = AOC_SERVICE_S; service <= AOC_SERVICE_E; service++) {
        if (!aoc_has_service(asked, service))
            continue;
        aoc_written request = aoc_request(service, aoc_identifier_of(ids, service), components + length, sizeof components - length);
        if (request.refusal)
            return 0;
        length += request.count;
    }
    return aoc_write_element(components, length, element, room).count;
}

/* A Facility element from the network. */
static void facility(struct call *call, const uint8_t *octets, size_t length)
{
    aoc_answer answer;
    size_t place = AOC_FIRST_PLACE;
    do {
        size_t from = place;
        if (!aoc_next(octets, length, &place, &answer)) {
            printf("%s\n", aoc_refusal_text(answer.refusal));
            return;
        }
        if (answer.refusal == AOC_REFUSED_OTHER_PROFILE)
            continue;           /* of a trunk, which no account takes */
        aoc_outcome outcome = take(call, aoc_event_of(AOC_EVENT_COMPONENT), octets + from, place - from);
        if (aoc_is_refusal(outcome.number) && outcome.number != AOC_REFUSED_WRONG_PHASE) {
            uint8_t reject[AOC_LIMIT_REPLY_OCTETS];
            print_octets("to send back", reject, aoc_reply(octets + from, place - from, reject, sizeof reject).count);
        }
    } while (place < length);
}

int main(void)
{
    static const uint8_t in_connect[] = {0x1C, 0x0D, 0x91, 0xA2, 0x0A, 0x02, 0x01, 0x03, 0x30, 0x05, 0x02, 0x01, 0x1E, 0x05, 0x00};
    static const uint8_t in_disconnect[] = {0x1C, 0x1D, 0x91, 0xA1, 0x1A, 0x02, 0x01, 0x0B, 0x02, 0x01, 0x23, 0x30, 0x12, 0x30, 0x10, 0xA1,
                                            0x0E, 0x81, 0x03, 0x45, 0x55, 0x52, 0xA2, 0x07, 0x81, 0x02, 0x00, 0x96, 0x82, 0x01, 0x01};
    static struct call call;
    uint8_t element[AOC_LIMIT_ELEMENT_OCTETS];
    aoc_services asked = aoc_with_service(aoc_no_services(), AOC_SERVICE_E);
    aoc_identifiers ids = aoc_three_identifiers(0);
    call.account = aoc_fresh();

    size_t count = requests(asked, ids, element, sizeof element);
    if (count == 0)
        return 1;
    print_octets("in the SETUP", element, count);
    take(&call, aoc_event_of_setup(asked, ids), NULL, 0);
    facility(&call, in_connect, sizeof in_connect);
    take(&call, aoc_event_of(AOC_EVENT_CONNECT), NULL, 0);

    /* a restart: the rows and octets were stored, the account was not */
    memset(&call.account, 0xFF, sizeof call.account);
    if (aoc_replay(call.rows, call.numbers, call.octets, call.length, &call.account) != AOC_ACCEPTED)
        return 1;
    printf("after a restart: %s\n", aoc_phase_text(aoc_phase_of(&call.account)));

    take(&call, aoc_event_of(AOC_EVENT_CLEAR), NULL, 0);
    facility(&call, in_disconnect, sizeof in_disconnect);
    take(&call, aoc_event_of(AOC_EVENT_RELEASED), NULL, 0);

    aoc_closing closing = aoc_closing_of(&call.account);
    if (closing.charge.kind == AOC_CHARGE_MONEY) {
        char text[64];
        aoc_print_money(text, sizeof text, &closing.charge.money);
        printf("to post: %s (%s)\n", text, aoc_service_text(closing.service));
    } else {
        printf("nothing to post in money\n");
    }
    return 0;
}
