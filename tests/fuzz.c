/* A target for a host that fuzzes the library with its own inputs and sanitizers: any octets are taken as a component, as an
 * element, as components to be written, as an event list, and as the memory of a record, a charge and an account. What aoc.h
 * promises of the answers is asserted.
 *
 * With libFuzzer: clang -g -fsanitize=fuzzer,address,undefined -Iinclude tests/fuzz.c libaoc.a. By itself, with -DAOC_FUZZ_MAIN:
 * fuzz ROUNDS [SEED], on octets of its own: components with some octets changed, and any octets. */
#include "aoc_text.h"
#include <stdio.h>
#include <stdlib.h>

int LLVMFuzzerTestOneInput(const uint8_t *octets, size_t length);

static void must(bool fact, const char *what)
{
    if (fact)
        return;
    fprintf(stderr, "fuzz: %s\n", what);
    abort();
}
#define MUST(fact) must(fact, #fact)

/* A copy in memory of its own length, so that a sanitizer sees each octet that is read past its end. */
static uint8_t *copied(const uint8_t *octets, size_t length)
{
    uint8_t *copy = calloc(length ? length : 1, 1);
    MUST(copy != NULL);
    if (length)
        memcpy(copy, octets, length);
    return copy;
}

static bool is_zero(const void *memory, size_t length)
{
    const uint8_t *octets = (const uint8_t *)memory;
    for (size_t i = 0; i < length; i++)
        if (octets[i])
            return false;
    return true;
}

/* A component that is read is written no longer than it was, and is read back as the same record; a refused one has its reject. */
static void component(const uint8_t *octets, size_t length)
{
    aoc_answer answer, back;
    uint8_t *buffer = malloc(AOC_LIMIT_COMPONENT_OCTETS), reject[AOC_LIMIT_REPLY_OCTETS];
    MUST(buffer != NULL);
    memset(&answer, 0xFF, sizeof answer);
    aoc_refusal refusal = aoc_read(octets, length, &answer);
    aoc_written reply = aoc_reply(octets, length, reject, sizeof reject);
    MUST(refusal == answer.refusal && reply.refusal == AOC_ACCEPTED);
    MUST((reply.count > 0) == (refusal && !(length && octets[0] == 0xA4)));
    if (refusal) {
        bool placed = refusal >= AOC_REFUSED_MISSING && refusal <= AOC_REFUSED_PAST_LIMIT;
        MUST(aoc_is_refusal(refusal) && is_zero(&answer.record, sizeof answer.record));
        MUST(placed ? answer.offset >= 8 && answer.offset <= length : answer.offset == 0);
        MUST(!reply.count || aoc_read(reject, reply.count, &back) == AOC_ACCEPTED);
    } else {
        aoc_written written = aoc_write(&answer.record, buffer, AOC_LIMIT_COMPONENT_OCTETS);
        MUST(written.refusal == AOC_ACCEPTED && written.count <= length);
        MUST(aoc_read(buffer, written.count, &back) == AOC_ACCEPTED && !memcmp(&answer.record, &back.record, sizeof back.record));
        MUST(aoc_write(&answer.record, buffer, written.count - 1).refusal == AOC_REFUSED_NO_ROOM);
    }
    free(buffer);
}

/* A component of either family, or of none, by its profile octet: what is read is one family's, and the other record is zero. */
static void by_profile(uint8_t profile, const uint8_t *octets, size_t length)
{
    aoc_either answer;
    aoc_answer alone;
    uint8_t reject[AOC_LIMIT_REPLY_OCTETS];
    memset(&answer, 0xFF, sizeof answer);
    aoc_refusal refusal = aoc_read_by(profile, octets, length, &answer);
    aoc_written reply = aoc_reply_by(profile, octets, length, reject, sizeof reject);
    bool line = profile == AOC_PROFILE_LINE, trunk = profile == AOC_PROFILE_TRUNK;
    MUST(refusal == answer.refusal && answer.family == (line ? AOC_FAMILY_LINE : trunk ? AOC_FAMILY_TRUNK : AOC_FAMILY_NONE));
    MUST((refusal == AOC_REFUSED_OTHER_PROFILE) == (!line && !trunk) && (reply.refusal == AOC_ACCEPTED) == (line || trunk));
    MUST((line && !refusal) || is_zero(&answer.record, sizeof answer.record));
    MUST((trunk && !refusal) || is_zero(&answer.trunk, sizeof answer.trunk));
    if (line)
        MUST(aoc_read(octets, length, &alone) == refusal && alone.offset == answer.offset &&
             !memcmp(&alone.record, &answer.record, sizeof alone.record));
    if (trunk) {
        bool quiet = !refusal || (length && (octets[0] == 0xA4 || (octets[0] == 0xAA && refusal == AOC_REFUSED_BAD_FRAME)));
        MUST((reply.count > 0) == !quiet && is_zero(answer.trunk.zero, sizeof answer.trunk.zero));
        MUST(!reply.count || aoc_read(reject, reply.count, &alone) == AOC_ACCEPTED);
    }
    if (!refusal) {
        uint8_t *buffer = malloc(AOC_LIMIT_COMPONENT_OCTETS);
        aoc_either back;
        MUST(buffer != NULL);
        aoc_written written = aoc_write_by(profile, &answer, buffer, AOC_LIMIT_COMPONENT_OCTETS);
        MUST(written.refusal == AOC_ACCEPTED && written.count <= length && aoc_read_by(profile, buffer, written.count, &back) == AOC_ACCEPTED);
        MUST(!memcmp(&answer, &back, sizeof back) && aoc_write_by(profile, &answer, buffer, written.count - 1).refusal == AOC_REFUSED_NO_ROOM);
        free(buffer);
    }
}

/* Going through an element, and the element that is written round its components. */
static void element(const uint8_t *octets, size_t length)
{
    aoc_answer answer;
    size_t place = AOC_FIRST_PLACE, from = place, count = 0;
    for (; aoc_next(octets, length, &place, &answer); from = place) {
        aoc_either either;
        size_t other = from;
        MUST(place > from && place <= length && ++count <= AOC_LIMIT_COMPONENTS);
        MUST(aoc_next_by(octets, length, &other, &either) && other == place);
        MUST(octets[2] == AOC_PROFILE_LINE ? either.refusal == answer.refusal : answer.refusal == AOC_REFUSED_OTHER_PROFILE);
        component(octets + from, place - from);
    }
    MUST(answer.refusal == AOC_ACCEPTED || answer.refusal == AOC_REFUSED_BAD_ELEMENT);
    uint8_t *buffer = malloc(AOC_LIMIT_ELEMENT_OCTETS);
    MUST(buffer != NULL);
    if (answer.refusal == AOC_ACCEPTED) {
        aoc_written written = aoc_write_element(octets + 3, length - 3, buffer, AOC_LIMIT_ELEMENT_OCTETS);
        /* what is written is a public line's */
        MUST(written.refusal == AOC_ACCEPTED && written.count == length && !memcmp(buffer, octets, 2) && buffer[2] == AOC_PROFILE_LINE);
        MUST(!memcmp(buffer + 3, octets + 3, length - 3));
        written = aoc_write_element_by(octets[2], octets + 3, length - 3, buffer, AOC_LIMIT_ELEMENT_OCTETS);
        MUST(written.refusal == AOC_ACCEPTED && written.count == length && !memcmp(buffer, octets, length));
        MUST(aoc_interpretation_in(octets, length) <= AOC_INTERPRETATION_NONE);
    }
    aoc_written written = aoc_write_element(octets, length, buffer, AOC_LIMIT_ELEMENT_OCTETS);
    MUST(written.refusal ? written.refusal == AOC_REFUSED_BAD_ELEMENT && written.count == 0 : written.count == length + 3);
    free(buffer);
}

/* Six octets are a row, as far as they go, and the rest are the octets of the events. */
static void events(const uint8_t *octets, size_t length)
{
    uint16_t rows[AOC_ROW_NUMBERS * 8];
    size_t events = length ? octets[0] % 9 : 0, numbers = 0, at = 1, taken = 0;
    aoc_account call = aoc_fresh(), again;
    for (; events > 0 && at + 6 <= length; events--, at += 6, numbers += AOC_ROW_NUMBERS) {
        const uint8_t *o = octets + at;
        uint16_t row[AOC_ROW_NUMBERS] = {o[0] % 9, o[1], o[2], o[3], o[4], o[5]};
        memcpy(rows + numbers, row, sizeof row);
    }
    uint8_t *rest = copied(octets + (at < length ? at : length), at < length ? length - at : 0);
    size_t left = at < length ? length - at : 0;
    if (numbers && numbers % 12 == 0)
        rows[numbers - 1] = (uint16_t)left;
    aoc_refusal refusal = aoc_replay(rows, numbers, rest, left, &again);
    aoc_why_answer why = aoc_why(rows, numbers, rest, left);
    MUST(refusal == why.refusal);
    if (refusal == AOC_ACCEPTED) {
        MUST((why.reason == AOC_REASON_OPEN) == (aoc_phase_of(&again) != AOC_PHASE_ENDED));
        MUST((why.reason == AOC_REASON_PRICED) == (aoc_closing_of(&again).service != AOC_SERVICE_NONE));
        for (size_t i = 0; i < numbers; taken += rows[i + 5], i += AOC_ROW_NUMBERS) {
            aoc_services asked = {(uint8_t)(rows[i + 1] & 1), (uint8_t)(rows[i + 1] >> 1 & 1), (uint8_t)(rows[i + 1] >> 2 & 1)};
            aoc_identifiers ids = {rows[i + 2], rows[i + 3], rows[i + 4]};
            aoc_event event = aoc_event_of_setup(asked, ids);
            aoc_account before = call;
            event.kind = (uint8_t)rows[i];
            if (aoc_is_refusal(aoc_step(&call, event, rest + taken, rows[i + 5]).number))
                MUST(!memcmp(&before, &call, sizeof call));
        }
        MUST(!memcmp(&call, &again, sizeof call));
    }
    free(rest);
}

/* The octets as elements of a DISCONNECT of the network: its events are a Clear and the components of its Facility elements. */
static void message(const uint8_t *octets, size_t length)
{
    static const uint8_t head[] = {0x08, 0x01, 0x81, 0x45};
    size_t n = sizeof head + length, place = 0, from = 0, count = 0, at = 0;
    uint16_t key = 0;
    uint8_t *whole = malloc(n), *out = malloc(n);
    uint16_t *rows = malloc(AOC_ROW_NUMBERS * n * sizeof *rows);
    MUST(whole != NULL && out != NULL && rows != NULL);
    memcpy(whole, head, sizeof head);
    if (length)
        memcpy(whole + sizeof head, octets, length);
    MUST(aoc_call_key(AOC_FROM_NETWORK, whole, n, &key) && key == 1);
    aoc_trace_answer answer = aoc_message_events(AOC_FROM_NETWORK, whole, n, rows, AOC_ROW_NUMBERS * n, out, n);
    MUST(answer.refusal == AOC_ACCEPTED || (answer.refusal == AOC_REFUSED_FRAMING && answer.message == 1 && answer.events == 0));
    while (aoc_next_facility(whole, n, &place, &from)) {
        size_t inside = AOC_FIRST_PLACE, start = inside;
        aoc_either either;
        MUST(place > from && place <= n && whole[from] == 0x1C);
        for (; aoc_next_by(whole + from, place - from, &inside, &either); start = inside) {
            bool exchange = aoc_is_for_exchange(&either, whole + from + start, inside - start);
            MUST(!exchange || either.family == AOC_FAMILY_TRUNK);
            if (either.family != AOC_FAMILY_LINE || answer.refusal != AOC_ACCEPTED)
                continue;
            count++;
            MUST(count < answer.events && rows[AOC_ROW_NUMBERS * count] == AOC_EVENT_COMPONENT && rows[AOC_ROW_NUMBERS * count + 5] == inside - start);
            MUST(!memcmp(out + at, whole + from + start, inside - start));
            at += inside - start;
        }
    }
    MUST(answer.refusal != AOC_ACCEPTED || (answer.events == count + 1 && answer.octets == at && rows[0] == AOC_EVENT_CLEAR));
    answer = aoc_message_events(AOC_FROM_USER, octets, length, rows, AOC_ROW_NUMBERS * n, out, n);
    MUST(answer.refusal == AOC_ACCEPTED || answer.refusal == AOC_REFUSED_FRAMING);
    MUST(!aoc_call_key(AOC_FROM_USER, octets, length, &key) || (length > 2 && octets[0] == 0x08));
    place = 0;
    MUST(!aoc_next_facility(octets, length, &place, &from) || (length > 3 && octets[0] == 0x08));
    free(whole);
    free(out);
    free(rows);
}

/* Any octets as memory: every function gives its answer. */
static void memory(const uint8_t *octets, size_t length)
{
    aoc_account call;
    aoc_record record;
    char text[64];
    uint8_t buffer[AOC_LIMIT_COMPONENT_OCTETS];
    for (size_t i = 0; i < sizeof call; i++)
        ((uint8_t *)&call)[i] = length ? octets[i % length] : 0;
    memcpy(&record, &call, sizeof record);
    aoc_written written = aoc_write(&record, buffer, sizeof buffer);
    if (written.refusal == AOC_ACCEPTED) {
        aoc_answer back;
        MUST(aoc_read(buffer, written.count, &back) == AOC_ACCEPTED && !memcmp(&record, &back.record, sizeof record));
    }
    size_t printed = aoc_print_charge(text, sizeof text, &call.running);
    MUST(strlen(text) == (printed < sizeof text ? printed : sizeof text - 1));
    aoc_priced priced = aoc_price(aoc_closing_of(&call));
    MUST(priced.refusal == AOC_ACCEPTED || aoc_is_refusal(priced.refusal));
    (void)aoc_component(&call, octets, length);
}

int LLVMFuzzerTestOneInput(const uint8_t *octets, size_t length)
{
    uint8_t *copy = copied(octets, length);
    component(copy, length);
    by_profile(AOC_PROFILE_LINE, copy, length);
    by_profile(AOC_PROFILE_TRUNK, copy, length);
    if (length)
        by_profile(copy[0], copy + 1, length - 1);
    element(copy, length);
    events(copy, length);
    message(copy, length);
    memory(copy, length);
    free(copy);
    return 0;
}

#ifdef AOC_FUZZ_MAIN
static uint64_t seed = 88172645463325252u;

static uint64_t chance(void)
{
    seed ^= seed << 13;
    seed ^= seed >> 7;
    return seed ^= seed << 17;
}

/* A component, some octets of which are changed; now and then several, in an element; or any octets. */
static size_t input(uint8_t *to)
{
    static const char *const components[] = {   /* each after its length */
        "\x1C\xA1\x1A\x02\x01\x0A\x02\x01\x21\x30\x12\xA1\x0D\x81\x03" "EUR\xA2\x06\x81\x01\x2D\x82\x01\x01\x82\x01\x00",
        "\x1C\xA1\x1A\x02\x01\x0B\x02\x01\x23\x30\x12\x30\x10\xA1\x0E\x81\x03" "EUR\xA2\x07\x81\x02\x00\x96\x82\x01\x01",
        "\x13\xA1\x11\x02\x01\x3E\x02\x01\x24\x30\x09\x30\x07\xA1\x05\x30\x03\x02\x01\x0C",
        "\x0C\xA2\x0A\x02\x01\x03\x30\x05\x02\x01\x1E\x05\x00",
        "\x0B\xA1\x09\x02\x01\x03\x02\x01\x1E\x0A\x01\x02",
        "\x08\xA3\x06\x02\x01\x03\x02\x01\x1A",
        "\x08\xA4\x06\x02\x01\x03\x81\x01\x02",
        "\x1E\xA1\x1C\x02\x01\x01\x02\x01\x3D\x30\x14\x30\x12\xA1\x0D\x81\x03" "EUR\xA2\x06\x81\x01\x32\x82\x01\x01\x82\x01\x00",
        "\x11\xA1\x0F\x02\x01\x05\x02\x01\x3C\xA1\x07\x06\x03\x2B\x0C\x02\x05\x00",
        "\x08\xAA\x06\x80\x01\x00\x82\x01\x00",
        "\x10\xA1\x80\x02\x01\x04\x02\x01\x23\x30\x80\x81\x00\x00\x00\x00\x00",
    };
    uint64_t way = chance();
    size_t length = 0, most = sizeof components / sizeof *components;
    if (way % 4 == 0) {
        length = chance() % 64;
        for (size_t i = 0; i < length; i++)
            to[i] = (uint8_t)(chance() % 3 ? chance() % 16 : chance());
        return length;
    }
    if (way % 4 == 1)
        length = 3;
    do {
        const char *component = components[chance() % most];
        memcpy(to + length, component + 1, (size_t)component[0]);
        length += (size_t)component[0];
    } while (way % 4 == 1 && length < 200 && chance() % 4);
    for (size_t changes = chance() % 4; changes > 0; changes--)
        to[chance() % length] = (uint8_t)(chance() % 2 ? chance() : chance() % 8);
    if (way % 4 == 1)
        to[0] = 0x1C, to[1] = (uint8_t)(length - 2), to[2] = chance() % 3 ? AOC_PROFILE_LINE : AOC_PROFILE_TRUNK;
    return length;
}

/* More octets than a component or an element may have, up to 70,000: such an input with elements behind it, in one another or side by
 * side, some octets of which are changed. */
enum { LONG = 70000 };

static size_t long_input(uint8_t *to)
{
    size_t from = input(to), length = 250 + chance() % (LONG - 250);
    bool beside = chance() % 2;
    for (size_t i = from & ~(size_t)1; i + 1 < length; i += 2) {
        to[i] = beside ? 0x05 : 0x30;
        to[i + 1] = beside ? 0x00 : 0x80;
    }
    to[0] = (uint8_t)(0xA1 + chance() % 4);
    to[1] = 0x80;
    for (size_t changes = chance() % 4; changes > 0; changes--)
        to[2 + chance() % (length - 2)] = (uint8_t)chance();
    return length;
}

int main(int argc, char **argv)
{
    static uint8_t octets[LONG];
    long rounds = argc > 1 ? atol(argv[1]) : 100000;
    seed += argc > 2 ? strtoull(argv[2], NULL, 10) : 0;
    for (long i = 0; i < rounds; i++) {
        memset(octets, 0, 300);
        LLVMFuzzerTestOneInput(octets, i % 1000 ? input(octets) : long_input(octets));
    }
    printf("fuzz: %ld rounds\n", rounds);
    return 0;
}
#endif
