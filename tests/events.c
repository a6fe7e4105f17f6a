/* What the header offers over the proved functions: events made of their kinds, rows of what was done and their replay, requests,
 * the words of events, services, frames, operations and errors, currencies and amounts; and the proved writer of elements. */
#include "check.h"
#include "components.h"
#include "aoc_text.h"

enum { VALID = sizeof valid / sizeof *valid, EVENTS = 24, OCTETS = 8192 };

static aoc_services all_services(void)
{
    return aoc_with_service(aoc_with_service(aoc_with_service(aoc_no_services(), AOC_SERVICE_S), AOC_SERVICE_D), AOC_SERVICE_E);
}

/* ------------------------------------------------------------------ events */

/* Each event made of its kind does what the function of that event does. */
static void test_events(void)
{
    aoc_identifiers ids = aoc_three_identifiers(7);
    aoc_account a = aoc_fresh(), b = aoc_fresh();
    aoc_outcome (*const functions[])(aoc_account *) = {aoc_connect, aoc_suspend, aoc_resume, aoc_clear, aoc_released};
    static const uint8_t kinds[] = {AOC_EVENT_CONNECT, AOC_EVENT_SUSPEND, AOC_EVENT_RESUME, AOC_EVENT_CLEAR, AOC_EVENT_RELEASED};
    aoc_outcome x = aoc_setup(&a, all_services(), ids), y = aoc_step(&b, aoc_event_of_setup(all_services(), ids), NULL, 0);
    CHECK(!memcmp(&x, &y, sizeof x) && !memcmp(&a, &b, sizeof a) && !aoc_is_refusal(x.number), "set-up");
    for (size_t i = 0; i < sizeof kinds; i++) {
        x = functions[i](&a);
        y = aoc_step(&b, aoc_event_of(kinds[i]), NULL, 0);
        CHECK(!memcmp(&x, &y, sizeof x) && !memcmp(&a, &b, sizeof a) && !aoc_is_refusal(x.number), aoc_event_text(kinds[i]));
    }
    aoc_event event = aoc_event_of(AOC_EVENT_COMPONENT);
    CHECK(event.kind == AOC_EVENT_COMPONENT && all((const uint8_t *)&event + 1, sizeof event - 1, 0), "an event");
}

/* ------------------------------------------------------------------ rows */

struct list {
    uint16_t rows[AOC_ROW_NUMBERS * EVENTS];
    uint8_t octets[OCTETS];
    size_t numbers, length;
};

/* A random call, taken event by event; its list, replayed, gives the same account, and so does each shorter list. */
static void test_replay(void)
{
    for (int turn = 0; turn < 4000; turn++) {
        static struct list list;
        aoc_account call = aoc_fresh(), again;
        list.numbers = list.length = 0;
        for (size_t i = 0; i < EVENTS; i++) {
            uint8_t octets[300];
            size_t n = unhex(valid[chance() % VALID].hex, octets);
            aoc_event event = any_event(i);
            aoc_account other = call;
            uint16_t *row = list.rows + list.numbers;
            octets[4] = (uint8_t)(chance() & 3);
            if (chance() % 16 == 0)
                octets[chance() % n] ^= (uint8_t)chance();
            aoc_outcome x = aoc_take(&call, event, octets, n, row), y = aoc_step(&other, event, octets, n);
            CHECK(!memcmp(&x, &y, sizeof x) && !memcmp(&call, &other, sizeof call), "taken");
            CHECK(row[5] == (event.kind == AOC_EVENT_COMPONENT ? n : 0), "a row's octets");
            memcpy(list.octets + list.length, octets, row[5]);
            list.length += row[5];
            list.numbers += AOC_ROW_NUMBERS;
            memset(&again, MARK, sizeof again);
            CHECK(aoc_replay(list.rows, list.numbers, list.octets, list.length, &again) == AOC_ACCEPTED, "replayed");
            CHECK(!memcmp(&again, &call, sizeof call), "the account again");
        }
        aoc_why_answer why = aoc_why(list.rows, list.numbers, list.octets, list.length);
        CHECK((why.reason == AOC_REASON_OPEN) == (aoc_phase_of(&call) != AOC_PHASE_ENDED), "as aoc_why has it");
    }
}

/* Any numbers as rows: refused exactly where aoc_why refuses, and then the account is fresh. */
static void test_hostile_rows(void)
{
    aoc_account again, fresh = aoc_fresh();
    for (int turn = 0; turn < 20000; turn++) {
        uint16_t rows[AOC_ROW_NUMBERS * 4];
        uint8_t octets[64];
        size_t numbers = chance() % 25, length = chance() % 65;
        for (size_t i = 0; i < sizeof rows / sizeof *rows; i++)
            rows[i] = (uint16_t)(chance() % (chance() % 2 ? 8 : 65536));
        for (size_t i = 0; i < sizeof octets; i++)
            octets[i] = (uint8_t)chance();
        if (turn % 2 && numbers >= AOC_ROW_NUMBERS) {       /* lengths that add up */
            numbers -= numbers % AOC_ROW_NUMBERS;
            size_t left = length;
            for (size_t i = 5; i < numbers; i += AOC_ROW_NUMBERS) {
                rows[i] = (uint16_t)(i + AOC_ROW_NUMBERS > numbers ? left : left / 2);
                left -= rows[i];
            }
        }
        aoc_refusal refusal = aoc_replay((const uint16_t *)lend(rows, numbers * sizeof *rows), numbers, octets, length, &again);
        aoc_why_answer why = aoc_why(rows, numbers, octets, length);
        CHECK(refusal == why.refusal, "refused as aoc_why refuses");
        CHECK(refusal == AOC_ACCEPTED || !memcmp(&again, &fresh, sizeof again), "no account of no list");
        CHECK(refusal != AOC_ACCEPTED || (why.reason == AOC_REASON_OPEN) == (aoc_phase_of(&again) != AOC_PHASE_ENDED), "phase");
    }
    CHECK(aoc_replay(NULL, 0, NULL, 0, &again) == AOC_ACCEPTED && !memcmp(&again, &fresh, sizeof again), "the empty list");
}

/* A component past what a row can count is refused, and what is left of it is refused alike. */
static void test_long_component(void)
{
    static uint8_t octets[70000];
    static const uint8_t firsts[] = {0x00, 0xA1, 0xA4, 0xFF};
    for (size_t i = 0; i < sizeof firsts; i++) {
        aoc_account call = aoc_fresh(), again;
        uint16_t rows[2 * AOC_ROW_NUMBERS];
        octets[0] = firsts[i];
        octets[1] = 0x82;
        octets[2] = octets[3] = 0xFF;
        (void)aoc_take(&call, aoc_event_of_setup(aoc_no_services(), aoc_three_identifiers(0)), NULL, 0, rows);
        aoc_outcome outcome = aoc_take(&call, aoc_event_of(AOC_EVENT_COMPONENT), octets, sizeof octets, rows + AOC_ROW_NUMBERS);
        CHECK(outcome.number == AOC_REFUSED_TOO_LONG && rows[11] == 65535, "a long component");
        CHECK(aoc_replay(rows, 12, octets, rows[11], &again) == AOC_ACCEPTED && !memcmp(&again, &call, sizeof call), "its replay");
        CHECK(aoc_component(&again, octets, rows[11]).number == outcome.number, "what is left of it");
    }
}

/* ------------------------------------------------------------------ requests */

static void test_requests(void)
{
    aoc_identifiers ids = {0x0102, 0xFFFE, 0x7F};
    static const uint16_t each[] = {0, 0x0102, 0xFFFE, 0x7F, 0};
    static const uint8_t cases[] = {255, AOC_CHARGING_CASE_S, AOC_CHARGING_CASE_D, AOC_CHARGING_CASE_E, 255};
    for (uint8_t service = 0; service < 5; service++) {
        CHECK(aoc_identifier_of(ids, service) == each[service] && aoc_case_of(service) == cases[service], aoc_service_text(service));
        for (size_t room = 0; room < 20; room++) {
            uint8_t *buffer = make_room(room);
            aoc_written w = aoc_request(service, each[service], buffer, room);
            size_t size = service == AOC_SERVICE_S ? 12 : 11;
            if (cases[service] == 255)
                CHECK(w.refusal == AOC_REFUSED_BAD_RECORD && w.count == 0 && holds(buffer, room, NULL, 0), "no service");
            else if (room < size)
                CHECK(w.refusal == AOC_REFUSED_NO_ROOM && w.count == 0 && holds(buffer, room, NULL, 0), "no room");
            else {
                aoc_answer a = read_octets(buffer, w.count);
                CHECK(w.refusal == AOC_ACCEPTED && w.count == size && a.refusal == AOC_ACCEPTED, "a request");
                CHECK(a.record.frame == AOC_FRAME_INVOKE && a.record.operation == AOC_OPERATION_CHARGING_REQUEST, "a request");
                CHECK(a.record.id == each[service] && a.record.detail == cases[service], "a request");
            }
        }
    }
}

/* ------------------------------------------------------------------ elements */

/* In every room: the octets, or a refusal with all as it was. */
static void check_element(const uint8_t *octets, size_t n, uint32_t refusal)
{
    for (size_t room = 0; room < n + 6; room = room < n && room > 2 ? n : room + 1) {
        uint8_t *buffer = make_room(room), expected[AOC_LIMIT_ELEMENT_OCTETS] = {0x1C, (uint8_t)(n + 1), 0x91};
        aoc_written w = aoc_write_element(n ? lend(octets, n) : NULL, n, buffer, room);
        if (refusal || room < n + 3) {
            CHECK(w.refusal == (refusal ? refusal : AOC_REFUSED_NO_ROOM) && w.count == 0 && holds(buffer, room, NULL, 0), "no element");
        } else {
            memcpy(expected + 3, octets, n);
            CHECK(w.refusal == AOC_ACCEPTED && w.count == n + 3 && holds(buffer, room, expected, n + 3), "an element");
            struct walked back = walk(buffer, w.count);
            CHECK(back.refusal == AOC_ACCEPTED && back.count > 0 && back.starts[0] == AOC_FIRST_PLACE, "an element gone through");
        }
    }
}

static void test_elements(void)
{
    uint8_t octets[600] = {0};
    check_element(octets, 0, AOC_REFUSED_BAD_ELEMENT);
    for (size_t i = 0; i < VALID; i++)
        check_element(octets, unhex(valid[i].hex, octets), AOC_ACCEPTED);

    /* as many of the shortest as there is room for, and one more */
    memset(octets, 0, sizeof octets);
    for (size_t n = 2; n <= 300; n += 2)
        check_element(octets, n, n <= 254 ? AOC_ACCEPTED : AOC_REFUSED_BAD_ELEMENT);
    check_element(octets, 255, AOC_REFUSED_BAD_ELEMENT);

    /* any octets, and components with one octet changed: written exactly where aoc_next goes through them */
    for (int turn = 0; turn < 20000; turn++) {
        uint8_t element[AOC_LIMIT_ELEMENT_OCTETS];
        size_t n = 0;
        if (turn % 2) {
            for (size_t k = chance() % 4 + 1; k > 0 && n < 128; k--)
                n += unhex(valid[chance() % VALID].hex, octets + n);
            n = n > 254 ? 254 : n;
            octets[chance() % n] = (uint8_t)chance();
        } else {
            for (n = chance() % 24; n > 0 && chance() % 24;)
                for (size_t i = 0; i < n; i++)
                    octets[i] = (uint8_t)(chance() % 4 ? chance() % 4 : chance());
        }
        element[0] = 0x1C, element[1] = (uint8_t)(n + 1), element[2] = 0x91;
        memcpy(element + 3, octets, n);
        aoc_written w = aoc_write_element(octets, n, make_room(300), 300);
        CHECK(w.refusal == walk(element, n + 3).refusal, "written where it is gone through");
    }
}

/* ------------------------------------------------------------------ words */

static int differ(const char *volatile a, const char *volatile b)
{
    return strcmp(a, b) != 0;
}

static void test_words(void)
{
    int events = 0, services = 0, frames = 0, operations = 0, errors = 0;
    for (uint32_t n = 0; n < 1100; n++) {
        events += differ(aoc_event_text(n), "no event of this library");
        services += differ(aoc_service_text(n), "no service of this library");
        frames += differ(aoc_frame_text(n), "no frame of this library");
        operations += differ(aoc_operation_text(n), "no operation of this library");
        errors += differ(aoc_error_text(n), "no error of this library");
    }
    CHECK(events == 7 && services == 4 && frames == 5 && operations == 14 && errors == 8, "tables");
    CHECK(!differ(aoc_service_text(AOC_SERVICE_E), "charges at the end"), "words");
    CHECK(!differ(aoc_operation_text(AOC_OPERATION_E_CURRENCY), "aOCECurrency"), "words");
}

/* Whether the first of a text stand in the room, ".." last where it is cut, and a null behind them. */
static bool printed(const char *buffer, size_t room, const char *text, size_t whole)
{
    size_t fits = whole < room ? whole : room ? room - 1 : 0;
    for (size_t i = 0; i < fits; i++)
        if (buffer[i] != (whole >= room && i + 3 >= room ? '.' : text[i]))
            return false;
    return !room || !buffer[fits];
}

static void test_amounts(void)
{
    static const aoc_money money = {{10, {'A', 'B', 'C', 'D', 'E', 'F', 'G', 'H', 'I', 1}}, AOC_MULTIPLIER_TENTH, 15};
    static const char text[] = "ABCDEFGHI? 1.500";
    char *buffer;
    for (size_t room = 0; room < 20; room++) {
        size_t fits = room > 16 ? 16 : room ? room - 1 : 0;
        buffer = (char *)make_room(room);
        CHECK(aoc_print_money(buffer, room, &money) == 16 && printed(buffer, room, text, 16), "an amount");
        CHECK(room <= fits + 1 || all(buffer + fits + 1, room - fits - 1, MARK), "an amount");
        buffer = (char *)make_room(room);
        CHECK(aoc_print_currency(buffer, room, &money.currency) == 10 && printed(buffer, room, text, 10), "a currency");
    }
    /* spaces at the end of a currency are not printed: all ten of them, some, those in its middle not */
    static const struct {
        aoc_money money;
        const char *text;
    } padded[] = {{{{6, {'E', 'U', 'R', ' ', ' ', ' '}}, AOC_MULTIPLIER_TENTH, 15}, "EUR 1.500"},
                  {{{10, {' ', ' ', ' ', ' ', ' ', ' ', ' ', ' ', ' ', ' '}}, AOC_MULTIPLIER_TENTH, 15}, "1.500"},
                  {{{4, {' ', 'E', ' ', 'R'}}, AOC_MULTIPLIER_TENTH, 15}, " E R 1.500"}};
    for (size_t i = 0; i < sizeof padded / sizeof *padded; i++) {
        char line[32];
        aoc_charge charge;
        size_t n = strlen(padded[i].text), currency = n < 6 ? 0 : n - 6;
        memset(&charge, 0, sizeof charge);
        charge.kind = AOC_CHARGE_MONEY;
        charge.money = padded[i].money;
        CHECK(aoc_print_money(line, sizeof line, &padded[i].money) == n && !strcmp(line, padded[i].text), "a padded currency");
        CHECK(aoc_print_charge(line, sizeof line, &charge) == n && !strcmp(line, padded[i].text), "a padded currency");
        CHECK(aoc_print_currency(line, sizeof line, &padded[i].money.currency) == currency && !strncmp(line, padded[i].text, currency) && !line[currency], "a padded currency");
    }
    aoc_currency hostile;
    memset(&hostile, 0xFF, sizeof hostile);
    CHECK(aoc_print_currency(NULL, 0, &hostile) == AOC_LIMIT_CURRENCY_OCTETS, "a currency of any octets");
}

/* What a currency of no octets, one with spaces at its end and one of spaces alone are printed as. */
static void test_currencies(void)
{
    static const struct {
        aoc_money money;
        const char *currency, *amount;
    } cases[] = {
        {{{0, {0}}, AOC_MULTIPLIER_TENTH, 5}, "own currency", "own currency 0.500"},
        {{{6, {'E', 'U', 'R', ' ', ' ', ' '}}, AOC_MULTIPLIER_TENTH, 15}, "EUR", "EUR 1.500"},
        {{{4, {' ', 'E', ' ', 'R'}}, AOC_MULTIPLIER_ONE, 15}, " E R", " E R 15.000"},
        {{{2, {' ', ' '}}, AOC_MULTIPLIER_ONE, 1}, "", "1.000"},
    };
    for (size_t i = 0; i < sizeof cases / sizeof *cases; i++) {
        size_t name = strlen(cases[i].currency), whole = strlen(cases[i].amount);
        for (size_t room = 0; room < 22; room++) {
            char *buffer = (char *)make_room(room);
            CHECK(aoc_print_money(buffer, room, &cases[i].money) == whole && printed(buffer, room, cases[i].amount, whole), cases[i].amount);
            buffer = (char *)make_room(room);
            CHECK(aoc_print_currency(buffer, room, &cases[i].money.currency) == name && printed(buffer, room, cases[i].currency, name), cases[i].amount);
        }
    }
}

int main(void)
{
    make_edges();
    test_events();
    test_replay();
    test_hostile_rows();
    test_long_component();
    test_requests();
    test_elements();
    test_words();
    test_amounts();
    test_currencies();
    return report("events");
}
