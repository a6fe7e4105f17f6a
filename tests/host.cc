// A host in C++17: every function of the headers, called from C++ through one call's life.
#include "aoc_text.h"
#include <stdio.h>

static int failed;

static void check(bool ok, const char *what)
{
    if (!ok) {
        failed++;
        printf("FAILED: %s\n", what);
    }
}

#define CHECK(fact) check(fact, #fact)

// C2 of document 01: 12 units at the end of a call. C4: a result. C1: a running figure.
static const uint8_t final_units[] = {0xA1, 0x11, 0x02, 0x01, 0x02, 0x02, 0x01, 0x24, 0x30, 0x09, 0x30, 0x07, 0xA1, 0x05, 0x30, 0x03, 0x02, 0x01, 0x0C};
static const uint8_t granted[] = {0xA2, 0x0A, 0x02, 0x01, 0x05, 0x30, 0x05, 0x02, 0x01, 0x1E, 0x05, 0x00};
static const uint8_t running[] = {0xA1, 0x1A, 0x02, 0x01, 0x01, 0x02, 0x01, 0x21, 0x30, 0x12, 0xA1, 0x0D, 0x81, 0x03,
                                  0x45, 0x55, 0x52, 0xA2, 0x06, 0x81, 0x01, 0x32, 0x82, 0x01, 0x01, 0x82, 0x01, 0x00};
static const uint8_t element[] = {0x1C, 0x05, 0x91, 0xA1, 0x00, 0xA4, 0x00};

static bool is(aoc_outcome outcome, uint32_t number, aoc_service service)
{
    return outcome.number == number && outcome.service == service;
}

// A switch over a named type, which the compiler checks.
static bool is_over(aoc_phase phase)
{
    switch (phase) {
    case AOC_PHASE_ENDED:
        return true;
    case AOC_PHASE_IDLE:
    case AOC_PHASE_ESTABLISHMENT:
    case AOC_PHASE_ACTIVE:
    case AOC_PHASE_CLEARING:
    case AOC_PHASE_SUSPENDED:
        return false;
    }
    return false;
}

static void test_components()
{
    aoc_answer answer;
    CHECK(aoc_read(running, sizeof running, &answer) == AOC_ACCEPTED);
    CHECK(answer.record.operation == AOC_OPERATION_D_CURRENCY && answer.record.charge.kind == AOC_CHARGE_MONEY);
    CHECK(aoc_thousandths(answer.record.charge.money.number, answer.record.charge.money.multiplier) == 500);
    uint8_t buffer[AOC_LIMIT_COMPONENT_OCTETS];
    aoc_written written = aoc_write(&answer.record, buffer, sizeof buffer);
    CHECK(written.refusal == AOC_ACCEPTED && written.count == sizeof running && !memcmp(buffer, running, sizeof running));
    CHECK(aoc_read(running, 5, &answer) == AOC_REFUSED_CUT);
    aoc_written reply = aoc_reply(running, 5, buffer, sizeof buffer);
    CHECK(reply.count == 7 && aoc_reply(running, 5, buffer, 6).refusal == AOC_REFUSED_NO_ROOM);
    size_t place = AOC_FIRST_PLACE;
    CHECK(aoc_next(element, sizeof element, &place, &answer) && place == 5);
    CHECK(aoc_next(element, sizeof element, &place, &answer) && place == sizeof element);
    CHECK(!aoc_next(element, sizeof element, &place, &answer) && answer.refusal == AOC_ACCEPTED);

    // a final charge of a trunk, free; by its profile octet, and in an element of its own
    static const uint8_t trunk[] = {0x1C, 0x0D, 0x9F, 0xA1, 0x0A, 0x02, 0x01, 0x01, 0x02, 0x01, 0x3D, 0x30, 0x02, 0x81, 0x00};
    aoc_either either;
    CHECK(aoc_read_by(AOC_PROFILE_TRUNK, trunk + 3, sizeof trunk - 3, &either) == AOC_ACCEPTED);
    CHECK(either.family == AOC_FAMILY_TRUNK && either.trunk.operation == AOC_OPERATION_FINAL && either.trunk.charge.kind == AOC_CHARGE_FREE);
    CHECK(aoc_read_by(AOC_PROFILE_LINE, trunk + 3, sizeof trunk - 3, &either) == AOC_REFUSED_UNKNOWN_OPERATION);
    CHECK(aoc_reply_by(0x90, trunk + 3, 1, buffer, sizeof buffer).refusal == AOC_REFUSED_OTHER_PROFILE);
    place = AOC_FIRST_PLACE;
    CHECK(aoc_next_by(trunk, sizeof trunk, &place, &either) && place == sizeof trunk && either.trunk.id == 1);
    CHECK(!aoc_next_by(trunk, sizeof trunk, &place, &either) && either.refusal == AOC_ACCEPTED);
}

static void test_call()
{
    aoc_account call = aoc_fresh();
    aoc_identifiers ids = aoc_three_identifiers(3);
    CHECK(ids.d == 5 && ids.d == aoc_next_identifier(ids.s));
    CHECK(is(aoc_setup(&call, aoc_with_service(aoc_no_services(), AOC_SERVICE_D), ids), AOC_OUTCOME_DONE, AOC_SERVICE_NONE));
    CHECK(aoc_has_service(aoc_pending_of(&call).asked, AOC_SERVICE_D) && aoc_pending_of(&call).d == 5);
    CHECK(is(aoc_component(&call, granted, sizeof granted), AOC_OUTCOME_GRANTED, AOC_SERVICE_D));
    CHECK(is(aoc_connect(&call), AOC_OUTCOME_DONE, AOC_SERVICE_NONE));
    CHECK(is(aoc_component(&call, running, sizeof running), AOC_OUTCOME_NEW_RUNNING, AOC_SERVICE_D));
    CHECK(aoc_is_refusal(aoc_released(&call).number) && !is_over(static_cast<aoc_phase>(aoc_phase_of(&call))));
    CHECK(is(aoc_clear(&call), AOC_OUTCOME_DONE, AOC_SERVICE_NONE));
    aoc_event event = {AOC_EVENT_COMPONENT, {0, 0, 0}, 0, 0, 0};
    CHECK(is(aoc_step(&call, event, final_units, sizeof final_units), AOC_OUTCOME_FINAL, AOC_SERVICE_E));
    CHECK(is(aoc_released(&call), AOC_OUTCOME_DONE, AOC_SERVICE_NONE));
    CHECK(is_over(static_cast<aoc_phase>(aoc_phase_of(&call))));

    aoc_closing closing = aoc_closing_of(&call);
    CHECK(closing.service == AOC_SERVICE_E && aoc_unit_at(&closing.charge, 0).number == 12);
    CHECK(aoc_running_of(&call).kind == AOC_CHARGE_MONEY && aoc_rate_of(&call).kind == AOC_CHARGE_NONE);
    CHECK(!aoc_has_service(aoc_marks_of(&call).conflict, AOC_SERVICE_E));
    CHECK(!aoc_rate_at(&closing.charge, 0).kind);
    char text[80];
    CHECK(aoc_print_charge(text, sizeof text, &closing.charge) == 8 && !memcmp(text, "12 units", 9));
}

static void test_words()
{
    CHECK(aoc_refusal_text(AOC_REFUSED_CUT)[0] == 't' && aoc_outcome_text(AOC_OUTCOME_FINAL)[0] == 't');
    CHECK(aoc_phase_text(AOC_PHASE_ENDED)[0] == 'e');
}

int main()
{
    test_components();
    test_call();
    test_words();
    printf("a host in C++17: %s\n", failed ? "FAILED" : "passed");
    return failed != 0;
}
