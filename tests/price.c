/* Closing figures as doubles: request 14's cases, and the bits of a million prices against C's own division. */
#include "check.h"
#include "figures.h"

static aoc_closing units(uint32_t number, uint8_t type)
{
    aoc_closing c = closing_of(AOC_SERVICE_E, AOC_CHARGE_UNITS);
    c.charge.count = 1;
    c.charge.unit_numbers[0] = number;
    c.charge.units[0].known = 1;
    c.charge.units[0].type = type;
    return c;
}

static uint64_t bits(double x)
{
    uint64_t b;
    memcpy(&b, &x, sizeof b);
    return b;
}

/* A refusal, with every other octet of the answer zero. */
static int refused(aoc_closing c, uint32_t number)
{
    aoc_priced p = aoc_price(c), wanted;
    memset(&wanted, 0, sizeof wanted);
    wanted.refusal = number;
    return !memcmp(&p, &wanted, sizeof p);
}

static int is_free(aoc_closing c)
{
    aoc_priced p = aoc_price(c), wanted;
    memset(&wanted, 0, sizeof wanted);
    wanted.is_free = 1;
    return !memcmp(&p, &wanted, sizeof p);
}

static int costs(aoc_closing c, uint64_t thousandths, uint64_t quotient)
{
    aoc_priced p = aoc_price(c);
    return p.refusal == AOC_ACCEPTED && !p.is_free && !memcmp(&p.currency, &c.charge.money.currency, sizeof p.currency) &&
           bits(p.thousandths) == thousandths && bits(p.quotient) == quotient;
}

static void test_cases(void)
{
    CHECK(costs(money(AOC_SERVICE_D, "EUR", 500, 0), 0x407F400000000000, 0x3FE0000000000000), "14.a");
    CHECK(costs(money(AOC_SERVICE_E, "EUR ", 50, 1), 0x407F400000000000, 0x3FE0000000000000), "14.b");
    CHECK(costs(money(AOC_SERVICE_D, "EUR", 1, 0), 0x3FF0000000000000, 0x3F50624DD2F1A9FC), "14.c");
    CHECK(costs(money(AOC_SERVICE_D, "EUR", 9, 0), 0x4022000000000000, 0x3F826E978D4FDF3B), "14.d");
    aoc_closing c = money(AOC_SERVICE_E, "EUR", 16777215, 6);
    c.charge.billed = 1;
    c.charge.billing = 7;
    CHECK(costs(c, 0x42AE847FE17B8000, 0x420F3FFFE0C00000), "14.e");
    CHECK(costs(money(AOC_SERVICE_D, "EUR", 0, 6), 0, 0), "14.f");
    CHECK(is_free(closing_of(AOC_SERVICE_D, AOC_CHARGE_FREE)), "14.g");
    c = closing_of(AOC_SERVICE_E, AOC_CHARGE_FREE);
    c.charge.association.kind = AOC_ASSOCIATION_IDENTIFIER;
    c.charge.association.id = 3;
    CHECK(is_free(c), "14.h");
    CHECK(refused(units(12, 0), AOC_REFUSED_UNIT_LIST), "14.i");
    CHECK(refused(units(12, 17), AOC_REFUSED_BAD_RECORD), "14.j");
    CHECK(refused(closing_of(AOC_SERVICE_NONE, AOC_CHARGE_NONE), AOC_REFUSED_NO_CLOSING), "14.k");
    c = money(AOC_SERVICE_D, "EUR", 16777216, 0);
    c.service = AOC_SERVICE_NONE;
    CHECK(refused(c, AOC_REFUSED_NO_CLOSING), "14.l");
    CHECK(refused(money(AOC_SERVICE_S, "EUR", 500, 0), AOC_REFUSED_BAD_RECORD), "14.m");
    c = money(AOC_SERVICE_D, "EUR", 500, 0);
    c.service = 258;
    CHECK(refused(c, AOC_REFUSED_BAD_RECORD), "14.n");
    c = money(AOC_SERVICE_D, "EUR", 500, 0);
    c.charge.kind = AOC_CHARGE_NONE;
    CHECK(refused(c, AOC_REFUSED_BAD_RECORD), "14.o");
    CHECK(refused(closing_of(AOC_SERVICE_D, AOC_CHARGE_NONE), AOC_REFUSED_BAD_RECORD), "14.o, nothing else in it");
    CHECK(refused(money(AOC_SERVICE_D, "EUR", 16777216, 0), AOC_REFUSED_BAD_RECORD), "14.p");
    c = money(AOC_SERVICE_D, "EUR", 500, 0);
    c.charge.billed = 1;
    c.charge.billing = 3;
    CHECK(refused(c, AOC_REFUSED_BAD_RECORD), "14.q");
    c = closing_of(AOC_SERVICE_D, AOC_CHARGE_FREE);
    c.charge.money.number = 1;
    CHECK(refused(c, AOC_REFUSED_BAD_RECORD), "14.r");
    c = money(AOC_SERVICE_D, "EUR", 500, 0);
    c.charge.total = AOC_TOTAL_NO;
    CHECK(costs(c, 0x407F400000000000, 0x3FE0000000000000), "14.s");
}

/* The small numbers, the large ones, and numbers between. */
static void test_division(void)
{
    static const uint64_t powers[] = {1, 10, 100, 1000, 10000, 100000, 1000000};
    for (uint32_t i = 0; i < 1000000; i++) {
        uint32_t number = i < 300000 ? i : i < 600000 ? 16777215 - (i - 300000) : (uint32_t)(chance() >> 40);
        uint8_t multiplier = i < 300000 ? 0 : (uint8_t)(chance() % 7);
        double value = (double)(number * powers[multiplier]);
        CHECK(costs(money(AOC_SERVICE_D, "EUR", number, multiplier), bits(value), bits(value / 1000.0)), "a price");
    }
}

/* Whatever a closing figure holds, what is refused is zero, and what is not shows the currency as received. */
static void test_nonsense(void)
{
    for (int turn = 0; turn < 200000; turn++) {
        aoc_closing c = turn & 1 ? money(AOC_SERVICE_D + (turn >> 1 & 1), "EUR", (uint32_t)(chance() >> 40), 3) : units(12, 0);
        for (int k = (int)(chance() % 3); k > 0; k--)
            ((uint8_t *)&c)[chance() % 60] ^= (uint8_t)(1 << chance() % 8);
        aoc_priced p = aoc_price(c);
        if (p.refusal)
            CHECK(refused(c, p.refusal) && (p.refusal == AOC_REFUSED_NO_CLOSING || p.refusal == AOC_REFUSED_BAD_RECORD || p.refusal == AOC_REFUSED_UNIT_LIST), "nonsense");
        else if (p.is_free)
            CHECK(is_free(c), "nonsense");
        else
            CHECK(costs(c, bits((double)aoc_thousandths(c.charge.money.number, c.charge.money.multiplier)), bits(p.quotient)), "nonsense");
    }
}

int main(void)
{
    test_cases();
    test_division();
    test_nonsense();
    return report("price");
}
