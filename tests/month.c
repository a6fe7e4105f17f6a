/* A month's figures: request 9's cases, its limits, and months that hold anything. */
#include "check.h"
#include "figures.h"

/* A month, the refusals of all its figures, and how many there were. */
static struct {
    aoc_month month;
    uint32_t refusals[8];
    size_t count;
} run;

static void begin(void)
{
    memset(&run, 0, sizeof run);
    run.month = aoc_month_empty();
}

/* By value, and where it lies: both give the same, and a refused figure changes nothing. */
static uint32_t post(aoc_closing c)
{
    aoc_month_added added = aoc_month_add(run.month, c);
    aoc_month before = run.month;
    aoc_refusal refusal = aoc_month_post(&run.month, &c);
    CHECK((uint64_t)refusal == added.refusal && !memcmp(&run.month, &added.month, sizeof before), "by value and lent");
    if (refusal)
        CHECK(!memcmp(&run.month, &before, sizeof before), "refused, and as it was");
    if (run.count < 8)
        run.refusals[run.count] = refusal;
    run.count++;
    return refusal;
}

static aoc_closing billed(aoc_closing c, uint8_t billing)
{
    c.charge.billed = 1;
    c.charge.billing = billing;
    return c;
}

/* Entries as numbers, 17 to an entry: number times 17 plus type; an entry not available is minus its type, minus 1. */
static aoc_closing units(uint32_t service, size_t count, const int64_t *entries)
{
    aoc_closing c = closing_of(service, AOC_CHARGE_UNITS);
    c.charge.count = (uint8_t)count;
    c.charge.total = service == AOC_SERVICE_D;
    for (size_t i = 0; i < count; i++) {
        c.charge.units[i].known = entries[i] >= 0;
        c.charge.units[i].type = (uint8_t)(entries[i] >= 0 ? entries[i] % 17 : -entries[i] - 1);
        c.charge.unit_numbers[i] = entries[i] >= 0 ? (uint32_t)(entries[i] / 17) : 0;
    }
    return c;
}

static aoc_closing one_unit(uint32_t service, int64_t entry)
{
    return units(service, 1, &entry);
}

enum { ABSENT = -1 };

static int64_t unit(int64_t number, int64_t type)
{
    return number * 17 + type;
}

/* What a month is expected to hold. */
static aoc_month wanted;

static void expect(uint32_t added)
{
    memset(&wanted, 0, sizeof wanted);
    wanted.added = added;
}

static void row(const char *currency, size_t octets, uint32_t calls, uint64_t sum)
{
    aoc_month_currency *r = &wanted.rows[wanted.count++];
    r->currency.count = (uint8_t)octets;
    memcpy(r->currency.octets, currency, octets);
    r->calls = calls;
    r->sum = sum;
}

static int as_wanted(void)
{
    return !memcmp(&run.month, &wanted, sizeof wanted);
}

static int refused(size_t count, const uint32_t *refusals)
{
    return run.count == count && !memcmp(run.refusals, refusals, count * sizeof *refusals);
}

#define REFUSED(...) refused(sizeof((uint32_t[]){__VA_ARGS__}) / sizeof(uint32_t), (uint32_t[]){__VA_ARGS__})

enum { D = AOC_SERVICE_D, E = AOC_SERVICE_E, NONE = AOC_MONTH_NOT_BILLED };

static void test_cases(void)
{
    aoc_closing c;

    begin();
    expect(0);
    CHECK(as_wanted() && all(&run.month, sizeof run.month, 0), "9.a");

    begin();
    post(money(D, "EUR", 500, 0)), post(money(E, "EUR ", 50, 1)), post(money(D, "EUR  ", 1, 6));
    expect(3), row("EUR", 3, 3, 1001000), wanted.table[0][NONE] = 2, wanted.table[1][NONE] = 1;
    CHECK(REFUSED(0, 0, 0) && as_wanted(), "9.b");

    begin();
    post(money(E, "EUR ", 5, 0)), post(money(D, "EUR", 7, 0)), post(money(D, "DM", 1, 0));
    expect(3), row("EUR ", 4, 2, 12), row("DM", 2, 1, 1), wanted.table[0][NONE] = 2, wanted.table[1][NONE] = 1;
    CHECK(REFUSED(0, 0, 0) && as_wanted(), "9.c");

    begin();
    post(money(D, " ", 5, 0)), post(money(D, "   ", 6, 0)), post(money(D, "EUR", 1, 0)), post(money(D, " EUR", 2, 0));
    expect(4), row(" ", 1, 2, 11), row("EUR", 3, 1, 1), row(" EUR", 4, 1, 2), wanted.table[0][NONE] = 4;
    CHECK(REFUSED(0, 0, 0, 0) && as_wanted(), "9.d");

    begin();
    post(billed(units(E, 5, (int64_t[]){unit(12, 0), ABSENT, unit(5, 3), ABSENT - 3, unit(7, 3)}), 7));
    expect(1), wanted.units[0] = 12, wanted.units[3] = 12, wanted.absent = 2, wanted.table[1][7] = 1;
    CHECK(REFUSED(0) && as_wanted(), "9.e");

    begin();
    post(one_unit(D, ABSENT)), post(one_unit(D, unit(0, 16)));
    expect(2), wanted.absent = 1, wanted.table[0][NONE] = 2;
    CHECK(REFUSED(0, 0) && as_wanted(), "9.f");

    begin();
    c = closing_of(E, AOC_CHARGE_FREE);
    c.charge.association.kind = AOC_ASSOCIATION_IDENTIFIER;
    c.charge.association.id = 3;
    post(closing_of(D, AOC_CHARGE_FREE)), post(closing_of(E, AOC_CHARGE_FREE)), post(c);
    expect(3), wanted.free_calls = 3, wanted.table[0][NONE] = 1, wanted.table[1][NONE] = 2;
    CHECK(REFUSED(0, 0, 0) && as_wanted(), "9.g");

    begin();
    post(billed(money(D, "EUR", 500, 0), 2)), post(billed(money(D, "EUR", 500, 0), 3)), post(billed(money(E, "EUR", 500, 0), 3));
    expect(2), row("EUR", 3, 2, 1000), wanted.table[0][2] = 1, wanted.table[1][3] = 1;
    CHECK(REFUSED(0, 10, 0) && as_wanted(), "9.h");

    begin();
    c = money(D, "EUR", 1, 0);
    c.charge.money.currency.count = 4;
    post(money(D, "EUR", 16777215, 6)), post(money(D, "EUR", 16777216, 0)), post(money(D, "EUR", 1, 7)), post(c);
    expect(2), row("EUR", 3, 1, 16777215000000), row("EUR", 4, 1, 1), wanted.table[0][NONE] = 2;
    CHECK(REFUSED(0, 10, 10, 0) && as_wanted(), "9.i");

    begin();
    post(closing_of(AOC_SERVICE_NONE, AOC_CHARGE_NONE));
    c = money(D, "EUR", 5, 0), c.service = AOC_SERVICE_S, post(c);
    c = money(D, "EUR", 5, 0), c.charge.kind = AOC_CHARGE_NONE, post(c);
    c = money(D, "EUR", 5, 0), c.charge.kind = AOC_CHARGE_RATES, post(c);
    c = money(D, "EUR", 5, 0), c.charge.total = 2, post(c);
    c = money(D, "EUR", 5, 0), c.charge.total = AOC_TOTAL_NO, post(c);
    expect(1), row("EUR", 3, 1, 5), wanted.table[0][NONE] = 1;
    CHECK(REFUSED(10, 10, 10, 10, 10, 0) && as_wanted(), "9.j");

    begin();
    c = money(D, "EUR", 5, 0), c.charge.association.kind = AOC_ASSOCIATION_IDENTIFIER, post(c);
    c = money(E, "EUR", 5, 0), c.charge.total = AOC_TOTAL_YES, post(c);
    c = money(E, "EUR", 5, 0), c.charge.billing = 1, post(c);
    c = closing_of(D, AOC_CHARGE_FREE), c.charge.billed = 1, post(c);
    c = money(E, "EUR", 5, 0), c.charge.count = 1, post(c);
    c = money(D, "EUR", 5, 0), c.charge.arrangement = 1, post(c);
    expect(0);
    CHECK(REFUSED(10, 10, 10, 10, 10, 10) && as_wanted(), "9.k");
}

/* 9.l: sixteen currencies, and then what still goes on. */
static void test_currencies(void)
{
    char letter[2] = "A";
    begin();
    expect(19), row("A", 1, 2, 2);
    for (letter[0] = 'A'; letter[0] <= 'P'; letter[0]++) {
        CHECK(post(money(D, letter, 1, 0)) == AOC_ACCEPTED, "9.l");
        if (letter[0] != 'A')
            row(letter, 1, 1, 1);
    }
    CHECK(post(money(D, "Q", 1, 0)) == AOC_REFUSED_CURRENCIES_FULL, "9.l");
    CHECK(post(money(D, "A ", 1, 0)) == AOC_ACCEPTED, "9.l");
    CHECK(post(closing_of(D, AOC_CHARGE_FREE)) == AOC_ACCEPTED, "9.l");
    CHECK(post(one_unit(E, unit(3, 0))) == AOC_ACCEPTED, "9.l");
    wanted.units[0] = 3, wanted.free_calls = 1, wanted.table[0][NONE] = 18, wanted.table[1][NONE] = 1;
    CHECK(as_wanted(), "9.l");
    CHECK(post(money(D, "Q", 16777216, 0)) == AOC_REFUSED_BAD_RECORD, "10 before 47");
}

static void fill(aoc_closing c)
{
    begin();
    for (int i = 0; i < AOC_LIMIT_MONTH_FIGURES; i++)
        CHECK(post(c) == AOC_ACCEPTED, "one of 4,096");
    expect(AOC_LIMIT_MONTH_FIGURES);
}

/* 9.m to 9.o: 4,096 figures, the largest among them. */
static void test_limit(void)
{
    int64_t most[32];
    char letter[2] = "A";
    fill(money(D, "EUR", 1, 0));
    CHECK(post(money(D, "EUR", 1, 0)) == AOC_REFUSED_MONTH_FULL, "9.m");
    CHECK(post(money(D, "EUR", 16777216, 0)) == AOC_REFUSED_BAD_RECORD, "9.m");
    for (letter[0] = 'A'; letter[0] <= 'P'; letter[0]++)
        CHECK(post(money(D, letter, 1, 0)) == AOC_REFUSED_MONTH_FULL, "9.m");
    row("EUR", 3, 4096, 4096), wanted.table[0][NONE] = 4096;
    CHECK(as_wanted(), "9.m");

    fill(billed(money(E, "EUR", 16777215, 6), 0));
    row("EUR", 3, 4096, 68719472640000000), wanted.table[1][0] = 4096;
    CHECK(as_wanted(), "9.n");

    for (int i = 0; i < 32; i++)
        most[i] = unit(16777215, 1);
    fill(units(E, 32, most));
    wanted.units[1] = 2199023124480, wanted.table[1][NONE] = 4096;
    CHECK(as_wanted(), "9.o");

    for (int i = 0; i < 32; i++)
        most[i] = ABSENT;
    fill(units(E, 32, most));
    wanted.absent = 131072, wanted.table[1][NONE] = 4096;
    CHECK(as_wanted(), "all entries not available");

    /* sixteen currencies and 4,096 figures: 46 comes before 47 */
    begin();
    for (int i = 0; i < AOC_LIMIT_MONTH_FIGURES; i++) {
        letter[0] = (char)('A' + i % 16);
        CHECK(post(money(D, letter, 1, 0)) == AOC_ACCEPTED, "sixteen rows of 256");
    }
    CHECK(post(money(D, "Q", 1, 0)) == AOC_REFUSED_MONTH_FULL, "46 before 47");
}

/* The readers, and what has no place. */
static void test_readers(void)
{
    begin();
    post(billed(money(D, "EUR", 500, 0), 2)), post(one_unit(E, unit(7, 16)));
    aoc_month_currency r = aoc_month_row(&run.month, 0), none = aoc_month_row(&run.month, 1);
    CHECK(aoc_month_rows(&run.month) == 1 && r.calls == 1 && r.sum == 500 && r.currency.count == 3, "a row");
    CHECK(all(&none, sizeof none, 0), "past the rows");
    CHECK(aoc_month_units(&run.month, 16) == 7 && aoc_month_units(&run.month, 17) == 0, "a type");
    CHECK(aoc_month_place(&run.month, D, 2) == 1 && aoc_month_place(&run.month, E, NONE) == 1, "places");
    CHECK(aoc_month_place(&run.month, D, 9) == 0 && aoc_month_place(&run.month, 4, 2) == 0 && aoc_month_place(&run.month, 1, 2) == 0, "no place");
    memset(&run.month, 0xff, sizeof run.month);
    CHECK(aoc_month_rows(&run.month) == 16 && aoc_month_row(&run.month, 15).calls == UINT32_MAX, "a count past the rows");
    none = aoc_month_row(&run.month, 16);
    CHECK(all(&none, sizeof none, 0), "past the array");
}

/* A month that holds anything: a refusal leaves it; else one figure more, sums wrap, and a count of rows over 16 reads as 16. */
static void test_nonsense(void)
{
    for (int turn = 0; turn < 200000; turn++) {
        aoc_month m;
        begin();
        for (size_t i = 0; i < sizeof m; i++)
            ((uint8_t *)&m)[i] = (uint8_t)(turn & 1 ? chance() >> 56 : 0xff);
        m.added = (uint32_t)(turn & 6 ? chance() % 4096 : chance() >> 32);
        m.count = (uint32_t)(turn & 8 ? chance() % 18 : chance() >> 32);
        aoc_closing c = turn & 16 ? closing_of(D, AOC_CHARGE_FREE) : turn & 32 ? one_unit(E, unit(12, 5)) : money(D, "EUR", 7, 0);
        for (int k = (int)(chance() % 2); k > 0; k--)
            ((uint8_t *)&c)[chance() % 60] ^= (uint8_t)(1 << chance() % 8);
        run.month = m;
        uint32_t refusal = post(c);
        if (m.added >= 4096)
            CHECK(refusal == AOC_REFUSED_MONTH_FULL || refusal == AOC_REFUSED_BAD_RECORD, "a full month");
        if (refusal)
            continue;
        CHECK(run.month.added == m.added + 1, "one figure more");
        size_t line = c.service - AOC_SERVICE_D, column = c.charge.billed ? c.charge.billing : NONE;
        m.table[line][column]++;
        m.added++;
        if (c.charge.kind == AOC_CHARGE_FREE) {
            m.free_calls++;
        } else if (c.charge.kind == AOC_CHARGE_UNITS) {
            for (size_t i = 0; i < c.charge.count; i++) {
                aoc_unit_entry u = aoc_unit_at(&c.charge, i);
                if (u.known)
                    m.units[u.type] += u.number;
                else
                    m.absent++;
            }
        } else {
            CHECK(run.month.count == m.count || run.month.count == m.count + 1, "at most one row more");
            memcpy(&m.rows, &run.month.rows, sizeof m.rows);
            m.count = run.month.count;
        }
        CHECK(!memcmp(&run.month, &m, sizeof m), "all else as it was");
    }
}

int main(void)
{
    test_cases();
    test_currencies();
    test_limit();
    test_readers();
    test_nonsense();
    return report("month");
}
