/* Closing figures for the C tests. */
static inline aoc_closing closing_of(uint32_t service, uint8_t kind)
{
    aoc_closing c;
    memset(&c, 0, sizeof c);
    c.service = service;
    c.charge.kind = kind;
    return c;
}

static inline aoc_closing money(uint32_t service, const char *currency, uint32_t number, uint8_t multiplier)
{
    aoc_closing c = closing_of(service, AOC_CHARGE_MONEY);
    c.charge.money.currency.count = (uint8_t)strlen(currency);
    memcpy(c.charge.money.currency.octets, currency, strlen(currency));
    c.charge.money.number = number;
    c.charge.money.multiplier = multiplier;
    if (service == AOC_SERVICE_D)
        c.charge.total = AOC_TOTAL_YES;
    return c;
}
