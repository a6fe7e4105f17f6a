/* Of explain.c: what it prints of a record of either family, by the element names of ETS 300 182-1 and of ECMA-212; whole, or in one
 * line. */
#include "common.h"

#define NAME(names, number) ((number) < sizeof (names) / sizeof *(names) ? (names)[number] : "?")

static void put(int depth, const char *name)
{
    printf("%*s%s", 2 * depth, "", name);
}

static void put_name(int depth, const char *name)
{
    put(depth, name);
    puts("");
}

static void put_line(int depth, const char *name, const char *value)
{
    put(depth, name);
    printf(" %s\n", value);
}

static void put_number(int depth, const char *name, long number)
{
    put(depth, name);
    printf(" %ld\n", number);
}

static void put_text(int depth, const char *name, const uint8_t *octets, size_t count)
{
    put(depth, name);
    fputs(" \"", stdout);
    for (size_t i = 0; i < count; i++)
        putchar(octets[i] >= 0x20 && octets[i] < 0x7F ? octets[i] : '?');
    puts("\"");
}

/* ------------------------------------------------------------------ types of both standards */

static const char *const multipliers[] = {"oneThousandth", "oneHundredth", "oneTenth", "one", "ten", "hundred", "thousand"};
static const char *const scales[] = {"oneHundredthSecond", "oneTenthSecond", "oneSecond", "tenSeconds", "oneMinute", "oneHour", "twentyFourHours"};
static const char *const items[] = {"basicCommunication", "callAttempt", "callSetup", "userToUserInfo", "operationOfSupplementaryServ"};
static const char *const types[] = {"continuousCharging", "stepFunction"};
static const char *const volumes[] = {"octet", "segment", "message"};
static const char *const totals[] = {"subTotal", "total"};
static const char *const cases[] = {"chargingInformationAtCallSetup", "chargingDuringACall", "chargingAtTheEndOfACall"};
static const char *const billings[] = {"normalCharging", "reverseCharging", "creditCardCharging", "callForwardingUnconditional",
                                       "callForwardingBusy", "callForwardingNoReply", "callDeflection", "callTransfer"};

static void put_money(int depth, const char *currency, const char *amount, const aoc_money *money)
{
    if (money->currency.count)
        put_text(depth, currency, money->currency.octets, money->currency.count);
    else
        put_line(depth, currency, "\"\", the default currency of the private network");
    put(depth, amount);
    uint64_t thousandths = aoc_thousandths(money->number, money->multiplier);
    printf(" %lu x %s, that is %lu.%03lu\n", (unsigned long)money->number, NAME(multipliers, money->multiplier),
           (unsigned long)(thousandths / 1000), (unsigned long)(thousandths % 1000));
}

static void put_time(int depth, const char *name, uint32_t time, uint8_t scale)
{
    put(depth, name);
    printf(" %lu x %s\n", (unsigned long)time, NAME(scales, scale));
}

static void put_rate(int depth, aoc_rate_entry rate)
{
    put_line(depth, "chargedItem", NAME(items, rate.item));
    switch (rate.kind) {
    case AOC_RATE_DURATION:
        put_name(depth, "durationCurrency");
        put_money(depth + 1, "dCurrency", "dAmount", &rate.money);
        put_line(depth + 1, "dChargingType", NAME(types, rate.detail));
        put_time(depth + 1, "dTime", rate.time, rate.scale);
        if (rate.stepped)
            put_time(depth + 1, "dGranularity", rate.step, rate.step_scale);
        break;
    case AOC_RATE_FLAT:
        put_name(depth, "flatRateCurrency");
        put_money(depth + 1, "fRCurrency", "fRAmount", &rate.money);
        break;
    case AOC_RATE_VOLUME:
        put_name(depth, "volumeRateCurrency");
        put_money(depth + 1, "vRCurrency", "vRAmount", &rate.money);
        put_line(depth + 1, "vRVolumeUnit", NAME(volumes, rate.detail));
        break;
    case AOC_RATE_CODE:
        put_number(depth, "specialChargingCode", rate.detail);
        break;
    case AOC_RATE_FREE:
        put_name(depth, "freeOfCharge");
        break;
    case AOC_RATE_FREE_FROM_BEGINNING:
        put_name(depth, "freeOfChargefromBeginning");
        break;
    default:
        put_name(depth, "currencyInfoNotAvailable");
        break;
    }
}

static void put_unit(int depth, aoc_unit_entry unit)
{
    if (unit.known)
        put_number(depth, "recordedNumberOfUnits", (long)unit.number);
    else
        put_name(depth, "notAvailable");
    if (unit.type)
        put_number(depth, "recordedTypeOfUnits", unit.type);
}

static long signed_of(uint16_t id)
{
    return id < 0x8000 ? (long)id : (long)id - 0x10000;
}

/* A PartyNumber, under the name of the element that is one. */
static void put_party(int depth, const char *name, const aoc_association *a)
{
    bool own = a->kind == AOC_ASSOCIATION_PRIVATE_NUMBER;
    if (a->kind == AOC_ASSOCIATION_NONE)
        return;
    put_name(depth, name);
    if (a->kind == AOC_ASSOCIATION_NUMBER) {
        put_text(depth + 1, "unknownPartyNumber", a->digits, a->count);
        return;
    }
    put_name(depth + 1, own ? "privatePartyNumber" : "publicPartyNumber");
    put_number(depth + 2, own ? "privateTypeOfNumber" : "publicTypeOfNumber", a->plan);
    put_text(depth + 2, own ? "privateNumberDigits" : "publicNumberDigits", a->digits, a->count);
}

static void put_association(int depth, const aoc_association *a)
{
    if (a->kind != AOC_ASSOCIATION_IDENTIFIER) {
        put_party(depth, "chargingAssociation", a);
        return;
    }
    put_name(depth, "chargingAssociation");
    put_number(depth + 1, "chargeIdentifier", signed_of(a->id));
}

static void put_recorded(int depth, const aoc_charge *c)
{
    put_name(depth, "recordedCurrency");
    put_money(depth + 1, "rCurrency", "rAmount", &c->money);
}

static void put_rates(int depth, const char *name, const aoc_charge *c)
{
    put_name(depth, name);
    for (size_t i = 0; i < c->count; i++)
        put_rate(depth + 1, aoc_rate_at(c, i));
}

static const char *const problems[] = {"generalProblem", "invokeProblem", "returnResultProblem", "returnErrorProblem"};

/* ------------------------------------------------------------------ components of a public line (ETS 300 182-1) */

/* The argument of an invoke, or the result of a chargingRequest. */
static void put_charge(int depth, const aoc_record *record)
{
    const aoc_charge *c = &record->charge;
    int during = record->operation == AOC_OPERATION_D_CURRENCY || record->operation == AOC_OPERATION_D_UNITS;
    switch (c->kind) {
    case AOC_CHARGE_FREE:
        put_name(depth, "freeOfCharge");
        break;
    case AOC_CHARGE_MONEY:
        put_recorded(depth, c);
        break;
    case AOC_CHARGE_UNITS:
        put_name(depth, "recordedUnitsList");
        for (size_t i = 0; i < c->count; i++)
            put_unit(depth + 1, aoc_unit_at(c, i));
        break;
    case AOC_CHARGE_RATES:
        put_rates(depth, "aOCSCurrencyInfoList", c);
        break;
    case AOC_CHARGE_ARRANGEMENT:
        put_number(depth, "aOCSSpecialArrInfo", c->arrangement);
        break;
    default:
        put_name(depth, record->frame == AOC_FRAME_RESULT ? "chargingInfoFollows" : "chargeNotAvailable");
        return;
    }
    if (during && c->kind != AOC_CHARGE_FREE)
        put_line(depth, "typeOfChargingInfo", NAME(totals, c->total));
    if (c->billed)
        put_line(depth, during ? "aOCDBillingId" : "aOCEBillingId", NAME(billings, c->billing));
    put_association(depth, &c->association);
}

static void explain_record(const aoc_record *r)
{
    put_name(0, aoc_frame_text(r->frame));
    if (r->unnamed)
        put_line(1, "invokeIdentifier", "NULL");
    else
        put_number(1, "invokeIdentifier", signed_of(r->id));
    switch (r->frame) {
    case AOC_FRAME_ERROR:
        put_line(1, "error", aoc_error_text(r->error));
        return;
    case AOC_FRAME_REJECT:
        put_number(1, NAME(problems, r->problem - 0x80u), r->detail);
        return;
    default:
        put_line(1, "operation", aoc_operation_text(r->operation));
        if (r->frame == AOC_FRAME_INVOKE && r->operation == AOC_OPERATION_CHARGING_REQUEST)
            put_line(1, "chargingCase", NAME(cases, r->detail));
        else
            put_charge(1, r);
    }
}

/* In one line: frame and identifier; then an operation, an error or a problem. */
static void put_head(uint8_t frame, uint8_t unnamed, uint16_t id)
{
    printf("%s ", aoc_frame_text(frame));
    if (unnamed)
        printf("NULL ");
    else
        printf("%ld ", signed_of(id));
}

/* A record in one line: the charge in words. */
static void record_in_line(const aoc_record *r)
{
    char text[AOC_LIMIT_CHARGE_TEXT];
    put_head(r->frame, r->unnamed, r->id);
    if (r->frame == AOC_FRAME_ERROR) {
        puts(aoc_error_text(r->error));
    } else if (r->frame == AOC_FRAME_REJECT) {
        printf("%s %u\n", NAME(problems, r->problem - 0x80u), r->detail);
    } else {
        printf("%s ", aoc_operation_text(r->operation));
        aoc_print_charge(text, sizeof text, &r->charge);
        if (r->frame == AOC_FRAME_INVOKE && r->operation == AOC_OPERATION_CHARGING_REQUEST)
            puts(NAME(cases, r->detail));
        else if (r->charge.kind == AOC_CHARGE_NONE)
            puts(r->frame == AOC_FRAME_RESULT ? "chargingInfoFollows" : "chargeNotAvailable");
        else
            puts(text);
    }
}

/* ------------------------------------------------------------------ components of a trunk (ECMA-212) */

static const char *const modes[] = {"rate", "rateInterim", "rateFinal", "interim", "final", "interimFinal", "rateInterimFinal"};
static const char *const options[] = {"aocFreeOfCharge", "aocContinueCharging", "aocStopCharging"};
static const char *const diversions[] = {"callForwardingUnconditional", "callForwardingBusy", "callForwardingNoReply", "callDeflection"};
static const char *const entities[] = {"endPINX", "anyTypeOfPINX"};

/* What a manufacturer added, octet for octet. */
static void put_extension(int depth, const aoc_trunk *t)
{
    if (t->extended == AOC_EXTENDED_NOT)
        return;
    put(depth, t->extended == AOC_EXTENDED_ONCE ? "extension" : "multipleExtension");
    for (size_t i = 0; i < t->extent; i++)
        printf(" %02X", t->extension[i]);
    puts("");
}

static void put_trunk_charge(int depth, const aoc_trunk *t)
{
    const aoc_charge *c = &t->charge;
    if (c->kind == AOC_CHARGE_RATES)
        put_rates(depth, "aocSCurrencyInfoList", c);
    else if (c->kind == AOC_CHARGE_MONEY)
        put_recorded(depth, c);
    else
        put_name(depth, c->kind == AOC_CHARGE_FREE ? "freeOfCharge" : "chargeNotAvailable");
    if (c->billed)
        put_line(depth, t->operation == AOC_OPERATION_FINAL ? "finalBillingId" : "interimBillingId", NAME(billings, c->billing));
    put_association(depth, &c->association);
}

static void put_argument(int depth, const aoc_trunk *t)
{
    switch (t->operation) {
    case AOC_OPERATION_CHARGE_REQUEST:
        put_name(depth, "adviceModeCombinations");
        for (size_t i = 0; i < t->asked; i++)
            put_line(depth + 1, "adviceModeCombination", NAME(modes, t->modes[i]));
        break;
    case AOC_OPERATION_GET_FINAL_CHARGE:
        if (t->extended == AOC_EXTENDED_NOT)
            put_name(depth, "none");
        break;
    case AOC_OPERATION_COMPLETE:
        put_party(depth, "chargedUser", &t->user);
        put_association(depth, &t->charge.association);
        break;
    case AOC_OPERATION_DIVERSION:
        put_party(depth, "divertingUser", &t->user);
        put_association(depth, &t->charge.association);
        put_line(depth, "diversionType", NAME(diversions, t->detail));
        break;
    default:
        put_trunk_charge(depth, t);
    }
}

static void explain_trunk(const aoc_trunk *t)
{
    put_name(0, aoc_frame_text(t->frame));
    if (t->frame == AOC_FRAME_EXTENSION) {
        put_line(1, "sourceEntity", NAME(entities, t->detail));
        put_party(1, "sourceEntityAddress", &t->user);
        put_line(1, "destinationEntity", NAME(entities, t->entity));
        put_party(1, "destinationEntityAddress", &t->charge.association);
        return;
    }
    if (t->unnamed)
        put_line(1, "invokeIdentifier", "NULL");
    else
        put_number(1, "invokeIdentifier", signed_of(t->id));
    switch (t->frame) {
    case AOC_FRAME_ERROR:
        put_line(1, "error", aoc_error_text(t->error));
        break;
    case AOC_FRAME_REJECT:
        put_number(1, NAME(problems, t->problem - 0x80u), t->detail);
        break;
    case AOC_FRAME_RESULT:
        put_line(1, "operation", aoc_operation_text(t->operation));
        if (t->operation == AOC_OPERATION_CHARGE_REQUEST)
            put_line(1, "adviceModeCombination", NAME(modes, t->detail));
        else
            put_line(1, "chargingOption", NAME(options, t->detail));
        break;
    default:
        put_line(1, "operation", aoc_operation_text(t->operation));
        put_argument(1, t);
    }
    put_extension(1, t);
}

/* In one line: what an invoke's argument says. */
static void argument_in_line(const aoc_trunk *t)
{
    char text[AOC_LIMIT_CHARGE_TEXT];
    aoc_print_charge(text, sizeof text, &t->charge);
    switch (t->operation) {
    case AOC_OPERATION_CHARGE_REQUEST:
        for (size_t i = 0; i < t->asked; i++)
            printf(" %s", NAME(modes, t->modes[i]));
        break;
    case AOC_OPERATION_GET_FINAL_CHARGE:
        break;
    case AOC_OPERATION_COMPLETE:
        printf(" chargedUser %.*s", (int)t->user.count, (const char *)t->user.digits);
        break;
    case AOC_OPERATION_DIVERSION:
        printf(" %s divertingUser %.*s", NAME(diversions, t->detail), (int)t->user.count, (const char *)t->user.digits);
        break;
    default:
        printf(" %s", t->charge.kind == AOC_CHARGE_NONE ? "chargeNotAvailable" : text);
    }
}

static void trunk_in_line(const aoc_trunk *t)
{
    if (t->frame == AOC_FRAME_EXTENSION) {
        printf("%s %s to %s\n", aoc_frame_text(t->frame), NAME(entities, t->detail), NAME(entities, t->entity));
        return;
    }
    put_head(t->frame, t->unnamed, t->id);
    if (t->frame == AOC_FRAME_ERROR)
        printf("%s", aoc_error_text(t->error));
    else if (t->frame == AOC_FRAME_REJECT)
        printf("%s %u", NAME(problems, t->problem - 0x80u), t->detail);
    else
        printf("%s", aoc_operation_text(t->operation));
    if (t->frame == AOC_FRAME_RESULT)
        printf(" %s", t->operation == AOC_OPERATION_CHARGE_REQUEST ? NAME(modes, t->detail) : NAME(options, t->detail));
    else if (t->frame == AOC_FRAME_INVOKE)
        argument_in_line(t);
    puts(t->extended == AOC_EXTENDED_NOT ? "" : ", extended");
}
