/* A small host: takes a night's events of a house's calls, keeps them on a switchboard, and prints what is to be posted to each
 * room, which calls need a clerk and what to do about each, where the exchange broke a rule of charging, with the octets that the
 * operator can be sent as evidence, the sums by room and by currency, and how many calls have a price.
 * With --month it takes the nights of a month, one after the other, and prints the month's figures instead.
 * With --csv it prints the same as comma-separated values, for an audit system.
 *
 * A line of the input is: time, room, call, event. Events:
 *   setup [S] [D] [E] [to NUMBER]   the call is set up, with a request for each service named and perhaps the number dialled;
 *                       S=5 names the request's identifier, which is else one up from the last
 *   connect, suspend, resume, clear, released
 *   lost                no more comes of the call, though it was not released
 *   incoming            the network began the call: no account takes its charges, and they are for the clerk
 *   facility OCTETS     a Facility element of a message from the network, as hex octets
 * An empty line and one that begins with # say nothing. Any other line is told with its number, and is not taken.
 *
 * A call is known by its room and number. A set-up begins another call, but where the last one with its room and number is itself only
 * being set up; so a lost clear or release spoils no other call. A resume from a room that has no such call takes up the one parked call
 * with its number: that stays one call, and is posted to the room that began it.
 * A call that lost its set-up, its clear or its release, or had an event refused, is in the clerk's list. So is one of a room that begins with
 * a question mark: which room it is, is not known.
 *
 * Amounts are as they were received and added up, exactly, in thousandths: rounding to the decimals of a bill is the audit's.
 *
 * Status: 0; 1 where a line was not taken, an event was refused or lost, a figure was not added to the month, or something could not be read
 * or written; 2 for usage. */
#include "common.h"

enum { REASONS = AOC_REASON_NOTHING + 1 };

/* A figure that the clerk may have to post by hand. */
struct figure {
    const char *name;           /* null for none */
    aoc_charge charge;
};

struct call {
    const char *room;
    unsigned long number;
    size_t order;               /* among the calls, by their first events */
    uint16_t reference;         /* on the switchboard, from the call's set-up to its collection; 0 for none */
    aoc_account account;        /* while it has no reference */
    aoc_closing closing;        /* once it has ended */
    /* the events, for the questions why a call has no price, and whether the exchange kept the rules */
    uint16_t *rows;             /* AOC_ROW_NUMBERS for each */
    const char **times;
    uint8_t *outcomes;
    uint8_t *octets;            /* of all of them, end to end */
    size_t events, length, rows_room, times_room, outcomes_room, octets_room;
    size_t released;            /* the number of the event that ended it, from 1; 0 for none */
    size_t refused;             /* how many of its events were */
    size_t malformed;           /* how many Facility elements were, */
    size_t unread;              /* and how many of a trunk's components could not be read */
    bool incoming;              /* the network began it */
    bool connected;
    bool over;                  /* it was released, though that was refused */
    bool left;                  /* no more comes of it: another call has its room and number, or it is told to be lost */
    const char *dialled;        /* the number, or null */
    const char *taken_up, *taken_up_at;         /* another room, and when; or null */
    struct figure trunk;        /* the last final that a trunk told */
    bool parked;
    struct call *parked_before, *parked_after;  /* among the parked calls with its number */
};

static struct call **calls;     /* in the order of their first events */
static size_t count, calls_room;
static struct table keys;       /* of the calls, by room and number, */
static struct call **last_of_key;
static size_t last_of_key_room;
static struct table numbers;    /* and of the parked ones by number alone */
static struct call **last_of_number;    /* the last one of each, or null */
static size_t last_of_number_room;
static aoc_board board;         /* the calls that are going on */
static uint16_t last_identifier, last_reference;
static bool monthly, as_csv;
static aoc_month month;
static unsigned long not_added[AOC_REFUSED_CURRENCIES_FULL + 1];    /* to the month, by refusal */
static FILE *notes;             /* where what happens on the way is told */

static void note(const char *time, const struct call *call, const char *what, const char *why)
{
    fprintf(notes, "%s  room %s  call %lu  %s%s", time, call->room, call->number, what, why);
}

/* ------------------------------------------------------------------ the switchboard */

/* A reference that no call holds: there is one, since at most AOC_LIMIT_CALLS are held. */
static uint16_t free_reference(void)
{
    do
        last_reference = (uint16_t)(last_reference % UINT16_MAX + 1);
    while (aoc_board_view(&board, last_reference).refusal == AOC_ACCEPTED);
    return last_reference;
}

/* Whether a call that begins has its place on the board. Where the board is full that is told, and the call keeps an account of
 * its own, so that its figures are not lost. */
static bool has_place(struct call *call, const char *time, aoc_event setup, aoc_outcome *outcome)
{
    uint16_t reference = free_reference();
    *outcome = aoc_board_event(&board, reference, setup, NULL, 0);
    if (!aoc_is_refusal(outcome->number))
        call->reference = reference;
    if (outcome->number != AOC_REFUSED_FULL)
        return true;
    note(time, call, "not on the switchboard: ", aoc_refusal_text(outcome->number));
    fputs("; the call is kept beside it\n", notes);
    return false;
}

/* The account as it stands. */
static aoc_account account_of(const struct call *call)
{
    return call->reference ? aoc_board_view(&board, call->reference).account : call->account;
}

static uint8_t phase_of(const struct call *call)
{
    aoc_account account = account_of(call);
    return aoc_phase_of(&account);
}

static aoc_outcome step(struct call *call, const char *time, aoc_event event, const uint8_t *octets, size_t n)
{
    aoc_outcome outcome;
    bool begins = event.kind == AOC_EVENT_SETUP && !call->reference && aoc_phase_of(&call->account) == AOC_PHASE_IDLE;
    if (begins && has_place(call, time, event, &outcome))
        return outcome;
    if (call->reference)
        return aoc_board_event(&board, call->reference, event, octets, n);
    return aoc_step(&call->account, event, octets, n);
}

/* What a call that has ended closed with; its reference is then free for another call. */
static void collect(struct call *call)
{
    call->account = account_of(call);
    if (!call->reference) {
        call->closing = aoc_closing_of(&call->account);
        return;
    }
    aoc_collected collected = aoc_board_collect(&board, call->reference);
    if (collected.refusal != AOC_ACCEPTED)
        give_up(aoc_refusal_text(collected.refusal));
    call->closing = collected.closing;
    call->reference = 0;
}

static void unpark(struct call *call);

/* A call of which no more comes, and that never ended: its account is kept as it stands, and its place on the board is made free. */
static void leave(struct call *call)
{
    if (call->parked)
        unpark(call);
    call->left = true;
    call->account = account_of(call);
    if (!call->reference)
        return;
    (void)aoc_board_event(&board, call->reference, aoc_event_of(AOC_EVENT_CLEAR), NULL, 0);
    (void)aoc_board_event(&board, call->reference, aoc_event_of(AOC_EVENT_RELEASED), NULL, 0);
    (void)aoc_board_collect(&board, call->reference);
    call->reference = 0;
}

/* Adds what a call closed with to the month. A figure that is refused is told. */
static void post(const struct call *call, const char *time)
{
    char text[AOC_LIMIT_CHARGE_TEXT];
    if (call->closing.service == AOC_SERVICE_NONE)
        return;
    aoc_refusal refusal = aoc_month_post(&month, &call->closing);
    if (refusal == AOC_ACCEPTED)
        return;
    aoc_print_charge(text, sizeof text, &call->closing.charge);
    note(time, call, "not added to the month: ", text);
    fprintf(notes, ": %s\n", aoc_refusal_text(refusal));
    if (refusal <= AOC_REFUSED_CURRENCIES_FULL)
        not_added[refusal]++;
    something_wrong = true;
}

/* ------------------------------------------------------------------ which call */

/* The place of the last call with a room and number, which is null where there was none. */
static struct call **last_call(const char *room, unsigned long number)
{
    struct {
        const char *room;
        size_t number;
    } key = {room, number};
    size_t before = keys.count, i = number_of_key(&keys, &key, sizeof key);
    last_of_key = grown(last_of_key, i, 1, &last_of_key_room, sizeof *last_of_key);
    if (keys.count > before)
        last_of_key[i] = NULL;
    return &last_of_key[i];
}

/* The same of the parked calls with a number. */
static struct call **last_parked(unsigned long number)
{
    size_t before = numbers.count, i = number_of_key(&numbers, &number, sizeof number);
    last_of_number = grown(last_of_number, i, 1, &last_of_number_room, sizeof *last_of_number);
    if (numbers.count > before)
        last_of_number[i] = NULL;
    return &last_of_number[i];
}

static void park(struct call *call)
{
    struct call **last = last_parked(call->number);
    call->parked = true;
    call->parked_before = *last;
    call->parked_after = NULL;
    if (*last)
        (*last)->parked_after = call;
    *last = call;
}

static void unpark(struct call *call)
{
    struct call **last = last_parked(call->number);
    if (call->parked_after)
        call->parked_after->parked_before = call->parked_before;
    else
        *last = call->parked_before;
    if (call->parked_before)
        call->parked_before->parked_after = call->parked_after;
    call->parked = false;
}

static struct call *new_call(const char *room, unsigned long number)
{
    struct call *call = calloc(1, sizeof *call);
    if (!call)
        give_up("memory is short");
    call->room = room;
    call->number = number;
    call->order = count;
    call->account = aoc_fresh();
    calls = grown(calls, count, 1, &calls_room, sizeof *calls);
    return calls[count++] = call;
}

/* Whether a set-up begins another call than this one: it has ended, or is over, or has come further than its own set-up. */
static bool is_past(const struct call *call)
{
    uint8_t phase = call->released || call->over || call->left ? AOC_PHASE_ENDED : phase_of(call);
    return phase != AOC_PHASE_IDLE && phase != AOC_PHASE_ESTABLISHMENT;
}

/* The call that an event of a room and number is of. */
static struct call *call_of(const char *room, unsigned long number, uint8_t kind, const char *time)
{
    struct call **last = last_call(room, number), *call = *last;
    if (kind == AOC_EVENT_RESUME && (!call || call->released || call->over || call->left)) {
        struct call *other = *last_parked(number);
        if (other && !other->parked_before) {   /* the only one */
            other->taken_up = room;
            other->taken_up_at = time;
            return *last = other;
        }
    }
    if (call && !(kind == AOC_EVENT_SETUP && is_past(call)))
        return call;
    if (call && !call->released)
        leave(call);
    return *last = new_call(room, number);
}

/* ------------------------------------------------------------------ events */

/* One event: the account takes it, and it is put into the call's list. */
static aoc_outcome take_event(struct call *call, const char *time, aoc_event event, const uint8_t *octets, size_t n)
{
    call->rows = grown(call->rows, AOC_ROW_NUMBERS * call->events, AOC_ROW_NUMBERS, &call->rows_room, sizeof *call->rows);
    call->times = grown(call->times, call->events, 1, &call->times_room, sizeof *call->times);
    call->outcomes = grown(call->outcomes, call->events, 1, &call->outcomes_room, sizeof *call->outcomes);
    call->octets = grown(call->octets, call->length, n, &call->octets_room, 1);
    aoc_row_of(event, (uint16_t)n, call->rows + AOC_ROW_NUMBERS * call->events);
    call->times[call->events] = time;
    if (n)
        memcpy(call->octets + call->length, octets, n);
    call->length += n;
    aoc_outcome outcome = step(call, time, event, octets, n);
    call->outcomes[call->events++] = outcome.number;
    if (aoc_is_refusal(outcome.number) && !call->incoming) {
        call->refused++;
        something_wrong = true;
    }
    return outcome;
}

/* An event that has no octets. */
static void take_phase_event(struct call *call, const char *time, aoc_event event, const char *name)
{
    aoc_outcome outcome = take_event(call, time, event, NULL, 0);
    if (aoc_is_refusal(outcome.number)) {
        note(time, call, name, " refused: ");
        fprintf(notes, "%s\n", aoc_refusal_text(outcome.number));
        if (event.kind == AOC_EVENT_RELEASED && !call->released) {
            call->over = true;
            leave(call);
        }
        return;
    }
    if (call->parked)
        unpark(call);
    if (event.kind == AOC_EVENT_SUSPEND)
        park(call);
    call->connected = call->connected || event.kind == AOC_EVENT_CONNECT;
    if (event.kind == AOC_EVENT_RELEASED) {
        call->released = call->events;
        collect(call);
        if (monthly)
            post(call, time);
    }
}

/* One component: the account takes it, and where it is refused the network may be owed a reject. */
static void take_component(struct call *call, const char *time, const uint8_t *octets, size_t n)
{
    aoc_outcome outcome = take_event(call, time, aoc_event_of(AOC_EVENT_COMPONENT), octets, n);
    if (!aoc_is_refusal(outcome.number))
        return;
    if (call->incoming) {
        note(time, call, "a component of a call from outside, which no account takes", "\n");
        return;
    }
    note(time, call, "a component refused: ", aoc_refusal_text(outcome.number));
    uint8_t reject[AOC_LIMIT_REPLY_OCTETS];
    aoc_written reply = {0, 0};
    if (outcome.number != AOC_REFUSED_WRONG_PHASE)
        reply = aoc_reply(octets, n, reject, sizeof reject);
    if (reply.count)
        fputs(", sent back ", notes);
    put_octets(notes, reject, reply.count);
    fputs("\n", notes);
}

/* A component of a trunk, which no account takes: what a final tells is for the clerk. */
static void take_trunk(struct call *call, const char *time, const aoc_either *answer, uint8_t first)
{
    char text[AOC_LIMIT_CHARGE_TEXT];
    if (answer->refusal != AOC_ACCEPTED && first != 0x8B && first != 0x92) {    /* these are for the exchange alone */
        note(time, call, "a component of a trunk refused: ", aoc_refusal_text(answer->refusal));
        fputs("\n", notes);
        call->unread++;
        something_wrong = true;
    }
    if (answer->refusal != AOC_ACCEPTED || answer->trunk.frame != AOC_FRAME_INVOKE || answer->trunk.operation != AOC_OPERATION_FINAL)
        return;
    aoc_print_charge(text, sizeof text, &answer->trunk.charge);
    note(time, call, "a trunk tells the charge: ", text);
    fputs("\n", notes);
    if (answer->trunk.charge.kind == AOC_CHARGE_NONE)
        return;
    call->trunk = (struct figure){call->trunk.name ? "the last of the trunk's figures" : "the trunk's figure", answer->trunk.charge};
}

static void take_element(struct call *call, const char *time, const uint8_t *octets, size_t n)
{
    size_t place = AOC_FIRST_PLACE, from = place;
    aoc_either answer;
    bool of_trunk = false;
    for (; next_component(octets, n, &place, &answer); from = place) {
        of_trunk = octets[2] == AOC_PROFILE_TRUNK;
        if (of_trunk)
            take_trunk(call, time, &answer, octets[from]);
        else
            take_component(call, time, octets + from, place - from);
    }
    if (of_trunk)
        note(time, call, "an element of a trunk, which no account takes", "\n");
    if (!aoc_is_refusal(answer.refusal))
        return;
    note(time, call, aoc_refusal_text(answer.refusal), "\n");
    call->malformed++;
    something_wrong = true;
}

/* ------------------------------------------------------------------ lines */

static const char blanks[] = " \t\r\n";

/* The next word of a line, with its length; 0 where there is none. */
static size_t word_of(const char **line, const char **word)
{
    *word = *line + strspn(*line, blanks);
    *line = *word + strcspn(*word, blanks);
    return (size_t)(*line - *word);
}

static bool is_word(const char *word, size_t n, const char *text)
{
    return n == strlen(text) && !memcmp(word, text, n);
}

/* A number of digits alone, 9 at most. */
static bool number_of(const char *word, size_t n, unsigned long *number)
{
    *number = 0;
    for (size_t i = 0; i < n; i++) {
        if (word[i] < '0' || word[i] > '9')
            return false;
        *number = 10 * *number + (unsigned long)(word[i] - '0');
    }
    return n > 0 && n <= 9;
}

/* A request's identifier, -32,768 to 32,767. */
static bool identifier_of(const char *word, size_t n, uint16_t *id)
{
    bool below = n > 0 && *word == '-';
    unsigned long number;
    if (!number_of(word + below, n - below, &number) || number > 32767u + below)
        return false;
    *id = (uint16_t)(below ? 0x10000 - number : number);
    return true;
}

/* What stands behind `setup`: services, each perhaps with an identifier, and the number that was dialled. */
static const char *setup_of(const char *line, aoc_event *event, const char **dialled)
{
    static const char services[] = "SDE", wanted[] = "a set-up names services: S, D, E, each perhaps with an identifier, as S=5; then perhaps: to NUMBER";
    aoc_identifiers ids = aoc_three_identifiers(last_identifier);
    uint16_t *const at[] = {&ids.s, &ids.d, &ids.e};
    aoc_services asked = aoc_no_services();
    const char *word;
    for (size_t n = word_of(&line, &word); n > 0; n = word_of(&line, &word)) {
        if (is_word(word, n, "to")) {
            n = word_of(&line, &word);
            *dialled = n ? kept_part(word, n) : NULL;
            if (!n || word_of(&line, &word))
                return wanted;
            break;
        }
        for (size_t i = 0; i < n; i++) {
            const char *service = strchr(services, word[i]);
            if (!service)
                return wanted;
            asked = aoc_with_service(asked, (uint8_t)(AOC_SERVICE_S + (service - services)));
            if (i + 1 == n || word[i + 1] != '=')
                continue;
            if (!identifier_of(word + i + 2, n - i - 2, at[service - services]))
                return wanted;
            break;
        }
    }
    *event = aoc_event_of_setup(asked, ids);
    last_identifier = aoc_three_identifiers(last_identifier).e;
    return NULL;
}

/* The octets of a text of two hex digits each, with blanks between them; false where it has anything else, or too many. */
static bool octets_of(const char *text, uint8_t *octets, size_t most, size_t *n)
{
    for (*n = 0; *(text += strspn(text, blanks)); text += 2) {
        if (digit(text[0]) < 0 || digit(text[1]) < 0 || *n == most)
            return false;
        octets[(*n)++] = (uint8_t)(digit(text[0]) << 4 | digit(text[1]));
    }
    return true;
}

static uint8_t phase_event_of(const char *name, size_t n)
{
    static const struct {
        const char *name;
        aoc_event_kind kind;
    } events[] = {{"connect", AOC_EVENT_CONNECT}, {"suspend", AOC_EVENT_SUSPEND}, {"resume", AOC_EVENT_RESUME},
                  {"clear", AOC_EVENT_CLEAR}, {"released", AOC_EVENT_RELEASED}};
    for (size_t i = 0; i < sizeof events / sizeof *events; i++)
        if (is_word(name, n, events[i].name))
            return (uint8_t)events[i].kind;
    return 0;
}

/* Takes a line whole, or not at all: then it says why, and no account has changed. */
static const char *take_line(const char *line)
{
    const char *words[4];
    size_t lengths[4];
    unsigned long number;
    line += strspn(line, blanks);
    if (!*line || *line == '#')
        return NULL;
    for (size_t i = 0; i < 4; i++) {
        lengths[i] = word_of(&line, &words[i]);
        if (!lengths[i])
            return "a time, a room, a call and an event are wanted";
    }
    if (!number_of(words[2], lengths[2], &number))
        return "the call is not a number of 9 digits at most";

    aoc_event event = aoc_event_of(phase_event_of(words[3], lengths[3]));
    uint8_t octets[AOC_LIMIT_ELEMENT_OCTETS];
    size_t n = 0;
    const char *dialled = NULL, *why = NULL;
    if (is_word(words[3], lengths[3], "setup")) {
        why = setup_of(line, &event, &dialled);
    } else if (is_word(words[3], lengths[3], "facility")) {
        if (!octets_of(line, octets, sizeof octets, &n) || !n)
            why = "not the octets of an element in hex, 257 at most";
    } else if (!event.kind && !is_word(words[3], lengths[3], "lost") && !is_word(words[3], lengths[3], "incoming")) {
        why = "no such event";
    } else if (line[strspn(line, blanks)]) {
        why = "something stands behind the event";
    }
    if (why)
        return why;

    const char *time = kept_part(words[0], lengths[0]), *name = kept_part(words[3], lengths[3]);
    struct call *call = call_of(kept_part(words[1], lengths[1]), number, event.kind, time);
    if (dialled)
        call->dialled = dialled;
    if (n)
        take_element(call, time, octets, n);
    else if (event.kind)
        take_phase_event(call, time, event, name);
    else if (!strcmp(name, "incoming"))
        call->incoming = true;
    else if (!call->released)
        leave(call);
    return NULL;
}

/* How many lines were not taken. */
static unsigned long take_input(void)
{
    unsigned long left = 0;
    const char *why;
    while (next_line(&why)) {
        if (!why)
            why = take_line(input.text);
        if (why) {
            put_place(notes, input.place);
            fprintf(notes, " is not taken: %s\n", why);
            left++;
        }
    }
    return left;
}

/* ------------------------------------------------------------------ what became of a call */

enum result { PRICED, FREE, NO_PRICE, RESULTS };
static const char *const result_names[] = {"priced", "free", "without a price"};

/* What a clerk has to know of a call: the library's reasons why it has no price, which come first, and the host's own. */
enum {
    FROM_OUTSIDE = REASONS,
    SETUP_LOST,
    CLEAR_LOST,
    RELEASE_LOST,
    END_LOST,
    BY_TRUNK,
    NEVER_CONNECTED,
    UNITS_MISSING,
    FINALS_DIFFER,
    TRUNK_TOO,
    ROOM_UNKNOWN,
    PART_REFUSED,
    NO_NEED,
    NEEDS
};

static const char ask[] = "ask the network for the charge, post it by hand";
static const char ask_figure[] = "ask the network if the figure holds, post it by hand";

/* What it is and what to do; and what to do where there is a figure. */
static const struct {
    const char *what, *to_do, *with_figure;
} needs[NEEDS] = {
    [AOC_REASON_OPEN] = {"still open", "nothing yet: the call goes on", NULL},
    [AOC_REASON_PASSED_OVER] = {"a figure was ignored or out of phase", "ask the network which figure holds, post it by hand", NULL},
    [AOC_REASON_NOT_AVAILABLE] = {"told not available", ask, NULL},
    [AOC_REASON_RUNNING] = {"only running figures", "post the last running figure by hand", NULL},
    [AOC_REASON_REFUSED] = {"a component was refused", "have an engineer explain the component; ask the network", NULL},
    [AOC_REASON_NOTHING] = {"nothing usable came in time", ask, NULL},
    [FROM_OUTSIDE] = {"a call from outside told a charge", ask, ask_figure},
    [SETUP_LOST] = {"no set-up of it was taken", ask, ask_figure},
    [CLEAR_LOST] = {"released, but its clear is lost", ask, ask_figure},
    [RELEASE_LOST] = {"cleared, but its release is lost", ask, ask_figure},
    [END_LOST] = {"its end is lost: no more comes of it", ask, ask_figure},
    [BY_TRUNK] = {"a trunk told the charge", ask, "post the trunk's figure by hand"},
    [NEVER_CONNECTED] = {"never connected, and no charge told", "nothing", NULL},
    [UNITS_MISSING] = {"units not available in the final", "ask the network for the missing units", NULL},
    [FINALS_DIFFER] = {"posted by the first final, another differs", "ask the network which one holds", NULL},
    [TRUNK_TOO] = {"posted, and a trunk told a charge too", "see whether both are of this call", NULL},
    [ROOM_UNKNOWN] = {"its room is not known", "find the room, post it there", NULL},
    [PART_REFUSED] = {"posted, but part of it was refused", "have an engineer see what was refused", "ask the network which figure holds"}};

/* All that is read off a call, in one place. */
struct end {
    aoc_closing closing;
    aoc_charge running;
    aoc_marks marks;
    aoc_pending pending;
    uint8_t phase;
    aoc_why_answer why;
    enum result result;
    size_t need;
    struct figure figure;       /* that the need speaks of */
};

/* How many octets an event has, from 0. */
static size_t octets_in(const struct call *call, size_t event)
{
    return call->rows[AOC_ROW_NUMBERS * event + AOC_ROW_NUMBERS - 1];
}

/* The charge that a component tells of the call, during it or at its end; none of any other component. */
static aoc_charge charge_told(const uint8_t *octets, size_t n)
{
    aoc_answer answer;
    bool told = aoc_read(octets, n, &answer) == AOC_ACCEPTED && answer.record.frame == AOC_FRAME_INVOKE &&
                answer.record.operation >= AOC_OPERATION_D_CURRENCY;
    return told ? answer.record.charge : aoc_fresh().running;
}

static struct figure figure_of(const char *name, aoc_charge charge)
{
    return (struct figure){charge.kind == AOC_CHARGE_NONE ? NULL : name, charge};
}

/* The figure of an event, from 1. */
static struct figure figure_of_event(const struct call *call, const char *name, size_t event)
{
    size_t from = 0;
    for (size_t i = 0; i + 1 < event; i++)
        from += octets_in(call, i);
    return figure_of(name, charge_told(call->octets + from, octets_in(call, event - 1)));
}

/* The last figure that any event told, refused or not; or the last one that was refused. */
static struct figure last_figure(const struct call *call, bool refused)
{
    aoc_charge last = aoc_fresh().running;
    size_t from = call->length;
    for (size_t i = call->events; i > 0 && last.kind == AOC_CHARGE_NONE; i--) {
        size_t n = octets_in(call, i - 1);
        from -= n;
        if (n && (!refused || aoc_is_refusal(call->outcomes[i - 1])))
            last = charge_told(call->octets + from, n);
    }
    return figure_of(refused ? "the last figure refused" : "the last figure told", last);
}

/* The first event with an outcome, from 1; 0 for none. */
static size_t event_with(const struct call *call, uint8_t outcome)
{
    for (size_t i = 0; i < call->events; i++)
        if (call->outcomes[i] == outcome)
            return i + 1;
    return 0;
}

/* Why a call without a price has none. */
static size_t need_without_price(const struct call *call, const struct end *end)
{
    bool clean = !call->refused && !call->malformed && !call->unread;
    if (end->phase == AOC_PHASE_ENDED) {
        if (call->trunk.name)
            return BY_TRUNK;
        return end->why.reason == AOC_REASON_NOTHING && !call->connected && clean ? NEVER_CONNECTED : end->why.reason;
    }
    if (end->phase == AOC_PHASE_IDLE)
        return call->incoming ? FROM_OUTSIDE : SETUP_LOST;
    if (end->phase == AOC_PHASE_CLEARING)
        return RELEASE_LOST;
    return call->over ? CLEAR_LOST : call->left ? END_LOST : AOC_REASON_OPEN;
}

static size_t need_with_price(const struct call *call, const struct end *end)
{
    for (size_t i = 0; end->closing.charge.kind == AOC_CHARGE_UNITS && i < end->closing.charge.count; i++)
        if (!aoc_unit_at(&end->closing.charge, i).known)
            return UNITS_MISSING;
    if (aoc_has_service(end->marks.conflict, AOC_SERVICE_D) || aoc_has_service(end->marks.conflict, AOC_SERVICE_E))
        return FINALS_DIFFER;
    return call->trunk.name ? TRUNK_TOO : *call->room == '?' ? ROOM_UNKNOWN : call->refused || call->malformed || call->unread ? PART_REFUSED : NO_NEED;
}

static struct figure figure_needed(const struct call *call, const struct end *end)
{
    switch (end->need) {
    case AOC_REASON_PASSED_OVER:
        return figure_of_event(call, "that figure", (size_t)end->why.event);
    case FROM_OUTSIDE:
    case SETUP_LOST:
    case CLEAR_LOST:
    case RELEASE_LOST:
    case END_LOST:
        return call->trunk.name ? call->trunk : last_figure(call, false);
    case FINALS_DIFFER:
        return figure_of_event(call, "the other final", event_with(call, AOC_OUTCOME_CONFLICT));
    case BY_TRUNK:
    case TRUNK_TOO:
        return call->trunk;
    case PART_REFUSED:
        return last_figure(call, true);
    default:
        return figure_of(end->result == NO_PRICE ? "last running figure" : NULL, end->running);
    }
}

static struct end end_of(const struct call *call)
{
    struct end end;
    aoc_account account = account_of(call);
    end.closing = call->closing;
    end.running = aoc_running_of(&account);
    end.marks = aoc_marks_of(&account);
    end.pending = aoc_pending_of(&account);
    end.phase = aoc_phase_of(&account);
    end.why = aoc_why(call->rows, AOC_ROW_NUMBERS * call->events, call->octets, call->length);
    end.result = end.closing.service == AOC_SERVICE_NONE ? NO_PRICE : end.closing.charge.kind == AOC_CHARGE_FREE ? FREE : PRICED;
    end.need = end.result == NO_PRICE ? need_without_price(call, &end) : need_with_price(call, &end);
    end.figure = figure_needed(call, &end);
    work += 4 * call->events;
    return end;
}

static const char *to_do(const struct end *end)
{
    return end->figure.name && needs[end->need].with_figure ? needs[end->need].with_figure : needs[end->need].to_do;
}

static bool is_lost(size_t need)
{
    return need == SETUP_LOST || need == CLEAR_LOST || need == RELEASE_LOST || need == END_LOST;
}

/* The first event with which the exchange broke a rule of charging: its number in the call's list, from 1, and its octets. */
struct evidence {
    uint32_t rule;              /* AOC_RULE_KEPT for none, and then the rest is 0 */
    size_t event, count;
    const uint8_t *octets;
};

static struct evidence evidence_of(const struct call *call)
{
    struct evidence evidence = {AOC_RULE_KEPT, 0, 0, call->octets};
    size_t numbers = AOC_ROW_NUMBERS * call->events, rows_room = 0, octets_room = 0;
    uint16_t *rows = grown(NULL, 0, numbers + 1, &rows_room, sizeof *rows);
    uint8_t *octets = grown(NULL, 0, call->length + 1, &octets_room, 1);
    aoc_fault_answer fault =
        aoc_fault_of_accepted(call->rows, numbers, call->octets, call->length, rows, numbers, octets, call->length);
    evidence.rule = fault.rule;
    for (; evidence.event < fault.event; evidence.event++) {
        evidence.octets += evidence.count;
        evidence.count = octets_in(call, evidence.event);
    }
    work += 3 * call->events;
    free(rows);
    free(octets);
    return evidence;
}

/* ------------------------------------------------------------------ sums */

/* Of a room, or of the house: an amount in one currency, in thousandths, or units of one type. */
struct sum {
    const char *room;           /* null for the house */
    bool units;
    uint8_t type;               /* of units, 0 for none */
    aoc_currency currency;      /* of money, without the spaces at its end: they make no other currency */
    uint64_t total;
    unsigned long calls;
    const struct call *last;    /* that was added, so that a call counts once */
};

struct sums {
    struct sum *at;
    struct table keys;
    size_t room;
};

/* Of a currency that is all spaces one is left: that of no octets is a private network's own. */
static aoc_currency trimmed(aoc_currency currency)
{
    while (currency.count > 1 && currency.octets[currency.count - 1] == ' ')
        currency.octets[--currency.count] = 0;
    return currency;
}

static void add(struct sums *sums, const struct call *call, struct sum part)
{
    unsigned char key[sizeof part.room + 2 + sizeof part.currency];
    memcpy(key, &part.room, sizeof part.room);
    key[sizeof part.room] = part.units;
    key[sizeof part.room + 1] = part.type;
    memcpy(key + sizeof part.room + 2, &part.currency, sizeof part.currency);
    size_t before = sums->keys.count, i = number_of_key(&sums->keys, key, sizeof key);
    sums->at = grown(sums->at, i, 1, &sums->room, sizeof *sums->at);
    struct sum *sum = &sums->at[i];
    if (sums->keys.count > before) {
        *sum = part;
        sum->total = 0;
    }
    if (part.total > UINT64_MAX - sum->total)
        give_up("a sum is too large");
    sum->total += part.total;
    sum->calls += sum->last != call;
    sum->last = call;
}

/* Adds a closing figure to the sums of a room, or of the house where the room is null. */
static void add_charge(struct sums *sums, const char *room, const struct call *call, const aoc_charge *charge)
{
    struct sum part = {room, false, 0, trimmed(charge->money.currency), 0, 0, NULL};
    if (charge->kind == AOC_CHARGE_MONEY) {
        part.total = aoc_thousandths(charge->money.number, charge->money.multiplier);
        add(sums, call, part);
    }
    for (size_t i = 0; charge->kind == AOC_CHARGE_UNITS && i < charge->count; i++) {
        aoc_unit_entry unit = aoc_unit_at(charge, i);
        part.units = true;
        part.type = unit.type;
        part.total = unit.number;
        if (unit.known)
            add(sums, call, part);
    }
}

/* The night in numbers. */
struct totals {
    struct sums rooms, house;
    unsigned long results[RESULTS];
    unsigned long needs[NEEDS];         /* of the calls without a price */
};

static struct end *ends;        /* of each call */

static struct totals totals_of(void)
{
    struct totals totals;
    memset(&totals, 0, sizeof totals);
    ends = room_for(count, sizeof *ends);
    for (size_t i = 0; i < count; i++) {
        struct end *end = &ends[i];
        *end = end_of(calls[i]);
        totals.results[end->result]++;
        totals.needs[end->need] += end->result == NO_PRICE;
        something_wrong = something_wrong || is_lost(end->need);
        add_charge(&totals.rooms, calls[i]->room, calls[i], &end->closing.charge);
        add_charge(&totals.house, NULL, calls[i], &end->closing.charge);
    }
    return totals;
}

/* ------------------------------------------------------------------ the morning's report */

enum { NUMBER = 24, CURRENCY_TEXT = 16, HEX = 3 * AOC_LIMIT_ELEMENT_OCTETS };    /* room for the text of a number, a currency, octets */

static void hex_text(char *text, const uint8_t *octets, size_t n)
{
    size_t length = 0;
    *text = 0;
    for (size_t i = 0; i < n && length + 3 < HEX; i++)
        length += (size_t)snprintf(text + length, HEX - length, "%s%02X", i ? " " : "", octets[i]);
}

static void currency_text(char *text, const aoc_currency *currency)
{
    aoc_print_currency(text, CURRENCY_TEXT, currency);
}

static void amount_text(char *text, uint64_t thousandths)
{
    snprintf(text, NUMBER, "%llu.%03u", (unsigned long long)(thousandths / 1000), (unsigned)(thousandths % 1000));
}

/* The order of two names as a person has them: what is digits in both goes by its number. */
static int by_name(const char *a, const char *b)
{
    const char *p = a, *q = b;
    while (*p && *q) {
        size_t m = strspn(p, "0123456789"), n = strspn(q, "0123456789"), zeros;
        if (!m || !n) {
            if (*p != *q)
                return (unsigned char)*p < (unsigned char)*q ? -1 : 1;
            p++, q++;
            continue;
        }
        zeros = strspn(p, "0");
        zeros = zeros < m ? zeros : m - 1;
        p += zeros, m -= zeros;
        zeros = strspn(q, "0");
        zeros = zeros < n ? zeros : n - 1;
        q += zeros, n -= zeros;
        int order = m != n ? (m < n ? -1 : 1) : memcmp(p, q, m);
        if (order)
            return order;
        p += m, q += n;
    }
    return *p ? 1 : *q ? -1 : strcmp(a, b);
}

static int by_room(const void *a, const void *b)
{
    const struct call *p = *(struct call *const *)a, *q = *(struct call *const *)b;
    int order = by_name(p->room, q->room);
    work++;
    if (order || p->number != q->number)
        return order ? order : p->number < q->number ? -1 : 1;
    return p->order < q->order ? -1 : p->order > q->order;
}

/* How wide the names of rooms and the numbers of calls are printed. */
static int room_width = 5, number_width = 4;

static void find_widths(void)
{
    for (size_t i = 0; i < count; i++) {
        int room = (int)strlen(calls[i]->room), number = snprintf(NULL, 0, "%lu", calls[i]->number);
        room_width = room > room_width ? room : room_width;
        number_width = number > number_width ? number : number_width;
    }
}

static void print_call(const struct call *call)
{
    printf("  room %-*s call %-*lu ", room_width, call->room, number_width, call->number);
}

/* The room that print_call takes, left free. */
static void print_indent(void)
{
    printf("%*s", 14 + room_width + number_width, "");
}

static void print_charge(const aoc_charge *charge)
{
    char text[AOC_LIMIT_CHARGE_TEXT];
    aoc_print_charge(text, sizeof text, charge);
    fputs(text, stdout);
}

/* When a call began: its first event that was not refused, if there is one. */
static const char *begun_at(const struct call *call)
{
    for (size_t i = 0; i < call->events; i++)
        if (!aoc_is_refusal(call->outcomes[i]))
            return call->times[i];
    return call->events ? call->times[0] : NULL;
}

/* What else was told of a call. */
static void print_numbers(const struct call *call)
{
    if (call->dialled)
        printf(", dialled %s", call->dialled);
    if (call->taken_up)
        printf(", taken up in room %s at %s", call->taken_up, call->taken_up_at);
}

static void print_postings(void)
{
    puts("To post");
    for (size_t i = 0; i < count; i++) {
        if (ends[i].result == NO_PRICE)
            continue;
        print_call(calls[i]);
        printf("%s to %s  ", begun_at(calls[i]), calls[i]->times[calls[i]->released - 1]);
        print_charge(&ends[i].closing.charge);
        print_numbers(calls[i]);
        puts("");
    }
}

static void print_services(const char *text, aoc_services set)
{
    static const char names[] = " SDE";
    int any = 0;
    for (uint8_t service = AOC_SERVICE_S; service <= AOC_SERVICE_E; service++)
        if (aoc_has_service(set, service))
            printf("%s %c", any++ ? "," : text, names[service]);
}

static void print_figure(const char *name, const aoc_charge *charge)
{
    printf(", %s ", name);
    print_charge(charge);
}

/* How many events were refused, and the first of them. */
static void print_refused(const struct call *call)
{
    if (call->malformed)
        printf(", %lu malformed element%s", (unsigned long)call->malformed, call->malformed == 1 ? "" : "s");
    if (call->unread)
        printf(", %lu component%s of a trunk refused", (unsigned long)call->unread, call->unread == 1 ? "" : "s");
    if (!call->refused)
        return;
    size_t first = 0;
    while (!aoc_is_refusal(call->outcomes[first]))
        first++;
    printf(", %lu event%s refused, the first %s at %s: %s", (unsigned long)call->refused, call->refused == 1 ? "" : "s",
           aoc_event_text(call->rows[AOC_ROW_NUMBERS * first]), call->times[first], aoc_refusal_text(call->outcomes[first]));
}

/* What the account and the list know beside the reason. */
static void print_details(const struct call *call, const struct end *end)
{
    bool of_running = !memcmp(&end->figure.charge, &end->running, sizeof end->running);
    print_indent();
    printf("%s", aoc_phase_text(end->phase));
    print_services(", finals that differ:", end->marks.conflict);
    if (end->result == NO_PRICE) {
        if (end->why.event)
            printf(", event %lu at %s", (unsigned long)end->why.event, call->times[end->why.event - 1]);
        print_services(", not available:", end->marks.absent);
        print_services(", request not answered:", end->pending.asked);
    }
    if (end->figure.name)
        print_figure(end->figure.name, &end->figure.charge);
    if (end->result == NO_PRICE && end->running.kind != AOC_CHARGE_NONE && !of_running)
        print_figure("last running figure", &end->running);
    print_refused(call);
    print_numbers(call);
    puts("");
}

static void print_needs(void)
{
    puts("For the clerk");
    for (size_t i = 0; i < count; i++) {
        if (ends[i].need == NO_NEED || ends[i].need == NEVER_CONNECTED)
            continue;
        print_call(calls[i]);
        printf("%-43s %s\n", needs[ends[i].need].what, to_do(&ends[i]));
        print_details(calls[i], &ends[i]);
    }
}

static void print_evidence(void)
{
    const char *head = "For the operator\n";
    for (size_t i = 0; i < count; i++) {
        struct evidence evidence = evidence_of(calls[i]);
        if (evidence.rule == AOC_RULE_KEPT)
            continue;
        fputs(head, stdout);
        head = "";
        print_call(calls[i]);
        printf("event %lu at %s: %s\n", (unsigned long)evidence.event, calls[i]->times[evidence.event - 1],
               aoc_rule_text(evidence.rule));
        print_indent();
        put_octets(stdout, evidence.octets, evidence.count);
        puts("");
    }
}

static void print_sums(const char *head, const struct sums *sums)
{
    puts(head);
    for (size_t i = 0; i < sums->keys.count; i++) {
        const struct sum *sum = &sums->at[i];
        char currency[CURRENCY_TEXT], amount[NUMBER];
        fputs("  ", stdout);
        if (sum->room)
            printf("room %-*s ", room_width, sum->room);
        currency_text(currency, &sum->currency);
        amount_text(amount, sum->total);
        if (!sum->units)
            printf("%s%s%s", currency, *currency ? " " : "", amount);
        else
            printf("%llu unit%s", (unsigned long long)sum->total, sum->total == 1 ? "" : "s");
        if (sum->type)
            printf(" of type %u", sum->type);
        printf(" in %lu call%s\n", sum->calls, sum->calls == 1 ? "" : "s");
    }
}

static void print_counts(const struct totals *totals)
{
    printf("Calls: %lu\n", (unsigned long)count);
    for (int result = PRICED; result < RESULTS; result++)
        printf("  %lu %s\n", totals->results[result], result_names[result]);
    for (size_t need = 0; need < NEEDS; need++)
        if (totals->needs[need])
            printf("    %lu %s\n", totals->needs[need], needs[need].what);
}

static void print_report(const struct totals *totals)
{
    find_widths();
    print_postings();
    print_needs();
    print_evidence();
    print_sums("By room", &totals->rooms);
    print_sums("By currency", &totals->house);
    print_counts(totals);
}

/* ------------------------------------------------------------------ the same for an audit system */

/* A row is a call, an entry of its list of units, an event of it that was refused, the evidence of a broken rule, a sum of a room, a
 * sum of the house, or how many calls had a result. The figure of a call is one that the clerk may have to post by hand. */
enum {
    ROW, ROOM, CALL, BEGUN, ENDED, RESULT, CHARGE, CURRENCY, AMOUNT, UNITS, TYPE, CALLS, REASON, EVENT, AT, TO_DO, OCTETS,
    FIGURE, FIGURE_CURRENCY, FIGURE_AMOUNT, DIALLED, TAKEN_UP, COLUMNS
};
static const char *const heads[COLUMNS] = {"row", "room", "call", "begun", "ended", "result", "charge", "currency", "amount",
                                           "units", "unit type", "calls", "reason", "event", "at", "to do", "octets",
                                           "figure", "figure currency", "figure amount", "dialled", "taken up in"};

static void csv(const char *const *cells, int columns)
{
    for (int i = 0; i < columns; i++) {
        const char *cell = cells[i] ? cells[i] : "";
        bool quoted = cell[strcspn(cell, "\",")] != 0;
        fputs(i ? "," : "", stdout);
        fputs(quoted ? "\"" : "", stdout);
        for (; *cell; cell++) {
            if (*cell == '"')
                putchar('"');
            putchar(*cell);
        }
        fputs(quoted ? "\"" : "", stdout);
    }
    puts("");
}

static void csv_units(const struct call *call, const char *number, const aoc_charge *charge)
{
    for (size_t i = 0; charge->kind == AOC_CHARGE_UNITS && i < charge->count; i++) {
        char units[NUMBER], type[NUMBER];
        aoc_unit_entry unit = aoc_unit_at(charge, i);
        const char *cells[COLUMNS] = {[ROW] = "unit", [ROOM] = call->room, [CALL] = number, [TYPE] = type};
        snprintf(units, sizeof units, "%lu", (unsigned long)unit.number);
        snprintf(type, sizeof type, "%u", unit.type);
        cells[UNITS] = unit.known ? units : "not available";
        csv(cells, COLUMNS);
    }
}

static void csv_evidence(const struct call *call, const char *number)
{
    struct evidence evidence = evidence_of(call);
    char event[NUMBER], hex[HEX];
    const char *cells[COLUMNS] = {[ROW] = "evidence", [ROOM] = call->room, [CALL] = number, [EVENT] = event,
                                  [TO_DO] = "send it to the operator", [OCTETS] = hex};
    if (evidence.rule == AOC_RULE_KEPT)
        return;
    snprintf(event, sizeof event, "%lu", (unsigned long)evidence.event);
    hex_text(hex, evidence.octets, evidence.count);
    cells[REASON] = aoc_rule_text(evidence.rule);
    cells[AT] = call->times[evidence.event - 1];
    csv(cells, COLUMNS);
}

static void csv_refused(const struct call *call, const char *number)
{
    for (size_t i = 0, from = 0; !call->incoming && i < call->events; from += octets_in(call, i++)) {
        char event[NUMBER], hex[HEX];
        const char *cells[COLUMNS] = {[ROW] = "refused", [ROOM] = call->room, [CALL] = number, [EVENT] = event, [AT] = call->times[i],
                                      [RESULT] = aoc_event_text(call->rows[AOC_ROW_NUMBERS * i]), [OCTETS] = hex};
        if (!aoc_is_refusal(call->outcomes[i]))
            continue;
        snprintf(event, sizeof event, "%lu", (unsigned long)i + 1);
        hex_text(hex, call->octets + from, octets_in(call, i));
        cells[REASON] = aoc_refusal_text(call->outcomes[i]);
        csv(cells, COLUMNS);
    }
}

/* The cells of an amount: of money alone. */
static void money_cells(const char **cells, int currency, int amount, char *currency_cell, char *amount_cell, const aoc_charge *charge)
{
    if (charge->kind != AOC_CHARGE_MONEY)
        return;
    currency_text(currency_cell, &charge->money.currency);
    amount_text(amount_cell, aoc_thousandths(charge->money.number, charge->money.multiplier));
    cells[currency] = currency_cell;
    cells[amount] = amount_cell;
}

static void csv_call(const struct call *call, const struct end *end)
{
    char number[NUMBER], event[NUMBER], text[AOC_LIMIT_CHARGE_TEXT], currency[CURRENCY_TEXT], amount[NUMBER];
    char figure[AOC_LIMIT_CHARGE_TEXT], figure_currency[CURRENCY_TEXT], figure_amount[NUMBER];
    const char *cells[COLUMNS] = {[ROW] = "call", [ROOM] = call->room, [CALL] = number, [RESULT] = result_names[end->result],
                                  [REASON] = needs[end->need].what, [TO_DO] = to_do(end), [DIALLED] = call->dialled,
                                  [TAKEN_UP] = call->taken_up};
    snprintf(number, sizeof number, "%lu", call->number);
    cells[BEGUN] = begun_at(call);
    if (call->released)
        cells[ENDED] = call->times[call->released - 1];
    if (end->result != NO_PRICE) {
        aoc_print_charge(text, sizeof text, &end->closing.charge);
        cells[CHARGE] = text;
    } else if (end->why.event) {
        snprintf(event, sizeof event, "%lu", (unsigned long)end->why.event);
        cells[EVENT] = event;
        cells[AT] = call->times[end->why.event - 1];
    }
    money_cells(cells, CURRENCY, AMOUNT, currency, amount, &end->closing.charge);
    if (end->figure.name) {
        aoc_print_charge(figure, sizeof figure, &end->figure.charge);
        cells[FIGURE] = figure;
        money_cells(cells, FIGURE_CURRENCY, FIGURE_AMOUNT, figure_currency, figure_amount, &end->figure.charge);
    }
    csv(cells, COLUMNS);
    csv_units(call, number, &end->closing.charge);
    csv_refused(call, number);
    csv_evidence(call, number);
}

static void csv_sums(const char *row, const struct sums *sums)
{
    for (size_t i = 0; i < sums->keys.count; i++) {
        const struct sum *sum = &sums->at[i];
        char currency[CURRENCY_TEXT], amount[NUMBER], type[NUMBER], number[NUMBER];
        const char *cells[COLUMNS] = {[ROW] = row, [ROOM] = sum->room, [CALLS] = number};
        currency_text(currency, &sum->currency);
        amount_text(amount, sum->total);
        snprintf(type, sizeof type, "%u", sum->type);
        snprintf(number, sizeof number, "%lu", sum->calls);
        if (sum->units)
            snprintf(amount, sizeof amount, "%llu", (unsigned long long)sum->total);
        cells[sum->units ? UNITS : AMOUNT] = amount;
        cells[sum->units ? TYPE : CURRENCY] = sum->units ? type : currency;
        csv(cells, COLUMNS);
    }
}

static void csv_count(const char *result, const char *reason, unsigned long calls_of_it)
{
    char number[NUMBER];
    const char *cells[COLUMNS] = {[ROW] = "count", [RESULT] = result, [CALLS] = number, [REASON] = reason};
    snprintf(number, sizeof number, "%lu", calls_of_it);
    csv(cells, COLUMNS);
}

static void csv_report(const struct totals *totals)
{
    csv(heads, COLUMNS);
    for (size_t i = 0; i < count; i++)
        csv_call(calls[i], &ends[i]);
    csv_sums("room", &totals->rooms);
    csv_sums("house", &totals->house);
    for (int result = PRICED; result < RESULTS; result++)
        csv_count(result_names[result], NULL, totals->results[result]);
    for (size_t need = 0; need < NEEDS; need++)
        if (totals->needs[need])
            csv_count(result_names[NO_PRICE], needs[need].what, totals->needs[need]);
}

/* ------------------------------------------------------------------ the month */

/* The words of a place of the month's table. */
static const char *place_text(uint32_t billing)
{
    return billing == AOC_MONTH_NOT_BILLED ? "no billing told" : aoc_billing_text(billing);
}

static const char *plural(uint64_t number, const char *one, const char *more)
{
    return number == 1 ? one : more;
}

static void print_month_sums(void)
{
    printf("The month: %lu figure%s\n", (unsigned long)month.added, plural(month.added, "", "s"));
    for (size_t i = 0; i < aoc_month_rows(&month); i++) {
        char currency[CURRENCY_TEXT], amount[NUMBER];
        aoc_month_currency row = aoc_month_row(&month, i);
        currency_text(currency, &row.currency);
        amount_text(amount, row.sum);
        printf("  %s%s%s in %lu call%s\n", currency, *currency ? " " : "", amount, (unsigned long)row.calls, plural(row.calls, "", "s"));
    }
    for (size_t type = 0; type < AOC_MONTH_TYPES; type++) {
        uint64_t units = aoc_month_units(&month, type);
        if (!units)
            continue;
        printf("  %llu unit%s", (unsigned long long)units, plural(units, "", "s"));
        if (type)
            printf(" of type %lu", (unsigned long)type);
        puts("");
    }
    printf("  %lu entr%s of units not available, in no sum\n", (unsigned long)month.absent, plural(month.absent, "y", "ies"));
    printf("  %lu free call%s\n", (unsigned long)month.free_calls, plural(month.free_calls, "", "s"));
}

static void print_month(const struct totals *totals)
{
    print_month_sums();
    printf("%-40s%16s%16s\n", "Figures by billing", "during the call", "at the end");
    for (uint32_t billing = 0; billing < AOC_MONTH_BILLINGS; billing++)
        printf("  %-38s%16lu%16lu\n", place_text(billing), (unsigned long)aoc_month_place(&month, AOC_SERVICE_D, billing),
               (unsigned long)aoc_month_place(&month, AOC_SERVICE_E, billing));
    print_counts(totals);
    for (uint32_t refusal = 0; refusal <= AOC_REFUSED_CURRENCIES_FULL; refusal++)
        if (not_added[refusal])
            printf("  %lu not added to the month: %s\n", not_added[refusal], aoc_refusal_text(refusal));
}

/* A row is a currency, a type of units, a place of the table, or how many there were of something. */
enum {
    MONTH_ROW,
    MONTH_CURRENCY,
    MONTH_AMOUNT,
    MONTH_UNITS,
    MONTH_TYPE,
    MONTH_SERVICE,
    MONTH_BILLING,
    MONTH_REASON,
    MONTH_COUNT,
    MONTH_COLUMNS
};
static const char *const month_heads[MONTH_COLUMNS] = {"row", "currency", "amount", "units", "unit type",
                                                       "service", "billing", "reason", "count"};

static void csv_month_count(const char *row, const char *reason, unsigned long number)
{
    char text[NUMBER];
    const char *cells[MONTH_COLUMNS] = {[MONTH_ROW] = row, [MONTH_REASON] = reason, [MONTH_COUNT] = text};
    snprintf(text, sizeof text, "%lu", number);
    csv(cells, MONTH_COLUMNS);
}

static void csv_month_sums(void)
{
    char currency[CURRENCY_TEXT], amount[NUMBER], number[NUMBER];
    for (size_t i = 0; i < aoc_month_rows(&month); i++) {
        aoc_month_currency row = aoc_month_row(&month, i);
        const char *cells[MONTH_COLUMNS] = {[MONTH_ROW] = "currency", [MONTH_CURRENCY] = currency, [MONTH_AMOUNT] = amount,
                                            [MONTH_COUNT] = number};
        currency_text(currency, &row.currency);
        amount_text(amount, row.sum);
        snprintf(number, sizeof number, "%lu", (unsigned long)row.calls);
        csv(cells, MONTH_COLUMNS);
    }
    for (size_t type = 0; type < AOC_MONTH_TYPES; type++) {
        const char *cells[MONTH_COLUMNS] = {[MONTH_ROW] = "units", [MONTH_UNITS] = amount, [MONTH_TYPE] = number};
        snprintf(amount, sizeof amount, "%llu", (unsigned long long)aoc_month_units(&month, type));
        snprintf(number, sizeof number, "%lu", (unsigned long)type);
        if (aoc_month_units(&month, type))
            csv(cells, MONTH_COLUMNS);
    }
}

static void csv_month_table(void)
{
    static const char *const services[] = {[AOC_SERVICE_D] = "D", [AOC_SERVICE_E] = "E"};
    for (uint32_t service = AOC_SERVICE_D; service <= AOC_SERVICE_E; service++)
        for (uint32_t billing = 0; billing < AOC_MONTH_BILLINGS; billing++) {
            char number[NUMBER];
            const char *cells[MONTH_COLUMNS] = {[MONTH_ROW] = "figures", [MONTH_SERVICE] = services[service],
                                                [MONTH_BILLING] = place_text(billing), [MONTH_COUNT] = number};
            snprintf(number, sizeof number, "%lu", (unsigned long)aoc_month_place(&month, service, billing));
            csv(cells, MONTH_COLUMNS);
        }
}

static void csv_month(const struct totals *totals)
{
    csv(month_heads, MONTH_COLUMNS);
    csv_month_count("month", NULL, month.added);
    csv_month_sums();
    csv_month_count("units not available", NULL, month.absent);
    csv_month_count("free calls", NULL, month.free_calls);
    csv_month_table();
    csv_month_count("calls", NULL, (unsigned long)count);
    for (int result = PRICED; result < RESULTS; result++)
        csv_month_count(result_names[result], NULL, totals->results[result]);
    for (size_t need = 0; need < NEEDS; need++)
        if (totals->needs[need])
            csv_month_count(result_names[NO_PRICE], needs[need].what, totals->needs[need]);
    for (uint32_t refusal = 0; refusal <= AOC_REFUSED_CURRENCIES_FULL; refusal++)
        if (not_added[refusal])
            csv_month_count("not added", aoc_refusal_text(refusal), not_added[refusal]);
}

static const char help[] =
    "usage: night [--month] [--csv] [FILE..]\n"
    "\n"
    "A night's events of a house's calls, from FILE.. or standard input: what to post to each room, which calls need a\n"
    "clerk and what to do about each, where the exchange broke a rule, and the sums.\n"
    "  --month   the figures of a month's nights instead\n"
    "  --csv     the same as comma-separated values\n"
    "A line is: time, room, call, event. Events: setup [S] [D] [E] [to NUMBER], connect, suspend, resume, clear, released,\n"
    "lost, incoming, facility OCTETS. replay --night makes such lines of a log of messages.\n"
    "Status: 0; 1 where a line was not taken, something was refused or lost, or could not be read or written; 2 for usage.\n";

static bool option(const char *text)
{
    bool *of = !strcmp(text, "--csv") ? &as_csv : !strcmp(text, "--month") ? &monthly : NULL;
    if (!of || *of)
        return false;
    return *of = true;
}

int main(int arguments, char **argument)
{
    take_arguments("night", help, arguments, argument, option);
    month = aoc_month_empty();
    notes = as_csv ? stderr : stdout;
    unsigned long left = take_input();
    if (count)
        qsort(calls, count, sizeof *calls, by_room);
    struct totals totals = totals_of();
    if (as_csv)
        (monthly ? csv_month : csv_report)(&totals);
    else
        (monthly ? print_month : print_report)(&totals);
    if (left)
        fprintf(notes, "%lu line%s not taken: the report lacks what they tell\n", left, left == 1 ? " was" : "s were");
    something_wrong = something_wrong || left;
    return ended();
}
