/* For support: a log of layer 3 messages, one a line, told as a person follows each call: the messages, the events that they give,
 * each event's outcome, the account after it, and at the end the figure to post or why there is none, and whether the exchange kept
 * the rules of charging: if not, the event that broke one, with its octets, as evidence for the operator.
 * With --night the log becomes the events that night takes, each call with its room and the number dialled.
 *
 * A line: a time or any other text, which is shown as it is and may be left out; `u` for the user or `n` for the network; the
 * octets in hex, together or parted by spaces, colons, commas or hyphens, 0x in front of them or not. An empty line and one that
 * begins with # are passed over. Any other line is named with its number. The text ahead of `u` or `n` may have the words `line NAME` and
 * `tei NUMBER`, as tools/trace writes them: calls of other lines and terminals are other calls.
 *
 * A call is known by its reference, by who began it, and by its line and terminal. Each side numbers its own calls, and the reference's flag
 * is 0 in what the side sends that began the call: so a network's message with the flag 0, or a user's with 1, is of a call that the network began.
 * A SETUP begins another call once the last one with its key was connected or cleared, also where its release is missing from the log.
 * A call that is parked and taken up under another reference, by its call identity, is one call.
 *
 * What it tells comes from the library; its words are tested by tests/replay.sh and not proved. The account's answers are told; the plain
 * engine is asked at the end of each call, as a check.
 * Status: 0; 1 where a line or an event was refused, part of a call is missing from the log, or something could not be read or written; 2 for
 * usage. */
#include "common.h"

enum { NO_REFERENCE = 32768, NO_TERMINAL = -1, BROADCAST = 127 };

struct message {
    struct place place;
    uint32_t direction;
    const char *head, *time;    /* what stands ahead of the direction; and that without its line and terminal */
    const char *line;           /* the line's name, or null */
    int terminal;
    uint8_t *octets;
    size_t length;
    /* its events, as the library finds them in it alone: rows, and the octets of its components */
    uint16_t *rows;
    uint8_t *components;
    size_t events;
    size_t call;
    size_t next;                /* one more than the number of the call's next message; 0 for none */
};

struct call {
    uint32_t reference;         /* NO_REFERENCE where the messages have none */
    bool of_network;
    const char *line;
    int terminal;
    size_t first, last;         /* messages */
    size_t messages, length;
    bool begun;                 /* its first message is the SETUP */
    bool connected, cleared;
    bool ended;                 /* a RELEASE COMPLETE came */
    bool replaced;              /* another call has its key, and it did not end */
    size_t replaces;            /* one more than the call that had its key and did not end; 0 for none */
    bool resumed;               /* under another reference */
    const char *identity;       /* with which it was parked */
    const char *calling, *dialled;      /* numbers, or null */
};

static struct message *messages;
static struct call *calls;
static size_t message_count, messages_room, call_count, calls_room;
static bool as_night, with_rooms;

/* Neither the network's, nor of messages that are of no call: without a reference, or with the global one. */
static bool of_user(const struct call *call)
{
    return !call->of_network && call->reference != NO_REFERENCE && call->reference != 0;
}

static uint8_t type_of(const struct message *m)
{
    return m->octets[2 + m->octets[1]];
}

static bool is_clearing(uint8_t type)
{
    return type == MESSAGE_DISCONNECT || type == MESSAGE_RELEASE || type == MESSAGE_RELEASE_COMPLETE;
}

/* ------------------------------------------------------------------ the log */

/* The octets of a hex text in any usual spelling, or -1. */
static long unhex(const char *text, uint8_t *to)
{
    long n = 0;
    while (*text) {
        if (strchr(" \t\r:,-", *text)) {
            text++;
        } else if (text[0] == '0' && (text[1] == 'x' || text[1] == 'X')) {
            text += 2;
        } else if (digit(text[0]) >= 0 && digit(text[1]) >= 0) {
            to[n++] = (uint8_t)(digit(text[0]) << 4 | digit(text[1]));
            text += 2;
        } else {
            return -1;
        }
    }
    return n;
}

/* Where the direction stands: a word of one letter. */
static const char *direction_in(const char *line)
{
    for (const char *at = line; *at; at++)
        if (strchr("uUnN", *at) && (at == line || strchr(" \t", at[-1])) && at[1] && strchr(" \t", at[1]))
            return at;
    return NULL;
}

static bool is_word(const char *word, size_t n, const char *text)
{
    for (size_t i = 0; i < n; i++)
        if ((word[i] | 0x20) != text[i])
            return false;
    return !text[n];
}

/* Reads the line and the terminal off the head of a message; what is left of it is its time, as one word. */
static void read_head(struct message *m)
{
    char *time = room_for(strlen(m->head) + 1, 1);
    size_t n = 0;
    for (const char *at = m->head; *(at += strspn(at, " \t")); ) {
        size_t word = strcspn(at, " \t"), gap = strspn(at + word, " \t");
        const char *value = at + word + gap;
        size_t length = strcspn(value, " \t"), digits = strspn(value, "0123456789");
        bool of_terminal = is_word(at, word, "tei") && digits && digits == length && digits < 4;
        bool of_line = is_word(at, word, "line") && length && !strchr(":,;", value[length - 1]);
        if (of_terminal)
            m->terminal = atoi(value);
        if (of_line)
            m->line = kept_part(value, length);
        if (!of_terminal && !of_line) {
            if (n)
                time[n++] = '_';
            memcpy(time + n, at, word);
            n += word;
        }
        at = of_terminal || of_line ? value + length : at + word;
    }
    m->time = n ? kept_part(time, n) : "-";
    free(time);
}

static void no_message(const char *line)
{
    FILE *to = as_night ? stderr : stdout;
    put_place(to, input.place);
    fprintf(to, " is no message: %s\n", line);
    something_wrong = true;
}

/* Which call a message is of; the messages of a call are chained. */
static size_t call_of(const struct message *m);

static void take(const char *line)
{
    static uint8_t *octets, *components;
    static uint16_t *rows;
    static size_t octets_room, components_room, rows_room;
    const char *at = direction_in(line);
    size_t most = strlen(line);
    octets = grown(octets, 0, most, &octets_room, 1);
    long n = at ? unhex(at + 2, octets) : -1;
    if (n < 0) {
        no_message(line);
        return;
    }
    struct message m = {.place = input.place, .direction = *at == 'n' || *at == 'N' ? AOC_FROM_NETWORK : AOC_FROM_USER,
                        .terminal = NO_TERMINAL, .length = (size_t)n};
    uint32_t pair[AOC_PAIR_NUMBERS] = {(uint32_t)n, m.direction};
    components = grown(components, 0, m.length, &components_room, 1);
    rows = grown(rows, 0, AOC_ROW_NUMBERS * m.length, &rows_room, sizeof *rows);
    aoc_trace_answer found = aoc_trace_events(pair, AOC_PAIR_NUMBERS, octets, m.length, rows, AOC_ROW_NUMBERS * m.length, components, m.length);
    if (found.refusal != AOC_ACCEPTED) {
        FILE *to = as_night ? stderr : stdout;
        put_place(to, m.place);
        fprintf(to, ": refused %u, %s: %s\n", (unsigned)found.refusal, aoc_refusal_text((uint32_t)found.refusal), line);
        something_wrong = true;
        return;
    }
    while (at > line && strchr(" \t", at[-1]))
        at--;
    m.head = kept_part(line, (size_t)(at - line));
    read_head(&m);
    m.octets = memcpy(room_for(m.length, 1), octets, m.length);
    m.events = (size_t)found.events;
    m.rows = memcpy(room_for(AOC_ROW_NUMBERS * m.events, sizeof *rows), rows, AOC_ROW_NUMBERS * m.events * sizeof *rows);
    m.components = memcpy(room_for((size_t)found.octets, 1), components, (size_t)found.octets);
    messages = grown(messages, message_count, 1, &messages_room, sizeof *messages);
    m.call = call_of(&m);
    messages[message_count++] = m;
}

/* ------------------------------------------------------------------ which call */

/* The call reference without its flag, of a message that is framed. */
static uint32_t reference_of(const uint8_t *octets)
{
    if (octets[1] == 0)
        return NO_REFERENCE;
    return octets[1] == 1 ? octets[2] & 0x7Fu : (octets[2] & 0x7Fu) << 8 | octets[3];
}

static bool is_of_network(const struct message *m)
{
    bool flag = m->octets[1] && (m->octets[2] & 0x80);
    return m->octets[1] && flag == (m->direction == AOC_FROM_USER);
}

/* The place of one more than the last call with a key; 0 where there was none. */
static size_t *last_call(const struct message *m, int terminal)
{
    static struct table keys;
    static size_t *last, last_room;
    struct {
        const char *line;
        uint64_t terminal, of_network, reference;
    } key = {m->line, (uint64_t)terminal, is_of_network(m), reference_of(m->octets)};
    size_t before = keys.count, i = number_of_key(&keys, &key, sizeof key);
    last = grown(last, i, 1, &last_room, sizeof *last);
    if (keys.count > before)
        last[i] = 0;
    return &last[i];
}

/* The same of the calls that were parked with an identity. */
static size_t *last_parked(const struct message *m, const char *identity)
{
    static struct table keys;
    static size_t *last, last_room;
    struct {
        const char *line, *identity;
    } key = {m->line, identity};
    size_t before = keys.count, i = number_of_key(&keys, &key, sizeof key);
    last = grown(last, i, 1, &last_room, sizeof *last);
    if (keys.count > before)
        last[i] = 0;
    return &last[i];
}

/* The contents of the first element of a kind, under no shift; their length is -1 where there is none. */
static const uint8_t *element_of(const struct message *m, uint8_t kind, long *length)
{
    struct element element = {0, first_element(m->octets, m->length), false};
    while (next_element(m->octets, m->length, &element))
        if (m->octets[element.at] == kind) {
            *length = (long)(element.after - element.at - 2);
            return m->octets + element.at + 2;
        }
    *length = -1;
    return NULL;
}

/* The digits of a number in a message, in one word; null where there is none. `before` is set ahead of them: digits that came earlier. */
static const char *number_in(const struct message *m, uint8_t kind, const char *before)
{
    long length;
    const uint8_t *contents = element_of(m, kind, &length);
    size_t have = before ? strlen(before) : 0, n = 0;
    if (length < 1 || have > UINT8_MAX)         /* no one dials so many */
        return before;
    long from = contents[0] & 0x80 ? 1 : 2;     /* an octet about presentation may come next */
    char *digits = room_for(have + (size_t)length + 2, 1);
    memcpy(digits, before ? before : "", have);
    n = have;
    if (!before && kind == ELEMENT_CALLED_NUMBER && (contents[0] >> 4 & 7) == 1)
        digits[n++] = '+';      /* an international number */
    for (long i = from; i < length; i++)
        digits[n++] = contents[i] > 0x20 && contents[i] < 0x7F ? (char)contents[i] : '?';
    const char *number = n ? kept_part(digits, n) : NULL;
    free(digits);
    return number;
}

static const char *identity_in(const struct message *m)
{
    long length;
    const uint8_t *contents = element_of(m, ELEMENT_CALL_IDENTITY, &length);
    return length > 0 ? kept_part((const char *)contents, (size_t)length) : kept("");
}

/* The call that a message is of by its key; one that is taken up is found by the identity with which it was parked. */
static size_t *key_of(const struct message *m)
{
    uint8_t type = type_of(m);
    /* a call from the network begins with a SETUP to all terminals, and goes on with those that answer */
    bool may_be_offered = is_of_network(m) && type != MESSAGE_SETUP && m->terminal != NO_TERMINAL;
    size_t offered = may_be_offered ? *last_call(m, BROADCAST) : 0, *last = last_call(m, m->terminal);
    if (offered > *last)
        *last = offered;
    if (type == MESSAGE_RESUME && m->direction == AOC_FROM_USER) {
        size_t *parked = last_parked(m, identity_in(m));
        if (*parked) {
            *last = *parked;
            calls[*last - 1].resumed = true;
            *parked = 0;
        }
    }
    return last;
}

static size_t call_of(const struct message *m)
{
    size_t *last = key_of(m);
    uint8_t type = type_of(m);
    bool from_network = m->direction == AOC_FROM_NETWORK, setup = type == MESSAGE_SETUP && from_network == is_of_network(m);
    size_t before = 0;
    if (*last && setup && (calls[*last - 1].connected || calls[*last - 1].cleared)) {
        before = calls[*last - 1].ended ? 0 : *last;
        calls[*last - 1].replaced = before;
        *last = 0;
    }
    if (!*last) {
        calls = grown(calls, call_count, 1, &calls_room, sizeof *calls);
        calls[call_count] = (struct call){.reference = reference_of(m->octets), .of_network = is_of_network(m), .line = m->line,
                                          .terminal = m->terminal, .first = message_count, .begun = setup, .replaces = before};
        *last = ++call_count;
    }
    size_t number = *last - 1;
    struct call *call = &calls[number];
    if (call->messages++)
        messages[call->last].next = message_count + 1;
    call->last = message_count;
    call->length += m->length;
    call->connected = call->connected || type == MESSAGE_CONNECT;
    call->cleared = call->cleared || is_clearing(type);
    call->ended = call->ended || type == MESSAGE_RELEASE_COMPLETE;
    if (setup) {
        call->calling = number_in(m, ELEMENT_CALLING_NUMBER, NULL);
        call->dialled = number_in(m, ELEMENT_CALLED_NUMBER, NULL);
    } else if (type == MESSAGE_INFORMATION && from_network == call->of_network) {
        call->dialled = number_in(m, ELEMENT_CALLED_NUMBER, call->dialled);
    } else if (type == MESSAGE_SUSPEND && !from_network) {
        call->identity = identity_in(m);
    } else if (type == MESSAGE_SUSPEND_ACKNOWLEDGE && from_network && call->identity) {
        *last_parked(m, call->identity) = number + 1;
        *last = 0;              /* the reference is free */
    }
    return number;
}

/* ------------------------------------------------------------------ a call's events */

/* What is kept of each event of a call beside its row. */
struct event {
    const struct message *from; /* the message that gave it */
    const uint8_t *octets;
    bool refused;
};

/* The list of a call's events. */
struct list {
    uint16_t *rows;
    uint8_t *octets;
    struct event *events;
    size_t count, length;
    aoc_account account;        /* after the last of them, */
    aoc_outcome outcome;        /* which had this outcome */
    bool cleared;
};

static const uint16_t *row_at(const struct list *list, size_t event)
{
    return list->rows + AOC_ROW_NUMBERS * event;
}

static void append(struct list *list, const struct message *from, const uint16_t *row, const uint8_t *octets)
{
    uint16_t *to = list->rows + AOC_ROW_NUMBERS * list->count;
    memcpy(to, row, AOC_ROW_NUMBERS * sizeof *row);
    if (row[5])
        memcpy(list->octets + list->length, octets, row[5]);
    list->events[list->count++] = (struct event){from, list->octets + list->length, false};
    list->length += row[5];
}

/* The events of a message behind those of the messages before it: the first clearing message of a call alone gives Clear. To be parked and
 * taken up is no event of the library's list of messages, which knows one reference. */
static void append_events(struct list *list, const struct message *m)
{
    static const uint16_t suspend[AOC_ROW_NUMBERS] = {AOC_EVENT_SUSPEND}, resume[AOC_ROW_NUMBERS] = {AOC_EVENT_RESUME};
    uint8_t type = type_of(m);
    bool from_network = m->direction == AOC_FROM_NETWORK;
    if (from_network && type == MESSAGE_RESUME_ACKNOWLEDGE)
        append(list, m, resume, NULL);
    for (size_t i = 0, at = 0; i < m->events; at += m->rows[AOC_ROW_NUMBERS * i++ + 5])
        if (m->rows[AOC_ROW_NUMBERS * i] != AOC_EVENT_CLEAR || !list->cleared)
            append(list, m, m->rows + AOC_ROW_NUMBERS * i, m->components + at);
    if (from_network && type == MESSAGE_SUSPEND_ACKNOWLEDGE)
        append(list, m, suspend, NULL);
    list->cleared = list->cleared || is_clearing(type);
}

static struct list new_list(const struct call *call)
{
    size_t most = call->length + call->messages;
    return (struct list){room_for(AOC_ROW_NUMBERS * most, sizeof(uint16_t)), room_for(call->length, 1), room_for(most, sizeof(struct event)),
                         0, 0, aoc_fresh(), {0, 0}, false};
}

static void free_list(struct list *list)
{
    free(list->rows);
    free(list->octets);
    free(list->events);
}

static aoc_outcome step(struct list *list, size_t event)
{
    const uint16_t *row = row_at(list, event);
    aoc_event e = {(uint8_t)row[0], {row[1] & 1, row[1] >> 1 & 1, row[1] >> 2 & 1}, row[2], row[3], row[4]};
    aoc_outcome outcome = aoc_step(&list->account, e, list->events[event].octets, row[5]);
    list->events[event].refused = aoc_is_refusal(outcome.number);
    work++;
    return list->outcome = outcome;
}

/* ------------------------------------------------------------------ the tale of a call */

static const char *const kinds[] = {"?", "Setup", "Connect", "Clear", "Released", "Component", "Suspend", "Resume"};
static const char services[] = " SDE";

static void put_charge(const char *name, const aoc_charge *charge)
{
    char text[AOC_LIMIT_CHARGE_TEXT];
    if (charge->kind == AOC_CHARGE_NONE)
        return;
    aoc_print_charge(text, sizeof text, charge);
    printf("; %s %s", name, text);
}

/* What an event is: a Setup's requests, a component's figure. */
static void put_event(const uint16_t *row, const uint8_t *octets)
{
    static const char *const frames[] = {"?", "invoke", "return result", "return error", "reject"};
    aoc_answer answer;
    fputs(kinds[row[0]], stdout);
    for (int s = 0; s < 3; s++)
        if (row[0] == AOC_EVENT_SETUP && row[1] >> s & 1)
            printf(", request %d for %c", row[2 + s] < 32768 ? row[2 + s] : row[2 + s] - 65536, services[1 + s]);
    if (row[0] == AOC_EVENT_COMPONENT && aoc_read(octets, row[5], &answer) == AOC_ACCEPTED) {
        printf(", %s", frames[answer.record.frame]);
        if (answer.record.operation)
            printf(" %d", answer.record.operation);
        put_charge("says", &answer.record.charge);
    }
}

/* The account after a message. */
static void put_account(const aoc_account *account)
{
    aoc_pending pending = aoc_pending_of(account);
    aoc_charge rate = aoc_rate_of(account), running = aoc_running_of(account);
    aoc_marks marks = aoc_marks_of(account);
    printf("    = %s", aoc_phase_text(aoc_phase_of(account)));
    put_charge("rate", &rate);
    put_charge("running", &running);
    for (uint8_t s = 1; s <= 3; s++) {
        if (aoc_has_service(pending.asked, s))
            printf("; %c's request is pending", services[s]);
        if (aoc_has_service(marks.absent, s))
            printf("; %c is not available", services[s]);
        if (aoc_has_service(marks.conflict, s))
            printf("; %c's finals differ", services[s]);
    }
    puts("");
}

/* The reject that is due for a component, if any. */
static void put_reject(const uint8_t *octets, size_t n)
{
    uint8_t reject[AOC_LIMIT_REPLY_OCTETS];
    aoc_written w = aoc_reply(octets, n, reject, sizeof reject);
    if (w.refusal != AOC_ACCEPTED || w.count == 0)
        return;
    fputs("      a reject is due: ", stdout);
    put_octets(stdout, reject, w.count);
    puts("");
}

/* A final that a trunk told, and the message that had it. */
struct told {
    const struct message *from; /* null for none */
    aoc_charge charge;
};

/* A component of a trunk, which gives no event. */
static void put_trunk(const struct message *m, const uint8_t *octets, size_t n, const aoc_either *answer, struct told *final)
{
    const aoc_trunk *trunk = &answer->trunk;
    fputs("    of a trunk, in no account: ", stdout);
    if (answer->refusal != AOC_ACCEPTED && (octets[0] == 0x8B || octets[0] == 0x92)) {
        fputs("for the exchange alone: ", stdout);
        put_octets(stdout, octets, n);
    } else if (answer->refusal != AOC_ACCEPTED) {
        printf("refused %u, %s: ", (unsigned)answer->refusal, aoc_refusal_text(answer->refusal));
        put_octets(stdout, octets, n);
        something_wrong = true;
    } else {
        fputs(aoc_frame_text(trunk->frame), stdout);
        if (trunk->operation)
            printf(" %s", aoc_operation_text(trunk->operation));
        put_charge("says", &trunk->charge);
        if (trunk->operation == AOC_OPERATION_FINAL && trunk->charge.kind != AOC_CHARGE_NONE)
            *final = (struct told){m, trunk->charge};
    }
    puts("");
}

/* The Facility elements of a message that give no event: a trunk's, and malformed ones. */
static void put_elements(const struct message *m, struct told *final)
{
    struct element element = {0, first_element(m->octets, m->length), false};
    while (next_element(m->octets, m->length, &element)) {
        const uint8_t *octets = m->octets + element.at;
        size_t n = element.after - element.at, place = AOC_FIRST_PLACE, from = place;
        aoc_either answer;
        if (octets[0] != ELEMENT_FACILITY)
            continue;
        for (; next_component(octets, n, &place, &answer); from = place)
            if (octets[2] == AOC_PROFILE_TRUNK)
                put_trunk(m, octets + from, place - from, &answer, final);
        if (answer.refusal != AOC_ACCEPTED) {
            printf("    %s, which gives no event: ", aoc_refusal_text(answer.refusal));
            put_octets(stdout, octets, n);
            puts("");
            something_wrong = true;
        }
    }
}

/* Whether the exchange kept the rules, by the events that were not refused. */
static void put_evidence(const struct list *list)
{
    size_t numbers = AOC_ROW_NUMBERS * list->count, accepted = 0;
    uint16_t *rows = room_for(numbers, sizeof *rows);
    uint8_t *octets = room_for(list->length, 1);
    aoc_fault_answer fault =
        aoc_fault_of_accepted(list->rows, numbers, list->octets, list->length, rows, numbers, octets, list->length);
    for (size_t i = 0; i < list->count; i++)
        accepted += !list->events[i].refused;
    work += 2 * list->count;
    if (fault.event == 0 || fault.rule == AOC_RULE_KEPT) {
        if (accepted)
            printf("  %s%s\n", aoc_rule_text(fault.rule), accepted < list->count ? ", by the events that were not refused" : "");
    } else {
        size_t i = (size_t)fault.event - 1;
        const struct message *m = list->events[i].from;
        printf("  for the operator: event %lu%s%s, ", (unsigned long)i + 1, *m->head ? " at " : "", m->head);
        put_place(stdout, m->place);
        printf(": %s\n    ", aoc_rule_text(fault.rule));
        put_octets(stdout, list->events[i].octets, row_at(list, i)[5]);
        puts("");
    }
    free(rows);
    free(octets);
}

/* Whether the plain engine finds what the account has. Its time for the closing figure grows with the square of the events, so of a long call
 * the phase and the last outcome are asked, which it finds in one pass. */
static bool agrees(const struct list *list)
{
    enum { LONG = 256 };
    size_t numbers = AOC_ROW_NUMBERS * list->count;
    work += 2 * list->count;
    if (aoc_plain_phase(list->rows, numbers, list->octets, list->length).phase != aoc_phase_of(&list->account))
        return false;
    if (list->count > LONG) {
        aoc_outcome last = aoc_plain_outcome(list->rows, numbers, list->octets, list->length, list->count).outcome;
        return last.number == list->outcome.number && last.service == list->outcome.service;
    }
    aoc_closing closing = aoc_closing_of(&list->account), plain = aoc_plain_closing(list->rows, numbers, list->octets, list->length).closing;
    work += list->count;
    return !memcmp(&plain, &closing, sizeof closing);
}

/* The library over all messages of a call at once: it finds the same list, and the plain engine the same end. A call of two references is
 * no trace of the library's. */
static void check(const struct call *call, const struct list *list)
{
    uint32_t *pairs = room_for(AOC_PAIR_NUMBERS * call->messages, sizeof *pairs);
    uint8_t *octets = room_for(call->length, 1), *out = room_for(call->length, 1);
    uint16_t *rows = room_for(AOC_ROW_NUMBERS * call->length, sizeof *rows);
    size_t n = 0, used = 0, same = 0;
    for (size_t i = call->first + 1; i; i = messages[i - 1].next) {
        const struct message *m = &messages[i - 1];
        memcpy(octets + used, m->octets, m->length);
        used += m->length;
        pairs[n++] = (uint32_t)m->length;
        pairs[n++] = m->direction;
    }
    aoc_trace_answer whole = aoc_trace_events(pairs, n, octets, used, rows, AOC_ROW_NUMBERS * used, out, used);
    for (size_t i = 0; i < list->count; i++) {
        const uint16_t *row = row_at(list, i);
        if (row[0] == AOC_EVENT_SUSPEND || row[0] == AOC_EVENT_RESUME)
            continue;
        if (same == whole.events || memcmp(row, rows + AOC_ROW_NUMBERS * same++, AOC_ROW_NUMBERS * sizeof *row))
            break;
    }
    bool found = call->resumed || (whole.refusal == AOC_ACCEPTED && same == whole.events && whole.octets == list->length &&
                                   !memcmp(out, list->octets, list->length));
    if (!found || !agrees(list))
        give_up("the account and the plain engine differ: this is a fault of the program or the library");
    free(pairs);
    free(octets);
    free(out);
    free(rows);
}

/* The last figure that a component tells, during the call or at its end; whatever its outcome was. */
static struct told last_figure(const struct list *list)
{
    for (size_t i = list->count; i > 0; i--) {
        aoc_answer answer;
        const uint16_t *row = row_at(list, i - 1);
        work++;
        if (row[0] == AOC_EVENT_COMPONENT && aoc_read(list->events[i - 1].octets, row[5], &answer) == AOC_ACCEPTED &&
            answer.record.frame == AOC_FRAME_INVOKE && answer.record.operation >= AOC_OPERATION_D_CURRENCY &&
            answer.record.charge.kind != AOC_CHARGE_NONE)
            return (struct told){list->events[i - 1].from, answer.record.charge};
    }
    return (struct told){NULL, aoc_fresh().running};
}

static void put_told(const char *name, const struct told *told)
{
    if (!told->from)
        return;
    put_charge(name, &told->charge);
    fputs(", ", stdout);
    put_place(stdout, told->from->place);
}

/* The figure to post, or why there is none. What is missing from the log is told with the figure that it would have been about. */
static void put_end(const struct call *call, const struct list *list, const struct told *final)
{
    aoc_why_answer why = aoc_why(list->rows, AOC_ROW_NUMBERS * list->count, list->octets, list->length);
    aoc_closing closing = aoc_closing_of(&list->account);
    uint8_t phase = aoc_phase_of(&list->account);
    work += list->count;
    const char *missing = call->of_network ? "the network began this call" :
                          phase == AOC_PHASE_IDLE && !of_user(call) ? "it is of no call" :
                          phase == AOC_PHASE_IDLE ? "its SETUP is not in the log" :
                          phase == AOC_PHASE_CLEARING ? "cleared, but its release is not in the log" :
                          phase != AOC_PHASE_ENDED && call->replaced ? "its reference begins again, but its end is not in the log" : NULL;
    if (why.reason == AOC_REASON_PRICED) {
        char text[AOC_LIMIT_CHARGE_TEXT];
        aoc_print_charge(text, sizeof text, &closing.charge);
        printf("  to post: %s, by event %lu", text, (unsigned long)why.event);
    } else if (missing) {
        struct told last = last_figure(list);
        printf("  nothing to post: %s", missing);
        put_told("the last figure told is", &last);
        something_wrong = something_wrong || of_user(call);
    } else {
        printf("  nothing to post: %s", aoc_reason_text(why.reason));
        if (why.event)
            printf(", event %lu", (unsigned long)why.event);
        if (why.reason == AOC_REASON_PASSED_OVER) {
            struct told last = last_figure(list);
            put_told("the last figure told is", &last);
        }
    }
    put_told("a trunk told", final);
    puts("");
}

/* Who a call is: its reference, who began it, its line and terminal. */
static void put_call(FILE *to, const struct call *call)
{
    if (call->reference == NO_REFERENCE)
        fputs("call without a reference", to);
    else
        fprintf(to, "call %lu%s", (unsigned long)call->reference, call->of_network ? " of the network" : "");
    if (call->line)
        fprintf(to, ", line %s", call->line);
    if (call->terminal != NO_TERMINAL)
        fprintf(to, ", tei %d", call->terminal);
}

/* A SETUP that is sent again: the same octets as the one that began the call. */
static bool is_repeated(const struct message *m)
{
    const struct message *first = &messages[calls[m->call].first];
    return m != first && type_of(m) == MESSAGE_SETUP && m->length == first->length && !memcmp(m->octets, first->octets, m->length);
}

static void tell_message(struct list *list, const struct message *m, struct told *final)
{
    bool refusals_are_wrong = of_user(&calls[m->call]) && !is_repeated(m);
    const char *name = message_name(type_of(m));
    size_t before = list->count;
    printf("  %s%s%s ", m->head, *m->head ? " " : "", m->direction ? "network" : "user");
    if (name)
        puts(name);
    else
        printf("another message, of type %02X\n", type_of(m));
    append_events(list, m);
    for (size_t i = before; i < list->count; i++) {
        const uint16_t *row = row_at(list, i);
        aoc_outcome o = step(list, i);
        printf("    event %lu: ", (unsigned long)i + 1);
        put_event(row, list->events[i].octets);
        printf("\n      %u%.*s: %s\n", o.number, o.service != 0, services + o.service, aoc_outcome_text(o.number));
        if (row[0] == AOC_EVENT_COMPONENT)
            put_reject(list->events[i].octets, row[5]);
        something_wrong = something_wrong || (refusals_are_wrong && list->events[i].refused);
    }
    put_elements(m, final);
    if (list->count > before)
        put_account(&list->account);
}

static void tell_call(const struct call *call)
{
    struct list list = new_list(call);
    struct told final = {NULL, aoc_fresh().running};
    put_call(stdout, call);
    puts("");
    if (call->of_network)
        puts("  the network began this call: an account is of the user's calls, so its events are refused");
    else if (!call->begun && of_user(call))
        puts(type_of(&messages[call->first]) == MESSAGE_RESUME ? "  the log has no call that was parked with this identity" :
                                                                 "  the log begins within this call: its SETUP is not in it");
    for (size_t i = call->first + 1; i; i = messages[i - 1].next)
        tell_message(&list, &messages[i - 1], &final);
    put_end(call, &list, &final);
    put_evidence(&list);
    check(call, &list);
    free_list(&list);
}

/* ------------------------------------------------------------------ the events that night takes */

static struct table extensions; /* of the hotel's table */
static const char **rooms;
static size_t rooms_room;

/* A row of the table is an extension and a room. An extension is a whole calling number or, behind a *, what a number ends with. */
static void read_rooms(char *name)
{
    struct input log = input;
    const char *why;
    memset(&input, 0, sizeof input);
    input.names = &name;
    input.count = 1;
    while (next_line(&why)) {
        char *extension = strtok(input.text, " \t\r"), *room = strtok(NULL, " \t\r");
        if (!why && (!extension || *extension == '#'))
            continue;
        size_t before = extensions.count, i = extension && room ? number_of_key(&extensions, extension, strlen(extension)) : before;
        if (why || !room || strtok(NULL, " \t\r") || extensions.count == before) {
            fprintf(stderr, "replay: %s line %lu is not taken: %s\n", name, input.place.line,
                    why ? why : room && extensions.count == before ? "the extension is there already" : "an extension and a room are wanted");
            something_wrong = true;
            if (extensions.count == before)
                continue;
        }
        rooms = grown(rooms, i, 1, &rooms_room, sizeof *rooms);
        rooms[i] = kept(room);
    }
    free(input.text);
    input = log;
}

static const char *room_of_extension(const char *extension)
{
    size_t before = extensions.count, i = number_of_key(&extensions, extension, strlen(extension));
    rooms = grown(rooms, i, 1, &rooms_room, sizeof *rooms);
    if (extensions.count > before)
        rooms[i] = NULL;        /* from now on it is known that there is none */
    return rooms[i];
}

/* The room of a number: by the whole of it, else by the longest end of it that the table has. */
static const char *room_of_number(const char *number)
{
    const char *room = room_of_extension(number);
    size_t n = strlen(number);
    char *end = room_for(n + 2, 1);
    for (size_t i = 0; i < n && !room; i++) {
        *end = '*';
        memcpy(end + 1, number + i, n - i + 1);
        room = room_of_extension(end);
    }
    free(end);
    return room;
}

/* The room of a call, in one word: by the hotel's own number, which in a call that the network began is the called one. Where the table has
 * none it is the number behind a question mark, for the clerk. */
static const char *room_of(const struct call *call)
{
    const char *number = call->of_network ? call->dialled : call->calling;
    const char *room = !number ? NULL : with_rooms ? room_of_number(number) : number;
    if (room)
        return room;
    fputs("replay: ", stderr);
    put_place(stderr, messages[call->first].place);
    fprintf(stderr, ": the room of the call that begins here is not known: %s%s\n",
            number ? "the table has no " : "the log has no number of the hotel's side", number ? number : "");
    something_wrong = true;
    if (!number)
        return "?";
    char *unknown = room_for(strlen(number) + 2, 1);
    *unknown = '?';
    strcpy(unknown + 1, number);
    room = kept(unknown);
    free(unknown);
    return room;
}

/* Whether a component of either family tells a charge of the call, during it or at its end. */
static bool tells_charge(const aoc_either *answer)
{
    const aoc_record *r = &answer->record;
    const aoc_trunk *t = &answer->trunk;
    return answer->refusal == AOC_ACCEPTED &&
           ((r->frame == AOC_FRAME_INVOKE && r->operation >= AOC_OPERATION_D_CURRENCY && r->charge.kind != AOC_CHARGE_NONE) ||
            (t->frame == AOC_FRAME_INVOKE && t->operation == AOC_OPERATION_FINAL && t->charge.kind != AOC_CHARGE_NONE));
}

/* Whether the network told a charge in any message of a call. */
static bool has_charge(const struct call *call)
{
    for (size_t i = call->first + 1; i; i = messages[i - 1].next) {
        const struct message *m = &messages[i - 1];
        struct element element = {0, first_element(m->octets, m->length), false};
        while (m->direction == AOC_FROM_NETWORK && next_element(m->octets, m->length, &element)) {
            aoc_either answer;
            size_t place = AOC_FIRST_PLACE;
            while (m->octets[element.at] == ELEMENT_FACILITY &&
                   next_component(m->octets + element.at, element.after - element.at, &place, &answer))
                if (tells_charge(&answer))
                    return true;
        }
    }
    return false;
}

/* What night is to know of a call. */
struct night {
    bool none;                  /* nothing: no one began it here, and no charge came */
    const char *room;           /* null before its first line */
    bool cleared;
};

/* The beginning of a line: time, room, call. */
static void put_head(const struct message *m, struct night *night)
{
    const struct call *call = &calls[m->call];
    if (!night->room) {
        night->room = room_of(call);
        printf("# call %lu: in the log ", (unsigned long)m->call + 1);
        put_call(stdout, call);
        fputs(", from ", stdout);
        put_place(stdout, messages[call->first].place);
        puts("");
    }
    printf("%s %s %lu ", m->time, night->room, (unsigned long)m->call + 1);
}

/* A call that the user did not begin. */
static void night_incoming(const struct message *m, struct night *night)
{
    put_head(m, night);
    puts("incoming");
}

static void night_event(const struct message *m, struct night *night, const uint16_t *row)
{
    static const char *const names[] = {[AOC_EVENT_SETUP] = "setup", [AOC_EVENT_CONNECT] = "connect", [AOC_EVENT_CLEAR] = "clear",
                                        [AOC_EVENT_RELEASED] = "released", [AOC_EVENT_SUSPEND] = "suspend", [AOC_EVENT_RESUME] = "resume"};
    const struct call *call = &calls[m->call];
    put_head(m, night);
    fputs(names[row[0]], stdout);
    for (int s = 0; row[0] == AOC_EVENT_SETUP && s < 3; s++)
        if (row[1] >> s & 1)
            printf(" %c=%d", services[1 + s], row[2 + s] < 32768 ? row[2 + s] : row[2 + s] - 65536);
    if (row[0] == AOC_EVENT_SETUP && call->dialled)
        printf(" to %s", call->dialled);
    puts("");
}

/* Its Facility elements, whole: night goes through them itself. */
static void night_elements(const struct message *m, struct night *night)
{
    struct element element = {0, first_element(m->octets, m->length), false};
    while (m->direction == AOC_FROM_NETWORK && next_element(m->octets, m->length, &element)) {
        if (m->octets[element.at] != ELEMENT_FACILITY)
            continue;
        put_head(m, night);
        fputs("facility ", stdout);
        put_octets(stdout, m->octets + element.at, element.after - element.at);
        puts("");
    }
}

/* A message's lines, in the order of its events: those that stand ahead of its components, these, and those behind them. Of a call that the
 * network began there are its components alone: for the clerk, since no account takes them. */
static void night_message(const struct message *m, struct night *night)
{
    struct list list = new_list(&(struct call){.length = m->length, .messages = 1});
    list.cleared = night->cleared;
    if (!of_user(&calls[m->call]) && !night->room)
        night_incoming(m, night);
    if (of_user(&calls[m->call]) && !is_repeated(m))
        append_events(&list, m);
    for (int behind = 0; behind < 2; behind++) {
        for (size_t i = 0; i < list.count; i++) {
            uint16_t kind = row_at(&list, i)[0];
            bool ahead = kind == AOC_EVENT_SETUP || kind == AOC_EVENT_CLEAR || kind == AOC_EVENT_RESUME;
            if (kind != AOC_EVENT_COMPONENT && ahead != (bool)behind)
                night_event(m, night, row_at(&list, i));
        }
        if (!behind)
            night_elements(m, night);
    }
    night->cleared = list.cleared;
    free_list(&list);
}

static void tell_night(void)
{
    struct night *nights = room_for(call_count, sizeof *nights);
    puts("# time room call event");
    for (size_t i = 0; i < call_count; i++)
        nights[i] = (struct night){!of_user(&calls[i]) && !has_charge(&calls[i]), NULL, false};
    for (size_t i = 0; i < message_count; i++) {
        const struct message *m = &messages[i];
        size_t before = calls[m->call].replaces;
        /* the call that had its key, of which no more comes */
        if (calls[m->call].first == i && before && of_user(&calls[before - 1])) {
            struct message lost = {.time = m->time, .call = before - 1};
            put_head(&lost, &nights[before - 1]);
            puts("lost");
        }
        if (!nights[m->call].none)
            night_message(m, &nights[m->call]);
    }
    free(nights);
}

/* ------------------------------------------------------------------ */

static const char help[] =
    "usage: replay [--night [--rooms=TABLE]] [FILE..]\n"
    "\n"
    "The calls of a log of layer 3 messages, from FILE.. or standard input: each message, its events, the account after it, and\n"
    "the figure to post or why there is none. A line is: a time or other text, u or n, the message's octets in hex; the text may\n"
    "have `line NAME` and `tei NUMBER`. trace makes such a log of a capture.\n"
    "  --night         prints the events that night takes instead, each call with its room and the number dialled\n"
    "  --rooms=TABLE   the room of each calling number: lines of a number and a room; *214 is any number that ends in 214\n"
    "Status: 0; 1 where something was refused or is missing, or could not be read or written; 2 for usage.\n";

static char *rooms_file;

static bool option(const char *text)
{
    static const char of_rooms[] = "--rooms=";
    if (!strncmp(text, of_rooms, sizeof of_rooms - 1) && text[sizeof of_rooms - 1] && !with_rooms) {
        rooms_file = strcpy(room_for(strlen(text), 1), text + sizeof of_rooms - 1);
        return with_rooms = true;
    }
    return !strcmp(text, "--night") && !as_night && (as_night = true);
}

int main(int arguments, char **argument)
{
    const char *why;
    take_arguments("replay", help, arguments, argument, option);
    if (with_rooms && !as_night)
        usage(help);
    if (with_rooms)
        read_rooms(rooms_file);
    while (next_line(&why)) {
        char *line = input.text;
        size_t n = strlen(line);
        if (n && line[n - 1] == '\r')
            line[n - 1] = 0;
        if (why)
            no_message(why);
        else if (*line && *line != '#')
            take(line);
    }
    if (as_night)
        tell_night();
    for (size_t i = 0; !as_night && i < call_count; i++)
        tell_call(&calls[i]);
    if (!call_count) {
        fputs("replay: no messages came\n", stderr);
        something_wrong = true;
    }
    return ended();
}
