/* The inner part of aoc.h, which includes it; hosts read aoc.h instead. It has the functions of the library over the parts of a
 * record, the bodies of the inline functions, and the layout that the library has. */
#ifndef AOC_PARTS_H
#define AOC_PARTS_H

#ifndef AOC_H
#error "include aoc.h"
#endif

/* A conversion of a value, and of a pointer, as each of the two languages writes it. */
#ifdef __cplusplus
#define AOC_TO(type, value) static_cast<type>(value)
#define AOC_POINT_TO(type, pointer) reinterpret_cast<type>(pointer)
#define AOC_LOOK_AT(type, pointer) reinterpret_cast<type>(pointer)
#else
#define AOC_TO(type, value) ((type)(value))
#define AOC_POINT_TO(type, pointer) ((type)(pointer))
/* To an array of const: before C23 such an array is not const itself, and gcc would warn of a const that is lost. */
#define AOC_LOOK_AT(type, pointer) ((type)(uintptr_t)(pointer))
#endif

/* ------------------------------------------------------------------ the layout's number */

/* Proved: the answer is the number in its name. An archive with another layout has another name here, and is not linked with
 * what mentions this one: the functions below that every host calls. */
uint32_t aoc_layout_5(void);

static inline void aoc_mention_layout(void)
{
    uint32_t (*volatile layout)(void) = aoc_layout_5;
    (void)&layout;
}

/* ------------------------------------------------------------------ a record in parts */

/* A record has four parts: its front, the first 8 octets; its figure, the charge's first 48; and the charge's two arrays,
 * which hold its list. Reading gets pointers to all four and stores each octet directly in its place. Writing gets the front by
 * value and pointers to the other three. So no part is copied. */

/* A refusal and its offset, as an answer begins. */
typedef struct {
    uint32_t refusal, offset;
} aoc_refusal_at;

/* What is at a place of an element: a component's refusal or none, with the place after it; or the end. */
typedef struct {
    size_t after, ended;
    aoc_refusal_at answer;
} aoc_next_answer;

/* The same with a family, for what is read by its profile octet. */
typedef struct {
    uint32_t refusal, offset, family;
} aoc_judged;

typedef struct {
    size_t after, ended;
    aoc_judged answer;
} aoc_next_by_answer;

/* A front as numbers. */
typedef struct {
    uint8_t frame, unnamed;
    uint16_t id;
    uint8_t operation, error, problem, detail;
} aoc_front;

/* Proved. What aoc_read, aoc_next and aoc_write say, over the parts. */
aoc_refusal_at aoc_read_into(const uint8_t *octets, size_t length, uint8_t (*front)[8], uint8_t (*figure)[48],
                             uint32_t (*numbers)[32], uint8_t (*rows)[192]);
aoc_next_answer aoc_next_into(const uint8_t *octets, size_t length, size_t place, uint8_t (*front)[8], uint8_t (*figure)[48],
                              uint32_t (*numbers)[32], uint8_t (*rows)[192]);
aoc_written aoc_write_from(aoc_front front, const uint8_t (*figure)[48], const uint32_t (*numbers)[32],
                           const uint8_t (*rows)[192], uint8_t *buffer, size_t room);

/* Proved. What aoc_read_by, aoc_next_by and aoc_write_by say, over the parts of both records. A trunk's first 48 octets are its front, with four
 * that are zero; then 244 of its extension; then a charge's three. */
aoc_judged aoc_read_by_into(uint8_t profile, const uint8_t *octets, size_t length, uint8_t (*front)[8], uint8_t (*figure)[48],
                            uint32_t (*numbers)[32], uint8_t (*rows)[192], uint8_t (*trunk_front)[48], uint8_t (*extension)[244],
                            uint8_t (*trunk_figure)[48], uint32_t (*trunk_numbers)[32], uint8_t (*trunk_rows)[192]);
aoc_next_by_answer aoc_next_by_into(const uint8_t *octets, size_t length, size_t place, uint8_t (*front)[8], uint8_t (*figure)[48],
                                    uint32_t (*numbers)[32], uint8_t (*rows)[192], uint8_t (*trunk_front)[48], uint8_t (*extension)[244],
                                    uint8_t (*trunk_figure)[48], uint32_t (*trunk_numbers)[32], uint8_t (*trunk_rows)[192]);

aoc_written aoc_write_by_from(uint8_t profile, const uint8_t (*front)[8], const uint8_t (*figure)[48], const uint32_t (*numbers)[32],
                              const uint8_t (*rows)[192], const uint8_t (*trunk_front)[48], const uint8_t (*extension)[244],
                              const uint8_t (*trunk_figure)[48], const uint32_t (*trunk_numbers)[32],
                              const uint8_t (*trunk_rows)[192], uint8_t *buffer, size_t room);

AOC_INLINE aoc_refusal aoc_read(const uint8_t *octets, size_t length, aoc_answer *answer)
{
    aoc_mention_layout();
    aoc_charge *charge = &answer->record.charge;
    aoc_refusal_at a = aoc_read_into(octets, length, AOC_POINT_TO(uint8_t(*)[8], &answer->record),
                                     AOC_POINT_TO(uint8_t(*)[48], charge), &charge->numbers, &charge->octets);
    memcpy(answer, &a, sizeof a);
    return AOC_TO(aoc_refusal, a.refusal);
}

AOC_INLINE bool aoc_next(const uint8_t *octets, size_t length, size_t *place, aoc_answer *answer)
{
    aoc_mention_layout();
    aoc_charge *charge = &answer->record.charge;
    aoc_next_answer next = aoc_next_into(octets, length, *place, AOC_POINT_TO(uint8_t(*)[8], &answer->record),
                                         AOC_POINT_TO(uint8_t(*)[48], charge), &charge->numbers, &charge->octets);
    memcpy(answer, &next.answer, sizeof next.answer);
    if (next.after == 0)
        return false;
    *place = next.after;
    return true;
}

AOC_INLINE aoc_refusal aoc_read_by(uint8_t profile, const uint8_t *octets, size_t length, aoc_either *answer)
{
    aoc_mention_layout();
    aoc_charge *c = &answer->record.charge, *t = &answer->trunk.charge;
    aoc_judged a = aoc_read_by_into(profile, octets, length, AOC_POINT_TO(uint8_t(*)[8], &answer->record),
                                    AOC_POINT_TO(uint8_t(*)[48], c), &c->numbers, &c->octets,
                                    AOC_POINT_TO(uint8_t(*)[48], &answer->trunk), AOC_POINT_TO(uint8_t(*)[244], &answer->trunk.extended),
                                    AOC_POINT_TO(uint8_t(*)[48], t), &t->numbers, &t->octets);
    memcpy(answer, &a, sizeof a);
    return AOC_TO(aoc_refusal, a.refusal);
}

AOC_INLINE bool aoc_next_by(const uint8_t *octets, size_t length, size_t *place, aoc_either *answer)
{
    aoc_mention_layout();
    aoc_charge *c = &answer->record.charge, *t = &answer->trunk.charge;
    aoc_next_by_answer next = aoc_next_by_into(octets, length, *place, AOC_POINT_TO(uint8_t(*)[8], &answer->record),
                                               AOC_POINT_TO(uint8_t(*)[48], c), &c->numbers, &c->octets,
                                               AOC_POINT_TO(uint8_t(*)[48], &answer->trunk),
                                               AOC_POINT_TO(uint8_t(*)[244], &answer->trunk.extended),
                                               AOC_POINT_TO(uint8_t(*)[48], t), &t->numbers, &t->octets);
    memcpy(answer, &next.answer, sizeof next.answer);
    if (next.after == 0)
        return false;
    *place = next.after;
    return true;
}

AOC_INLINE aoc_written aoc_write(const aoc_record *record, uint8_t *buffer, size_t room)
{
    const aoc_charge *c = &record->charge;
    aoc_front front;
    aoc_mention_layout();
    memcpy(&front, record, sizeof front);
    return aoc_write_from(front, AOC_LOOK_AT(const uint8_t(*)[48], c), &c->numbers, &c->octets, buffer, room);
}

AOC_INLINE aoc_written aoc_write_by(uint8_t profile, const aoc_either *either, uint8_t *buffer, size_t room)
{
    aoc_mention_layout();
    const aoc_charge *c = &either->record.charge, *t = &either->trunk.charge;
    return aoc_write_by_from(profile, AOC_LOOK_AT(const uint8_t(*)[8], &either->record), AOC_LOOK_AT(const uint8_t(*)[48], c),
                             &c->numbers, &c->octets, AOC_LOOK_AT(const uint8_t(*)[48], &either->trunk),
                             AOC_LOOK_AT(const uint8_t(*)[244], &either->trunk.extended), AOC_LOOK_AT(const uint8_t(*)[48], t),
                             &t->numbers, &t->octets, buffer, room);
}

/* ------------------------------------------------------------------ requests, and what is for the exchange */

AOC_INLINE aoc_written aoc_request(uint8_t service, uint16_t id, uint8_t *buffer, size_t room)
{
    aoc_record record;
    memset(&record, 0, sizeof record);
    record.frame = AOC_FRAME_INVOKE;
    record.id = id;
    record.operation = AOC_OPERATION_CHARGING_REQUEST;
    record.detail = aoc_case_of(service);
    return aoc_write(&record, buffer, room);
}

/* An invoke of a trunk, but for its argument. */
static inline void aoc_set_invoke(aoc_either *either, uint16_t id, uint8_t operation)
{
    memset(either, 0, sizeof *either);
    either->trunk.frame = AOC_FRAME_INVOKE;
    either->trunk.id = id;
    either->trunk.operation = operation;
}

AOC_INLINE aoc_written aoc_charge_request(uint16_t id, const uint8_t *modes, size_t count, uint8_t *buffer, size_t room)
{
    aoc_either either;
    aoc_set_invoke(&either, id, AOC_OPERATION_CHARGE_REQUEST);
    either.trunk.asked = AOC_TO(uint8_t, count <= AOC_LIMIT_MODES ? count : 255);      /* 255: more than a record may have */
    for (size_t i = 0; i < AOC_LIMIT_MODES && i < count; i++)
        either.trunk.modes[i] = modes[i];
    return aoc_write_by(AOC_PROFILE_TRUNK, &either, buffer, room);
}

AOC_INLINE aoc_written aoc_final_charge_request(uint16_t id, uint8_t *buffer, size_t room)
{
    aoc_either either;
    aoc_set_invoke(&either, id, AOC_OPERATION_GET_FINAL_CHARGE);
    return aoc_write_by(AOC_PROFILE_TRUNK, &either, buffer, room);
}

AOC_INLINE aoc_written aoc_complete_request(uint16_t id, const aoc_association *user, uint8_t *buffer, size_t room)
{
    aoc_either either;
    aoc_set_invoke(&either, id, AOC_OPERATION_COMPLETE);
    either.trunk.user = *user;
    return aoc_write_by(AOC_PROFILE_TRUNK, &either, buffer, room);
}

AOC_INLINE aoc_written aoc_diversion_request(uint16_t id, const aoc_association *user, uint8_t diversion, uint8_t *buffer,
                                             size_t room)
{
    aoc_either either;
    aoc_set_invoke(&either, id, AOC_OPERATION_DIVERSION);
    either.trunk.user = *user;
    either.trunk.detail = diversion;
    return aoc_write_by(AOC_PROFILE_TRUNK, &either, buffer, room);
}

/* The place behind the length octets that follow a tag, whatever they say. */
static inline size_t aoc_behind_length(const uint8_t *octets, size_t length, size_t tag)
{
    uint8_t first = tag + 1 < length ? octets[tag + 1] : 0;
    return tag + (first == 0x82 ? 4 : first == 0x81 ? 3 : 2);
}

/* The tag that follows a component's identifier, 0 where none does; 1 where there is no identifier. */
static inline uint8_t aoc_tag_behind_identifier(const uint8_t *octets, size_t length)
{
    size_t at = aoc_behind_length(octets, length, 0), in = aoc_behind_length(octets, length, at);
    if (in >= length || octets[at] != 0x02 || octets[in - 1] < 1 || octets[in - 1] > 2)
        return 1;
    in += octets[in - 1];
    return AOC_TO(uint8_t, in < length ? octets[in] : 0);
}

AOC_INLINE bool aoc_is_for_exchange(const aoc_either *answer, const uint8_t *octets, size_t length)
{
    if (answer->family != AOC_FAMILY_TRUNK || length == 0)
        return false;
    switch (answer->refusal) {
    case AOC_REFUSED_UNKNOWN_OPERATION:
    case AOC_REFUSED_UNKNOWN_ERROR:
        return true;
    case AOC_REFUSED_BAD_FRAME:
        if ((octets[0] == 0xA1 && aoc_tag_behind_identifier(octets, length) == 0x80) ||
            (octets[0] == 0xA2 && aoc_tag_behind_identifier(octets, length) == 0))
            return true;
        break;
    default:
        break;
    }
    return octets[0] == AOC_FIRST_EXTENSION || octets[0] == AOC_FIRST_INTERPRETATION || octets[0] == AOC_FIRST_PROTOCOL_PROFILE;
}

AOC_INLINE uint8_t aoc_interpretation_in(const uint8_t *octets, size_t length)
{
    aoc_either answer;
    size_t place = AOC_FIRST_PLACE, from = place;
    while (aoc_next_by(octets, length, &place, &answer)) {
        size_t start = from, count = place - from;
        from = place;
        if (start + 2 >= length || answer.family != AOC_FAMILY_TRUNK || octets[start] != AOC_FIRST_INTERPRETATION)
            continue;
        /* one octet of contents, its length in any of the three forms */
        if (count <= 5 && octets[start + 1] == (count == 3 ? 0x01 : count == 4 ? 0x81 : 0x82) &&
            octets[place - 1] <= AOC_INTERPRETATION_REJECT)
            return octets[place - 1];
        break;
    }
    return AOC_INTERPRETATION_NONE;
}

AOC_INLINE uint8_t aoc_interpretation_of(uint8_t operation)
{
    switch (operation) {
    case AOC_OPERATION_FINAL:
    case AOC_OPERATION_INTERIM:
    case AOC_OPERATION_RATE:
    case AOC_OPERATION_DIVERSION: return AOC_INTERPRETATION_DISCARD;
    case AOC_OPERATION_GET_FINAL_CHARGE: return AOC_INTERPRETATION_CLEAR;
    default: return AOC_INTERPRETATION_NONE;
    }
}

AOC_INLINE aoc_written aoc_write_front(uint8_t interpretation, uint8_t *buffer, size_t room)
{
    const uint8_t front[AOC_LIMIT_FRONT_OCTETS] = {AOC_FIRST_EXTENSION, 6, 0x80, 1, AOC_ENTITY_END, 0x82, 1, AOC_ENTITY_END,
                                                   AOC_FIRST_INTERPRETATION, 1, interpretation};
    aoc_written written = {AOC_ACCEPTED, 0};
    bool none = interpretation == AOC_INTERPRETATION_NONE;
    uint32_t count = none ? 8 : AOC_LIMIT_FRONT_OCTETS;
    if (!none && interpretation > AOC_INTERPRETATION_REJECT) {
        written.refusal = AOC_REFUSED_BAD_RECORD;
    } else if (room < count) {
        written.refusal = AOC_REFUSED_NO_ROOM;
    } else {
        memcpy(buffer, front, count);
        written.count = count;
    }
    return written;
}

AOC_INLINE aoc_written aoc_write_trunk_element(uint8_t interpretation, const uint8_t *octets, size_t length, uint8_t *buffer,
                                               size_t room)
{
    uint8_t components[AOC_LIMIT_FRONT_OCTETS + AOC_LIMIT_COMPONENT_OCTETS] = {0};
    aoc_written front = aoc_write_front(interpretation, components, sizeof components);
    if (front.refusal != AOC_ACCEPTED)
        return front;
    if (length == 0 || length > AOC_LIMIT_COMPONENT_OCTETS) {
        front.refusal = AOC_REFUSED_BAD_ELEMENT;
        front.count = 0;
        return front;
    }
    memcpy(components + front.count, octets, length);
    return aoc_write_element_by(AOC_PROFILE_TRUNK, components, front.count + length, buffer, room);
}

/* ------------------------------------------------------------------ values */

AOC_INLINE bool aoc_is_refusal(uint32_t number)
{
    aoc_mention_layout();
    switch (number) {
        AOC_REFUSALS(AOC_ROW_CASE)
        return true;
    default:
        return false;
    }
}

AOC_INLINE aoc_unit_entry aoc_unit_at(const aoc_charge *charge, size_t index)
{
    aoc_unit_entry entry = {0, 0, 0};
    if (charge->kind == AOC_CHARGE_UNITS && index < charge->count && index < AOC_LIMIT_UNITS) {
        entry.known = charge->units[index].known;
        entry.type = charge->units[index].type;
        entry.number = charge->unit_numbers[index];
    }
    return entry;
}

AOC_INLINE aoc_rate_entry aoc_rate_at(const aoc_charge *charge, size_t index)
{
    aoc_rate_entry entry;
    memset(&entry, 0, sizeof entry);
    if (charge->kind == AOC_CHARGE_RATES && index < charge->count && index < AOC_LIMIT_RATES) {
        const aoc_rate *rate = &charge->rates[index];
        const aoc_rate_numbers *numbers = &charge->rate_numbers[index];
        entry.item = rate->item;
        entry.kind = rate->kind;
        entry.detail = rate->detail;
        entry.stepped = rate->stepped;
        entry.scale = rate->scale;
        entry.step_scale = rate->step_scale;
        entry.time = numbers->time;
        entry.step = numbers->step;
        entry.money.currency = rate->currency;
        entry.money.multiplier = rate->multiplier;
        entry.money.number = numbers->number;
    }
    return entry;
}

AOC_INLINE uint16_t aoc_identifier_of(aoc_identifiers ids, uint8_t service)
{
    switch (service) {
    case AOC_SERVICE_S: return ids.s;
    case AOC_SERVICE_D: return ids.d;
    case AOC_SERVICE_E: return ids.e;
    default: return 0;
    }
}

AOC_INLINE uint8_t aoc_case_of(uint8_t service)
{
    switch (service) {
    case AOC_SERVICE_S: return AOC_CHARGING_CASE_S;
    case AOC_SERVICE_D: return AOC_CHARGING_CASE_D;
    case AOC_SERVICE_E: return AOC_CHARGING_CASE_E;
    default: return 255;
    }
}

/* ------------------------------------------------------------------ events */

AOC_INLINE aoc_event aoc_event_of(uint8_t kind)
{
    aoc_event event = {kind, {0, 0, 0}, 0, 0, 0};
    return event;
}

AOC_INLINE aoc_event aoc_event_of_setup(aoc_services asked, aoc_identifiers ids)
{
    aoc_event event = {AOC_EVENT_SETUP, asked, ids.s, ids.d, ids.e};
    return event;
}

/* ------------------------------------------------------------------ a call's event list */

AOC_INLINE void aoc_row_of(aoc_event event, uint16_t count, uint16_t *row)
{
    row[0] = event.kind;
    row[1] = AOC_TO(uint16_t, (event.asked.s ? 1 : 0) | (event.asked.d ? 2 : 0) | (event.asked.e ? 4 : 0));
    row[2] = event.s;
    row[3] = event.d;
    row[4] = event.e;
    row[5] = count;
}

AOC_INLINE aoc_event aoc_event_at(const uint16_t *row)
{
    /* a kind that is no octet is that of no event */
    aoc_event event = {AOC_TO(uint8_t, row[0] < 256 ? row[0] : 0),
                       {AOC_TO(uint8_t, row[1] & 1), AOC_TO(uint8_t, row[1] >> 1 & 1), AOC_TO(uint8_t, row[1] >> 2 & 1)},
                       row[2], row[3], row[4]};
    return event;
}

/* The row of an event with octets of any length. */
static inline void aoc_put_row(aoc_event event, size_t length, uint16_t *row)
{
    size_t count = event.kind != AOC_EVENT_COMPONENT ? 0 : length < 65535 ? length : 65535;
    aoc_row_of(event, AOC_TO(uint16_t, count), row);
}

/* Whether the lengths of whole rows add up. */
static inline bool aoc_adds_up(const uint16_t *rows, size_t numbers, size_t length)
{
    for (size_t i = 0; i < numbers; i += AOC_ROW_NUMBERS) {
        if (rows[i + 5] > length)
            return false;
        length -= rows[i + 5];
    }
    return length == 0;
}

AOC_INLINE aoc_outcome aoc_take(aoc_account *account, aoc_event event, const uint8_t *octets, size_t length, uint16_t *row)
{
    aoc_put_row(event, length, row);
    return aoc_step(account, event, octets, length);
}

AOC_INLINE aoc_refusal aoc_replay(const uint16_t *rows, size_t numbers, const uint8_t *octets, size_t length, aoc_account *account)
{
    size_t left;
    *account = aoc_fresh();
    if (numbers % AOC_ROW_NUMBERS != 0 || !aoc_adds_up(rows, numbers, length))
        return AOC_REFUSED_LENGTHS;
    left = length;
    for (size_t i = 0; i < numbers; i += AOC_ROW_NUMBERS) {
        aoc_event event = aoc_event_at(rows + i);
        size_t count = rows[i + 5];
        if (count > left)       /* never: the lengths add up */
            return AOC_REFUSED_LENGTHS;
        if (count != 0)
            (void)aoc_step(account, event, octets + (length - left), count);
        else
            (void)aoc_step(account, event, NULL, 0);
        left -= count;
    }
    return AOC_ACCEPTED;
}

AOC_INLINE aoc_trace_answer aoc_accepted_events(const uint16_t *rows, size_t numbers, const uint8_t *octets, size_t length,
                                                uint16_t *kept, size_t row_room, uint8_t *out, size_t out_room)
{
    aoc_trace_answer answer = {AOC_ACCEPTED, 0, 0, 0};
    aoc_account account = aoc_fresh();
    size_t at, used, put;       /* octets of the list that are done, octets that were copied, numbers that were copied */
    if (numbers % AOC_ROW_NUMBERS != 0 || !aoc_adds_up(rows, numbers, length)) {
        answer.refusal = AOC_REFUSED_LENGTHS;
        return answer;
    }
    if (row_room < numbers || out_room < length) {
        answer.refusal = AOC_REFUSED_NO_ROOM;
        return answer;
    }
    put = 0;
    at = 0;
    used = 0;
    for (size_t i = 0; i < numbers; i += AOC_ROW_NUMBERS) {
        aoc_event event = aoc_event_at(rows + i);
        aoc_outcome outcome;
        size_t count = rows[i + 5];
        /* never: the lengths add up, and there is room for the whole list */
        if (count > length - at || count > out_room - used || put + AOC_ROW_NUMBERS > row_room)
            break;
        if (count != 0)
            outcome = aoc_step(&account, event, octets + at, count);
        else
            outcome = aoc_step(&account, event, NULL, 0);
        if (!aoc_is_refusal(outcome.number)) {
            memcpy(kept + put, rows + i, AOC_ROW_NUMBERS * sizeof *rows);
            if (count != 0)
                memcpy(out + used, octets + at, count);
            put += AOC_ROW_NUMBERS;
            used += count;
        }
        at += count;
    }
    answer.events = put / AOC_ROW_NUMBERS;
    answer.octets = used;
    return answer;
}

/* Whether two events of lists are the same: their rows, and so many octets. */
static inline bool aoc_same_row(const uint16_t *row, const uint16_t *other)
{
    for (size_t i = 0; i < AOC_ROW_NUMBERS; i++)
        if (row[i] != other[i])
            return false;
    return true;
}

static inline bool aoc_same_octets(const uint8_t *octets, const uint8_t *others, size_t count)
{
    for (size_t i = 0; i < count; i++)
        if (octets[i] != others[i])
            return false;
    return true;
}

AOC_INLINE aoc_fault_answer aoc_fault_of_accepted(const uint16_t *rows, size_t numbers, const uint8_t *octets, size_t length,
                                                  uint16_t *kept, size_t row_room, uint8_t *out, size_t out_room)
{
    /* by a pointer, so that no compiler has its account lie on the stack while aoc_fault runs */
    aoc_trace_answer (*volatile accepted)(const uint16_t *, size_t, const uint8_t *, size_t, uint16_t *, size_t, uint8_t *,
                                          size_t) = aoc_accepted_events;
    aoc_trace_answer list = accepted(rows, numbers, octets, length, kept, row_room, out, out_room);
    aoc_fault_answer fault = {AOC_TO(uint32_t, list.refusal), AOC_RULE_KEPT, 0};
    size_t at, used, put = 0;
    uint64_t to_find;
    if (list.refusal != AOC_ACCEPTED || list.events > numbers / AOC_ROW_NUMBERS)        /* the second never */
        return fault;
    fault = aoc_fault(kept, AOC_ROW_NUMBERS * list.events, out, list.octets);
    /* Its number among all events. An accepted event is the first that equals it after the accepted event before: between the two
     * nothing changes the account, so an equal one there would have been accepted itself. */
    to_find = fault.event;
    at = 0;
    used = 0;
    for (size_t i = 0; i + 5 < numbers && to_find > 0; i += AOC_ROW_NUMBERS) {
        size_t count = rows[i + 5];
        if (count > length - at || count > length - used || put + AOC_ROW_NUMBERS > row_room)   /* never, as above */
            break;
        if (aoc_same_row(rows + i, kept + put) && (count == 0 || aoc_same_octets(octets + at, out + used, count))) {
            put += AOC_ROW_NUMBERS;
            used += count;
            to_find--;
            fault.event = i / AOC_ROW_NUMBERS + 1;
        }
        at += count;
    }
    return fault;
}

/* ------------------------------------------------------------------ messages as they come */

AOC_INLINE aoc_trace_answer aoc_message_events(uint32_t direction, const uint8_t *octets, size_t length, uint16_t *rows,
                                               size_t row_room, uint8_t *out, size_t out_room)
{
    /* a length that a pair cannot hold becomes another one there, and does not add up */
    const uint32_t pair[AOC_PAIR_NUMBERS] = {AOC_TO(uint32_t, length), direction};
    return aoc_trace_events(pair, AOC_PAIR_NUMBERS, octets, length, rows, row_room, out, out_room);
}

AOC_INLINE bool aoc_call_key(uint32_t direction, const uint8_t *octets, size_t length, uint16_t *key)
{
    uint32_t value, began;
    if (length < 3 || octets[0] != 0x08 || octets[1] < 1 || octets[1] > 2 || length - 2 < octets[1])
        return false;
    value = octets[1] == 1 ? octets[2] & 0x7Fu : (octets[2] & 0x7Fu) << 8 | octets[3];
    began = (direction != AOC_FROM_USER) != (octets[2] >= 0x80) ? 0x8000u : 0;
    if (value == 0)
        return false;
    *key = AOC_TO(uint16_t, began | value);
    return true;
}

AOC_INLINE bool aoc_next_facility(const uint8_t *octets, size_t length, size_t *place, size_t *from)
{
    bool locked = false, once = false;
    if (length < 3 || octets[0] != 0x08 || octets[1] > 2 || length - 3 < octets[1])
        return false;
    for (size_t at = AOC_TO(size_t, 3) + octets[1]; at < length;) {
        bool hidden = locked || once;
        size_t end;
        once = false;
        if (octets[at] >= 0x80) {       /* one octet; 90 to 97 lock a shift, 98 to 9F shift the next element */
            locked = locked || (octets[at] >= 0x90 && octets[at] <= 0x97);
            once = octets[at] >= 0x98 && octets[at] <= 0x9F;
            at++;
            continue;
        }
        if (at + 1 >= length || length - at - 2 < octets[at + 1])
            return false;
        end = at + 2 + octets[at + 1];
        if (octets[at] == 0x1C && !hidden && at >= *place) {
            *from = at;
            *place = end;
            return true;
        }
        at = end;
    }
    return false;
}

/* ------------------------------------------------------------------ a switchboard */

AOC_INLINE void aoc_board_clear(aoc_board *board)
{
    memset(board, 0, sizeof *board);
}

AOC_INLINE aoc_outcome aoc_board_take(aoc_board *board, uint16_t reference, aoc_event event, const uint8_t *octets, size_t length,
                                      uint16_t *row)
{
    aoc_put_row(event, length, row);
    return aoc_board_event(board, reference, event, octets, length);
}

AOC_INLINE aoc_refusal aoc_board_replay(aoc_board *board, uint16_t reference, const uint16_t *rows, size_t numbers,
                                        const uint8_t *octets, size_t length)
{
    size_t rest;
    if (numbers % AOC_ROW_NUMBERS != 0 || !aoc_adds_up(rows, numbers, length))
        return AOC_REFUSED_LENGTHS;
    if (aoc_board_view(board, reference).refusal == AOC_ACCEPTED)
        return AOC_REFUSED_IN_USE;
    rest = length;
    for (size_t i = 0; i < numbers; i += AOC_ROW_NUMBERS) {
        aoc_event event = aoc_event_at(rows + i);
        aoc_outcome outcome;
        size_t count = rows[i + 5];
        if (count > rest)       /* never: the lengths add up */
            return AOC_REFUSED_LENGTHS;
        if (count != 0)
            outcome = aoc_board_event(board, reference, event, octets + (length - rest), count);
        else
            outcome = aoc_board_event(board, reference, event, NULL, 0);
        if (outcome.number == AOC_REFUSED_FULL)
            return AOC_REFUSED_FULL;
        rest -= count;
    }
    return AOC_ACCEPTED;
}

/* ------------------------------------------------------------------ a month's figures */

AOC_INLINE aoc_refusal aoc_month_post(aoc_month *month, const aoc_closing *closing)
{
    aoc_month_added added = aoc_month_add(*month, *closing);
    *month = added.month;
    return AOC_TO(aoc_refusal, added.refusal);
}

AOC_INLINE size_t aoc_month_rows(const aoc_month *month)
{
    size_t most = AOC_LIMIT_MONTH_CURRENCIES;
    return month->count < most ? month->count : most;
}

AOC_INLINE aoc_month_currency aoc_month_row(const aoc_month *month, size_t index)
{
    aoc_month_currency none;
    memset(&none, 0, sizeof none);
    return index < aoc_month_rows(month) ? month->rows[index] : none;
}

AOC_INLINE uint64_t aoc_month_units(const aoc_month *month, size_t type)
{
    return type < AOC_MONTH_TYPES ? month->units[type] : 0;
}

AOC_INLINE uint32_t aoc_month_place(const aoc_month *month, uint32_t service, uint32_t billing)
{
    if ((service != AOC_SERVICE_D && service != AOC_SERVICE_E) || AOC_MONTH_BILLINGS <= billing)
        return 0;
    return month->table[service - AOC_SERVICE_D][billing];
}

/* ------------------------------------------------------------------ the layout that the library has */

#ifdef __cplusplus
#define AOC_LAYOUT(fact) static_assert(fact, #fact)
#else
#define AOC_LAYOUT(fact) _Static_assert(fact, #fact)
#endif
AOC_LAYOUT(sizeof(aoc_currency) == 11);
AOC_LAYOUT(sizeof(aoc_money) == 16 && offsetof(aoc_money, multiplier) == 11 && offsetof(aoc_money, number) == 12);
AOC_LAYOUT(sizeof(aoc_association) == 26 && offsetof(aoc_association, count) == 2);
AOC_LAYOUT(offsetof(aoc_association, kind) == 4 && offsetof(aoc_association, plan) == 5);
AOC_LAYOUT(offsetof(aoc_association, digits) == 6);
AOC_LAYOUT(sizeof(aoc_unit) == 2 && sizeof(aoc_rate) == 18 && sizeof(aoc_rate_numbers) == 12);
AOC_LAYOUT(offsetof(aoc_rate, multiplier) == 6 && offsetof(aoc_rate, currency) == 7);
AOC_LAYOUT(sizeof(aoc_charge) == 368 && offsetof(aoc_charge, association) == 16);
AOC_LAYOUT(offsetof(aoc_charge, kind) == 42 && offsetof(aoc_charge, count) == 47);
AOC_LAYOUT(offsetof(aoc_charge, numbers) == 48 && offsetof(aoc_charge, rate_numbers) == 48);
AOC_LAYOUT(offsetof(aoc_charge, octets) == 176 && offsetof(aoc_charge, units) == 176);
AOC_LAYOUT(offsetof(aoc_charge, rates) == 176);
AOC_LAYOUT(sizeof(aoc_record) == 376 && offsetof(aoc_record, id) == 2 && offsetof(aoc_record, operation) == 4);
AOC_LAYOUT(offsetof(aoc_record, detail) == 7 && offsetof(aoc_record, charge) == 8);
AOC_LAYOUT(sizeof(aoc_answer) == 384 && offsetof(aoc_answer, offset) == 4 && offsetof(aoc_answer, record) == 8);
AOC_LAYOUT(sizeof(aoc_refusal_at) == 8 && offsetof(aoc_refusal_at, offset) == offsetof(aoc_answer, offset));
AOC_LAYOUT(sizeof(aoc_next_answer) == 24 && offsetof(aoc_next_answer, answer) == 16);
AOC_LAYOUT(sizeof(aoc_trunk) == 660 && offsetof(aoc_trunk, id) == 2 && offsetof(aoc_trunk, error) == 4);
AOC_LAYOUT(offsetof(aoc_trunk, operation) == 6 && offsetof(aoc_trunk, asked) == 8 && offsetof(aoc_trunk, user) == 16);
AOC_LAYOUT(offsetof(aoc_trunk, detail) == 42 && offsetof(aoc_trunk, zero) == 44 && offsetof(aoc_trunk, extended) == 48);
AOC_LAYOUT(offsetof(aoc_trunk, extension) == 50 && offsetof(aoc_trunk, charge) == 292);
AOC_LAYOUT(sizeof(aoc_either) == 1048 && offsetof(aoc_either, record) == 12 && offsetof(aoc_either, trunk) == 388);
AOC_LAYOUT(sizeof(aoc_judged) == 12 && offsetof(aoc_judged, family) == offsetof(aoc_either, family));
AOC_LAYOUT(sizeof(aoc_next_by_answer) == 32 && offsetof(aoc_next_by_answer, answer) == 16);
AOC_LAYOUT(sizeof(aoc_front) == 8 && offsetof(aoc_front, id) == offsetof(aoc_record, id));
AOC_LAYOUT(offsetof(aoc_front, operation) == offsetof(aoc_record, operation));
AOC_LAYOUT(sizeof(aoc_written) == 8 && offsetof(aoc_written, count) == 4);
AOC_LAYOUT(sizeof(aoc_services) == 3 && sizeof(aoc_identifiers) == 6 && sizeof(aoc_outcome) == 2);
AOC_LAYOUT(sizeof(aoc_event) == 10 && offsetof(aoc_event, asked) == 1 && offsetof(aoc_event, s) == 4);
AOC_LAYOUT(sizeof(aoc_account) == 1488 && offsetof(aoc_account, asked) == 1 && offsetof(aoc_account, s) == 4);
AOC_LAYOUT(offsetof(aoc_account, absent) == 10 && offsetof(aoc_account, conflict) == 13);
AOC_LAYOUT(offsetof(aoc_account, rate) == 16 && offsetof(aoc_account, running) == 384);
AOC_LAYOUT(offsetof(aoc_account, d_final) == 752 && offsetof(aoc_account, e_final) == 1120);
AOC_LAYOUT(sizeof(aoc_closing) == 372 && offsetof(aoc_closing, charge) == 4);
AOC_LAYOUT(sizeof(aoc_marks) == 6 && offsetof(aoc_marks, conflict) == 3);
AOC_LAYOUT(sizeof(aoc_pending) == 10 && offsetof(aoc_pending, s) == 4);
AOC_LAYOUT(sizeof(aoc_why_answer) == 16 && offsetof(aoc_why_answer, event) == 8);
AOC_LAYOUT(sizeof(aoc_fault_answer) == 16 && offsetof(aoc_fault_answer, rule) == 4 && offsetof(aoc_fault_answer, event) == 8);
AOC_LAYOUT(sizeof(aoc_priced) == 32 && offsetof(aoc_priced, is_free) == 4 && offsetof(aoc_priced, currency) == 5);
AOC_LAYOUT(offsetof(aoc_priced, thousandths) == 16 && offsetof(aoc_priced, quotient) == 24);
AOC_LAYOUT(sizeof(aoc_board) == 95488 && offsetof(aoc_board, calls) == 256);
AOC_LAYOUT(sizeof(aoc_collected) == 376 && offsetof(aoc_collected, closing) == 4);
AOC_LAYOUT(sizeof(aoc_viewed) == 1492 && offsetof(aoc_viewed, account) == 4);
AOC_LAYOUT(sizeof(aoc_month_currency) == 24 && offsetof(aoc_month_currency, unused) == 11);
AOC_LAYOUT(offsetof(aoc_month_currency, calls) == 12 && offsetof(aoc_month_currency, sum) == 16);
AOC_LAYOUT(sizeof(aoc_month) == 608 && offsetof(aoc_month, count) == 4 && offsetof(aoc_month, absent) == 8);
AOC_LAYOUT(offsetof(aoc_month, free_calls) == 12 && offsetof(aoc_month, units) == 16);
AOC_LAYOUT(offsetof(aoc_month, rows) == 152 && offsetof(aoc_month, table) == 536);
AOC_LAYOUT(sizeof(aoc_month_added) == 616 && offsetof(aoc_month_added, month) == 8);
AOC_LAYOUT(sizeof(aoc_trace_answer) == 32 && offsetof(aoc_trace_answer, message) == 8);
AOC_LAYOUT(offsetof(aoc_trace_answer, events) == 16 && offsetof(aoc_trace_answer, octets) == 24);
AOC_LAYOUT(sizeof(aoc_plain_outcome_answer) == 4 && offsetof(aoc_plain_outcome_answer, outcome) == 2);
AOC_LAYOUT(sizeof(aoc_plain_phase_answer) == 4 && offsetof(aoc_plain_phase_answer, phase) == 2);
AOC_LAYOUT(sizeof(aoc_plain_pending_answer) == 12 && offsetof(aoc_plain_pending_answer, pending) == 2);
AOC_LAYOUT(sizeof(aoc_plain_marks_answer) == 8 && offsetof(aoc_plain_marks_answer, marks) == 2);
AOC_LAYOUT(sizeof(aoc_plain_charge_answer) == 372 && offsetof(aoc_plain_charge_answer, charge) == 4);
AOC_LAYOUT(sizeof(aoc_plain_closing_answer) == 376 && offsetof(aoc_plain_closing_answer, closing) == 4);
#undef AOC_LAYOUT

/* Numbers lie low octet first, in what reading stores and in what writing is lent. */
#if defined(__BYTE_ORDER__) && __BYTE_ORDER__ != __ORDER_LITTLE_ENDIAN__
#error "the library is for processors with the low octet first: x86-64 and aarch64"
#endif

#endif
