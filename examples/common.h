/* What the programs of this folder share: their manners on the command line, how they read lines, memory, a table of keys, and the
 * layer 3 messages of ETS 300 102-1: names, elements. Each program is one C file that includes this one.
 *
 * The manners: a program takes FILE.. or, where none is named (or for -), standard input; --help and --version; an option that it does
 * not know is a usage error. Status: 0; 1 where something was refused or lost, or could not be read or written; 2 for usage. */
#ifndef COMMON_H
#define COMMON_H

#include <errno.h>
#include <stdio.h>
#include <stdlib.h>
#include <string.h>

#include "aoc_text.h"

/* Steps of the program: characters read, keys compared, rows handed over to a question about a list. With AOC_WORK in the environment
 * they are told at the end, so that a test can see that they grow with the input and no faster. */
static unsigned long long work;
static const char *program_name;
static bool something_wrong;    /* the status is 1 */

/* Something that ends the program. */
static inline void give_up(const char *why)
{
    fprintf(stderr, "%s: %s\n", program_name, why);
    exit(1);
}

/* ------------------------------------------------------------------ memory */

/* Memory with room for so many more behind those that are in use. */
static inline void *grown(void *memory, size_t used, size_t more, size_t *room, size_t size)
{
    size_t wanted = *room ? *room : 16;
    if (more <= *room - used)
        return memory;
    while (wanted - used < more) {
        if (wanted > SIZE_MAX / 2 / size)
            give_up("memory is short");
        wanted *= 2;
    }
    memory = realloc(memory, wanted * size);
    if (!memory)
        give_up("memory is short");
    *room = wanted;
    return memory;
}

/* Memory for so many; for none there is some too. */
static inline void *room_for(size_t count, size_t size)
{
    size_t room = 0;
    return grown(NULL, 0, count ? count : 1, &room, size);
}

/* A table of keys, each some octets. A key has a number, from 0, in the order in which they came. */
struct table {
    struct {
        char *key;              /* a copy, with a NUL behind it */
        size_t length;
        uint64_t hash;
    } *keys;
    size_t count, room;
    size_t *slots;              /* one more than a key's number, 0 for none */
    size_t slot_count;          /* a power of two, more than twice the keys */
};

static inline size_t slot_of(const struct table *table, const void *key, size_t length, uint64_t hash)
{
    size_t slot = (size_t)hash & (table->slot_count - 1);
    for (; table->slots[slot]; slot = (slot + 1) & (table->slot_count - 1)) {
        size_t i = table->slots[slot] - 1;
        work++;
        if (table->keys[i].hash == hash && table->keys[i].length == length && !memcmp(table->keys[i].key, key, length))
            break;
    }
    return slot;
}

static inline void make_slots(struct table *table)
{
    table->slot_count = table->slot_count ? 2 * table->slot_count : 64;
    free(table->slots);
    table->slots = calloc(table->slot_count, sizeof *table->slots);
    if (!table->slots)
        give_up("memory is short");
    for (size_t i = 0; i < table->count; i++)
        table->slots[slot_of(table, table->keys[i].key, table->keys[i].length, table->keys[i].hash)] = i + 1;
}

/* The number of a key, which is put in where it is not there. */
static inline size_t number_of_key(struct table *table, const void *key, size_t length)
{
    uint64_t hash = 14695981039346656037u;
    for (size_t i = 0; i < length; i++)
        hash = (hash ^ ((const unsigned char *)key)[i]) * 1099511628211u;
    hash ^= hash >> 29;
    if (2 * table->count >= table->slot_count)
        make_slots(table);
    size_t slot = slot_of(table, key, length, hash), number = table->count;
    if (table->slots[slot])
        return table->slots[slot] - 1;
    table->keys = grown(table->keys, table->count, 1, &table->room, sizeof *table->keys);
    char *copy = room_for(length + 1, 1);
    memcpy(copy, key, length);
    copy[length] = 0;
    table->keys[number].key = copy;
    table->keys[number].length = length;
    table->keys[number].hash = hash;
    table->slots[slot] = ++table->count;
    return number;
}

/* A text that is kept until the program ends, once however often it comes: equal texts have equal pointers. */
static inline const char *kept_part(const char *text, size_t length)
{
    static struct table texts;
    size_t number = number_of_key(&texts, text, length);
    return texts.keys[number].key;
}

static inline const char *kept(const char *text)
{
    return kept_part(text, strlen(text));
}

/* ------------------------------------------------------------------ lines */

/* Where a line stands. */
struct place {
    const char *file;           /* null where only one is read */
    unsigned long line;         /* from 1 */
};

static struct input {
    char **names;               /* of the files that are to be read */
    int count, next;
    FILE *file;
    bool as_is;                 /* nothing is left out of a line */
    struct place place;
    char *text;
    size_t room;
} input;

static inline void cannot_be_read(const char *name)
{
    fprintf(stderr, "%s: %s: cannot be read: %s\n", program_name, name, strerror(errno));
    something_wrong = true;
}

/* Opens the next file that can be read; false where there is none. */
static inline bool next_file(void)
{
    while (!input.file && input.next < input.count) {
        const char *name = input.names[input.next++];
        bool standard = !strcmp(name, "-");
        input.place = (struct place){input.count > 1 ? name : NULL, 0};
        input.file = standard ? stdin : fopen(name, "rb");
        if (!input.file)
            cannot_be_read(name);
    }
    return input.file;
}

/* The next line of the input without its end, in input.text, with its place in input.place; false at the end of the input. A line with a NUL
 * in it is not cut: `why` says so. The mark that some editors put ahead of a text is left out where input.as_is does not forbid it. */
static inline bool next_line(const char **why)
{
    *why = NULL;
    for (; next_file(); input.file = NULL) {
        size_t n = 0;
        int c = getc(input.file);
        bool any = c != EOF;
        for (; c != EOF && c != '\n'; c = getc(input.file)) {
            if (n + 1 >= input.room)
                input.text = grown(input.text, n, 2, &input.room, 1);
            input.text[n++] = (char)c;
            if (c == 0)
                *why = "a NUL in it";
        }
        work += n + 1;
        if (ferror(input.file)) {
            cannot_be_read(input.names[input.next - 1]);
            any = false;
        }
        if (any) {
            input.text = grown(input.text, n, 1, &input.room, 1);
            input.text[n] = 0;
            if (++input.place.line == 1 && !input.as_is && n >= 3 && !memcmp(input.text, "\xEF\xBB\xBF", 3))
                memmove(input.text, input.text + 3, n - 2);
            return true;
        }
        if (input.file != stdin)
            fclose(input.file);
        *why = NULL;
    }
    return false;
}

static inline void put_place(FILE *to, struct place place)
{
    if (place.file)
        fprintf(to, "%s ", place.file);
    fprintf(to, "line %lu", place.line);
}

/* ------------------------------------------------------------------ the command line */

static inline void usage(const char *help)
{
    fprintf(stderr, "%s: %.*s; --help tells more\n", program_name, (int)strcspn(help, "\n"), help);
    exit(2);
}

/* Goes through the arguments: `option` takes an option of the program's own, and says whether it is one. The files are then in `input`.
 * The first line of the help is its usage. */
static inline void take_arguments(const char *name, const char *help, int count, char **argument, bool (*option)(const char *))
{
    static char standard[] = "-", *only_standard[] = {standard};
    bool files_only = false;
    program_name = name;
    input.names = argument;     /* they are moved to the front */
    for (int i = 1; i < count; i++) {
        char *a = argument[i];
        if (files_only || *a != '-' || !a[1]) {
            input.names[input.count++] = a;
        } else if (!strcmp(a, "--help")) {
            fputs(help, stdout);
            exit(fflush(stdout) || ferror(stdout) ? 1 : 0);
        } else if (!strcmp(a, "--version")) {
            printf("%s %s\n", program_name, AOC_VERSION_TEXT);
            exit(fflush(stdout) || ferror(stdout) ? 1 : 0);
        } else if (!strcmp(a, "--")) {
            files_only = true;
        } else if (!option || !option(a)) {
            usage(help);
        }
    }
    if (aoc_version() != AOC_VERSION)
        give_up("it is linked with another version of the library than it was compiled for");
    if (!input.count) {
        input.names = only_standard;
        input.count = 1;
    }
}

/* The status of a program that has done its work. */
static inline int ended(void)
{
    if (fflush(stdout) || ferror(stdout)) {
        fprintf(stderr, "%s: the output cannot be written: %s\n", program_name, strerror(errno));
        something_wrong = true;
    }
    if (getenv("AOC_WORK"))
        fprintf(stderr, "work %llu\n", work);
    return something_wrong ? 1 : 0;
}

/* ------------------------------------------------------------------ hex */

static inline int digit(char c)
{
    return c >= '0' && c <= '9' ? c - '0' : c >= 'A' && c <= 'F' ? c - 'A' + 10 : c >= 'a' && c <= 'f' ? c - 'a' + 10 : -1;
}

static inline void put_octets(FILE *to, const uint8_t *octets, size_t n)
{
    for (size_t i = 0; i < n; i++)
        fprintf(to, i ? " %02X" : "%02X", octets[i]);
}

/* ------------------------------------------------------------------ layer 3 messages */

enum {
    MESSAGE_SETUP = 0x05,
    MESSAGE_CONNECT = 0x07,
    MESSAGE_SUSPEND = 0x25,
    MESSAGE_RESUME = 0x26,
    MESSAGE_SUSPEND_ACKNOWLEDGE = 0x2D,
    MESSAGE_RESUME_ACKNOWLEDGE = 0x2E,
    MESSAGE_DISCONNECT = 0x45,
    MESSAGE_RELEASE = 0x4D,
    MESSAGE_RELEASE_COMPLETE = 0x5A,
    MESSAGE_INFORMATION = 0x7B,
    ELEMENT_CALL_IDENTITY = 0x10,
    ELEMENT_FACILITY = 0x1C,
    ELEMENT_CALLING_NUMBER = 0x6C,
    ELEMENT_CALLED_NUMBER = 0x70
};

/* The name of a type of message; null for one that has none here. */
static inline const char *message_name(uint8_t type)
{
    static const struct {
        uint8_t type;
        const char *name;
    } names[] = {{0x01, "ALERTING"}, {0x02, "CALL PROCEEDING"}, {0x03, "PROGRESS"}, {0x05, "SETUP"}, {0x07, "CONNECT"},
                 {0x0D, "SETUP ACKNOWLEDGE"}, {0x0F, "CONNECT ACKNOWLEDGE"}, {0x20, "USER INFORMATION"}, {0x21, "SUSPEND REJECT"},
                 {0x22, "RESUME REJECT"}, {0x24, "HOLD"}, {0x25, "SUSPEND"}, {0x26, "RESUME"}, {0x28, "HOLD ACKNOWLEDGE"},
                 {0x2D, "SUSPEND ACKNOWLEDGE"}, {0x2E, "RESUME ACKNOWLEDGE"}, {0x30, "HOLD REJECT"}, {0x31, "RETRIEVE"},
                 {0x33, "RETRIEVE ACKNOWLEDGE"}, {0x37, "RETRIEVE REJECT"}, {0x45, "DISCONNECT"}, {0x46, "RESTART"}, {0x4D, "RELEASE"},
                 {0x4E, "RESTART ACKNOWLEDGE"}, {0x5A, "RELEASE COMPLETE"}, {0x60, "SEGMENT"}, {0x62, "FACILITY"}, {0x64, "REGISTER"},
                 {0x6E, "NOTIFY"}, {0x75, "STATUS ENQUIRY"}, {0x79, "CONGESTION CONTROL"}, {0x7B, "INFORMATION"}, {0x7D, "STATUS"}};
    for (size_t i = 0; i < sizeof names / sizeof *names; i++)
        if (names[i].type == type)
            return names[i].name;
    return NULL;
}

/* The place after the element at a place of a message; 0 where it runs past the end. An octet with its top bit set is an element
 * by itself, any other has a length octet. */
static inline size_t after_element(const uint8_t *octets, size_t n, size_t at)
{
    if (octets[at] & 0x80)
        return at + 1;
    return n - at < 2 || n - at - 2 < octets[at + 1] ? 0 : at + 2 + octets[at + 1];
}

/* Where the elements of a message begin, behind its reference and its type octet; 0 where it is not framed to its exact end. */
static inline size_t first_element(const uint8_t *octets, size_t n)
{
    if (n < 2 || octets[0] != 0x08 || octets[1] > 2 || n < 3u + octets[1])
        return 0;
    size_t first = 3u + octets[1], at = first;
    while (at && at < n)
        at = after_element(octets, n, at);
    return at ? first : 0;
}

/* Goes through the elements of a framed message that are under no shift. Begin with `after` as first_element gives it, and the rest 0. */
struct element {
    size_t at, after;
    bool locked;                /* a locking shift holds to the end of the message */
};

static inline bool next_element(const uint8_t *octets, size_t n, struct element *element)
{
    bool hidden = false;        /* by a shift for one element */
    while (element->after < n && !element->locked) {
        element->at = element->after;
        element->after = after_element(octets, n, element->at);
        if ((octets[element->at] & 0xF0) == 0x90) {
            hidden = true;
            element->locked = !(octets[element->at] & 8);
        } else if (hidden) {
            hidden = false;
        } else {
            return true;
        }
    }
    return false;
}

/* The next component of a Facility element, as aoc_next_by goes through it; at its end nothing is judged again. */
static inline bool next_component(const uint8_t *octets, size_t n, size_t *place, aoc_either *answer)
{
    if (*place != n || n == AOC_FIRST_PLACE)
        return aoc_next_by(octets, n, place, answer);
    answer->refusal = AOC_ACCEPTED;
    return false;
}

#endif
