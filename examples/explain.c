/* For a line engineer: octets as a person reads them, by the element names of ETS 300 182-1 (a public line) and of ECMA-212 (a trunk, QSIG),
 * or the refusal in words with the octets, the one that it names and the operation. Every answer names the line that it is of.
 * With --one-line each component is one line, for grep.
 *
 * Taken are: a component of a public line (A1 to A4); a component of either family behind its profile octet (91 or 9F); a Facility
 * element (1C), whose own profile octet says which; a layer 3 message (08), and a LAPD frame around one.
 *   As hex, one of them to a line: A1 1A, a11a, 0xA1, 0x1A, A1:1A, A1-1A, \xa1\x1a; behind a time or other words of a log, as syslog's
 *   "Nov 16 22:03:11 pbx01 isdn[312]:" or "call 12".
 *   As a dump over some lines: that of tshark -x, hexdump -C, xxd, od -Ax -tx1.
 * A # begins a comment. A line that is none of these is told with its number and why, and nothing of it is explained.
 *
 * What it tells of components comes from the library; its words are tested by tests/explain.sh and not proved.
 * Status: 0; 1 where a line was not taken, a component, element or message was refused, no octets came, or something could not be read or
 * written; 2 for usage. */
#include "explain_records.h"

/* The octets around one, which stands in brackets; nothing does where an element is missing. */
static void put_around(const uint8_t *octets, size_t n, size_t at, int missing)
{
    enum { AROUND = 8 };
    size_t from = at > AROUND ? at - AROUND : 0, to = n - at > AROUND ? at + AROUND + 1 : n;
    fputs(from ? "  .." : " ", stdout);
    for (size_t i = from; i < to; i++) {
        if (i == at && missing)
            fputs(" []", stdout);
        printf(i == at && !missing ? " [%02X]" : " %02X", octets[i]);
    }
    if (at >= to)
        fputs(" []", stdout);
    puts(to < n ? " .." : "");
}

/* ------------------------------------------------------------------ components, elements, messages, frames */

static bool in_line;            /* --one-line */
static unsigned long taken;     /* components, elements, messages, frames */

/* What is being explained: the line where it begins and, of a message, its name. */
struct source {
    struct place place;
    const char *message;
};

/* What stands ahead of each answer, and of each line that is not part of one. */
static void put_source(const struct source *source)
{
    if (!in_line) {
        put_place(stdout, source->place);
        fputs(": ", stdout);
        return;
    }
    if (source->place.file)
        printf("%s:", source->place.file);
    printf("%lu: %s%s", source->place.line, source->message ? source->message : "", source->message ? ": " : "");
}

static void not_taken(struct place place, const char *why, const char *what)
{
    if (in_line)
        put_source(&(struct source){place, NULL});
    else
        put_place(stdout, place);
    printf(in_line ? "not taken: %s%s\n" : " is not taken: %s%s\n", why, what);
    something_wrong = true;
}

static void explain_accepted(const aoc_either *answer)
{
    if (answer->family == AOC_FAMILY_TRUNK)
        (in_line ? trunk_in_line : explain_trunk)(&answer->trunk);
    else
        (in_line ? record_in_line : explain_record)(&answer->record);
}

/* Those of a trunk's components that speak to the exchange and not to its users. */
static const char *for_exchange(uint8_t profile, uint8_t first)
{
    return profile != AOC_PROFILE_TRUNK ? NULL : first == 0x8B ? "interpretation" : first == 0x92 ? "networkProtocolProfile" : NULL;
}

/* ------------------------------------------------------------------ what is refused */

/* The contents of an element at a place, by its length octets, which may have any form; false where it is not there. */
static bool contents_at(const uint8_t *octets, size_t n, size_t at, size_t *from, size_t *to)
{
    if (n < 2 || at > n - 2)
        return false;
    size_t length = octets[at + 1], more = length == 0x81 ? 1 : length == 0x82 ? 2 : 0;
    *from = at + 2 + more;
    if (*from > n || length > 0x82)
        return false;
    if (length == 0x80)
        length = n - *from;     /* to its end marker: what stands first is all that is looked at */
    if (more)
        length = more == 1 ? octets[at + 2] : (size_t)octets[at + 2] << 8 | octets[at + 3];
    *to = length > n - *from ? n : *from + length;
    return true;
}

/* Of a component that is refused: its operation or error, as far as its octets tell. */
static void put_operation(const uint8_t *octets, size_t n)
{
    size_t from, to, at, end;
    long value;
    const char *what = octets[0] == 0xA3 ? "error" : "operation";
    if (octets[0] < 0xA1 || octets[0] > 0xA3 || !contents_at(octets, n, 0, &from, &to))
        return;
    if (from >= n || octets[from] != 0x02 || !contents_at(octets, n, from, &at, &end))
        return;                 /* no identifier */
    at = end;
    if (octets[0] == 0xA2 && (at >= n || octets[at] != 0x30 || !contents_at(octets, n, at, &at, &end)))
        return;
    if (at < n && octets[at] == 0x06)
        printf(", %s an object identifier", what);
    if (at >= n || octets[at] != 0x02 || !contents_at(octets, n, at, &from, &to) || to == from || to - from > 4)
        return;
    value = octets[from] & 0x80 ? -1 : 0;
    for (; from < to; from++)
        value = value * 256 + octets[from];
    bool named = value >= 0 && strncmp(octets[0] == 0xA3 ? aoc_error_text((uint32_t)value) : aoc_operation_text((uint32_t)value), "no ", 3);
    printf(", %s %ld", what, value);
    if (named)
        printf(" (%s)", octets[0] == 0xA3 ? aoc_error_text((uint32_t)value) : aoc_operation_text((uint32_t)value));
}

/* Octets that are refused, whole up to the longest component. */
static void put_whole(const uint8_t *octets, size_t n)
{
    size_t shown = n > AOC_LIMIT_ELEMENT_OCTETS ? 16 : n;
    fputs("  ", stdout);
    put_octets(stdout, octets, shown);
    if (shown < n)
        printf(" .., %lu octets in all", (unsigned long)n);
    puts(n ? "" : "no octets");
}

static void put_refused(const uint8_t *octets, size_t n, const aoc_either *answer)
{
    printf("refused %u: %s", (unsigned)answer->refusal, aoc_refusal_text(answer->refusal));
    if (answer->offset)
        printf(", at offset %u of the component", (unsigned)answer->offset);
    something_wrong = true;
    if (!in_line && n)
        put_operation(octets, n);
    puts("");
    if (!in_line && answer->offset)
        put_around(octets, n, answer->offset, answer->refusal == AOC_REFUSED_MISSING);
    else if (!in_line)
        put_whole(octets, n);
}

static void explain_component(const struct source *source, uint8_t profile, const uint8_t *octets, size_t n)
{
    aoc_either answer;
    const char *other = n ? for_exchange(profile, octets[0]) : NULL;
    put_source(source);
    if (aoc_read_by(profile, octets, n, &answer) == AOC_ACCEPTED) {
        explain_accepted(&answer);
    } else if (other) {
        printf("%s, for the exchange alone: ", other);
        put_octets(stdout, octets, n);
        puts("");
    } else {
        put_refused(octets, n, &answer);
    }
}

static void explain_element(const struct source *source, const uint8_t *octets, size_t n)
{
    aoc_either answer;
    size_t place = AOC_FIRST_PLACE, from = place;
    for (; next_component(octets, n, &place, &answer); from = place) {
        if (!in_line) {
            put_source(source);
            printf("component at offset %lu of the element\n", (unsigned long)from);
        }
        explain_component(source, octets[2], octets + from, place - from);
    }
    if (answer.refusal == AOC_ACCEPTED)
        return;
    put_source(source);
    printf("refused %u: %s\n", (unsigned)answer.refusal, aoc_refusal_text(answer.refusal));
    something_wrong = true;
    if (!in_line)
        put_whole(octets, n);
}

static void explain_message(struct source source, const uint8_t *octets, size_t n)
{
    struct element element = {0, first_element(octets, n), false};
    size_t found = 0;
    if (!element.after) {
        put_source(&source);
        puts("refused: not a message to its exact end");
        something_wrong = true;
        if (!in_line)
            put_whole(octets, n);
        return;
    }
    uint8_t type = octets[element.after - 1];
    source.message = message_name(type);
    source.message = source.message ? source.message : "a message";
    if (!in_line) {
        put_source(&source);
        printf("%s (type %02X)\n", source.message, type);
    }
    while (next_element(octets, n, &element)) {
        if (octets[element.at] != ELEMENT_FACILITY)
            continue;
        if (!in_line) {
            put_source(&source);
            printf("Facility element at offset %lu of the message\n", (unsigned long)element.at);
        }
        explain_element(&source, octets + element.at, element.after - element.at);
        found++;
    }
    if (found)
        return;
    put_source(&source);
    puts("no Facility element in the message");
}

/* The head of a LAPD frame for signalling: two address octets, and one or two control octets. 0 for what is none, or has no message. */
static size_t frame_head(const uint8_t *octets, size_t n)
{
    if (n < 4 || (octets[0] & 0xFD) || !(octets[1] & 1))
        return 0;
    size_t head = !(octets[2] & 1) ? 4 : (octets[2] & 0xEF) == 0x03 ? 3 : 0;
    return head && n > head && octets[head] == 0x08 ? head : 0;
}

/* Whether octets may begin one of the things that are taken. */
static bool may_begin(uint8_t octet)
{
    return (octet >= 0xA1 && octet <= 0xA4) || octet == AOC_PROFILE_LINE || octet == AOC_PROFILE_TRUNK || octet == ELEMENT_FACILITY ||
           octet == 0x08 || octet == 0x00 || octet == 0x02;
}

/* Whether octets are one of them to its exact end. */
static bool is_whole(const uint8_t *octets, size_t n)
{
    aoc_either answer;
    size_t place = AOC_FIRST_PLACE, head = frame_head(octets, n);
    if (!n)
        return false;
    if (octets[0] == ELEMENT_FACILITY)
        return aoc_next_by(octets, n, &place, &answer);
    if (octets[0] >= 0xA1 && octets[0] <= 0xA4)
        return aoc_read_by(AOC_PROFILE_LINE, octets, n, &answer) == AOC_ACCEPTED;
    if (octets[0] == AOC_PROFILE_LINE || octets[0] == AOC_PROFILE_TRUNK)
        return aoc_read_by(octets[0], octets + 1, n - 1, &answer) == AOC_ACCEPTED;
    return first_element(octets + head, n - head) != 0;
}

static void explain_octets(struct place place, const uint8_t *octets, size_t n)
{
    struct source source = {place, NULL};
    size_t head = frame_head(octets, n);
    char first[4];
    taken++;
    if (head && !in_line) {
        put_source(&source);
        printf("LAPD frame, its message at offset %lu\n", (unsigned long)head);
    }
    snprintf(first, sizeof first, "%02X", octets[0]);
    if (octets[0] >= 0xA1 && octets[0] <= 0xA4)
        explain_component(&source, AOC_PROFILE_LINE, octets, n);
    else if (octets[0] == AOC_PROFILE_LINE || octets[0] == AOC_PROFILE_TRUNK)
        explain_component(&source, octets[0], octets + 1, n - 1);
    else if (octets[0] == 0x1C)
        explain_element(&source, octets, n);
    else if (head || octets[0] == 0x08)
        explain_message(source, octets + head, n - head);
    else
        not_taken(place, "a component begins with A1 to A4, or with its profile octet 91 or 9F; an element with 1C, a message with 08 or a LAPD head; this begins with ", first);
}

/* ------------------------------------------------------------------ lines */

enum { MOST = 4096 };

static struct {
    uint8_t octets[MOST];
    size_t n;
    struct place place;         /* where they begin */
} held;

static void explain_held(void)
{
    if (held.n)
        explain_octets(held.place, held.octets, held.n);
    held.n = 0;
}

static void drop_held(const char *why)
{
    not_taken(input.place, why, "");
    held.n = 0;
}

static size_t digits_at(const char *text)
{
    size_t n = 0;
    while (digit(text[n]) >= 0)
        n++;
    work += n + 1;
    return n;
}

/* Whether there was room for the octets of so many digits. */
static bool hold(const char *text, size_t digits)
{
    for (size_t i = 0; i + 1 < digits; i += 2) {
        if (held.n == MOST)
            return false;
        held.octets[held.n++] = (uint8_t)(digit(text[i]) << 4 | digit(text[i + 1]));
    }
    return true;
}

/* The octets of a dump's line, behind its offset; a wider gap parts them from what they are as characters. Null, or why they cannot
 * be taken. */
static const char *dump_octets(const char *text, bool grouped)
{
    static const char wrong[] = "not two hex digits for each octet";
    size_t before = held.n, length = strlen(text), gap;
    bool barred = text[length - 1] == '|';      /* hexdump -C, whose middle has a gap of two */
    do {
        text += strspn(text, " ");
        size_t digits = digits_at(text);
        if (!digits || (grouped ? digits % 2 : digits != 2) || (text[digits] && text[digits] != ' '))
            return wrong;
        if (!hold(text, digits))
            return "over 4096 octets";
        text += digits;
        gap = strspn(text, " ");
    } while (gap == 1 || (gap == 2 && barred && held.n - before == 8));
    size_t characters = strlen(text + gap);
    if (barred && characters > 1 && text[gap] == '|')
        characters -= 2;
    return characters > held.n - before ? wrong : NULL;
}

/* Takes a line of a dump: an offset of four digits or more, then octets. False where it is none. */
static bool dump_line(const char *text)
{
    size_t digits = digits_at(text), offset = 0;
    const char *behind = text + digits;
    bool grouped = *behind == ':' && behind[1] == ' ';
    if (held.n && !strcmp(text, "*")) {
        drop_held("the dump leaves octets out: dump them all, as by hexdump -Cv");
        return true;
    }
    if (digits < 4 || digits > 8)
        return false;
    for (size_t i = 0; i < digits; i++)
        offset = offset << 4 | (size_t)digit(text[i]);
    if (!*behind && held.n && offset == held.n)
        return true;            /* its end, by hexdump or od */
    size_t blanks = strspn(behind, " ");
    bool fits = offset == 0 || (held.n && offset == held.n);
    if (!grouped && !(blanks && digits_at(behind + blanks) == 2 && (blanks > 1 || (digits > 4 && fits))))
        return false;
    if (offset == 0) {
        explain_held();
        held.place = input.place;
    }
    const char *why = fits ? dump_octets(behind + grouped, grouped) : held.n ? "the dump's offset does not go on" : "the dump does not begin at offset 0";
    if (why)
        drop_held(why);
    return true;
}

/* A time or a date ahead of the octets: digits alone, as 22:03, 22:03:11.482 or 2026-11-16. */
static bool is_time(const char *word, size_t n)
{
    size_t colons = 0, dashes = 0;
    for (size_t i = 0; i < n; i++) {
        if (!strchr("0123456789:.,-TZ", word[i]))
            return false;
        colons += word[i] == ':';
        dashes += word[i] == '-';
    }
    return (colons > 0 && colons < 3) || (dashes == 2 && n > 4 && word[4] == '-');
}

/* Holds the octets of a word in any of its spellings; false where it is not octets alone. */
static bool word_octets(const char *word, size_t n)
{
    static const char between[] = ",:;-{}[]()\"'";
    size_t before = held.n, i = 0;
    while (i < n) {
        if (strchr(between, word[i])) {
            i++;
            continue;
        }
        bool escaped = word[i] == '\\' && word[i + 1] == 'x';
        if (escaped || (word[i] == '0' && (word[i + 1] == 'x' || word[i + 1] == 'X')))
            i += 2;
        size_t digits = digits_at(word + i);
        i += digits;
        if (!digits || digits % 2 || (i < n && !strchr(between, word[i]) && !(escaped && word[i] == '\\')) || !hold(word + i - digits, digits)) {
            held.n = before;
            return false;
        }
    }
    return true;
}

/* Whether a word ahead of the octets is a number of a log, such as a day or a call's, and no octet that anything begins with. */
static bool is_number(const char *word, size_t n)
{
    size_t digits = strspn(word, "0123456789");
    if (digits == 0 || digits < n - (n > digits && strchr(":,;", word[digits])))
        return false;
    return !may_begin((uint8_t)(digit(word[0]) << 4 | digit(word[1])));
}

/* Whether a word that is no octets looks like a damaged one: of two characters, one of which is a digit of hex. */
static bool is_damaged(const char *word, size_t n)
{
    return n == 2 && (digit(word[0]) >= 0 || digit(word[1]) >= 0);
}

/* A line of hex. The octets are the last of its words; those ahead of them are a log's. Where something else stands between octets that may
 * begin what is taken, the line is damaged, and nothing of it is explained. */
static void hex_line(const char *text)
{
    enum { SHOWN = 30, FEW = 3 };
    char word[SHOWN + 3];
    bool odd = false;           /* the word that is kept has an odd number of digits */
    bool head = false;          /* words of a log stand ahead */
    size_t number = 0;          /* how many octets are those of a number right behind a word of the log */
    held.place = input.place;
    while (*(text += strspn(text, " \t")) && *text != '#') {
        size_t n = strcspn(text, " \t"), before = held.n;
        bool more = text[n + strspn(text + n, " \t")] != 0;
        bool of_log = more && ((held.n < 2 && is_time(text, n)) || (held.n == 0 && head && is_number(text, n)));
        if (of_log) {
            held.n = 0;
            head = true;
        } else if (word_octets(text, n)) {
            if (before == 0)
                number = head && strspn(text, "0123456789") == n ? held.n : 0;
        } else {
            if (held.n + n / 2 > MOST && digits_at(text) >= 2) {
                drop_held("over 4096 octets");
                return;
            }
            bool damaged = held.n && may_begin(held.octets[0]) && (held.n >= FEW || is_damaged(text, n) || !more);
            if (!odd || damaged) {
                snprintf(word, sizeof word, "%.*s%s", (int)(n < SHOWN ? n : SHOWN), text, n > SHOWN ? ".." : "");
                odd = digits_at(text) == n;
            }
            if (damaged) {
                held.n = 0;
                not_taken(input.place, odd ? "an odd number of hex digits: " : "not octets in hex: ", word);
                return;
            }
            held.n = 0;
            head = true;
        }
        text += n;
    }
    if (number && !is_whole(held.octets, held.n) && is_whole(held.octets + number, held.n - number)) {
        held.n -= number;
        memmove(held.octets, held.octets + number, held.n);
    }
    if (!held.n)
        not_taken(input.place, odd ? "an odd number of hex digits: " : "no octets in hex", odd ? word : "");
    explain_held();
}

static void take_line(char *text)
{
    size_t n = strlen(text);
    while (n && strchr(" \t\r", text[n - 1]))
        text[--n] = 0;
    text += strspn(text, " \t");
    if (input.place.line == 1)
        explain_held();         /* of the file before */
    if (dump_line(text))
        return;
    explain_held();
    if (*text && *text != '#')
        hex_line(text);
}

static const char help[] =
    "usage: explain [--one-line] [FILE..]\n"
    "\n"
    "Octets of FILE.. or standard input as a line engineer reads them: components of ETS 300 182-1 and ECMA-212, Facility\n"
    "elements, layer 3 messages, LAPD frames; in hex of any spelling behind the words of a log, or as a dump (tshark -x,\n"
    "hexdump -C, xxd, od -Ax -tx1).\n"
    "  --one-line   each component in one line, for grep\n"
    "Status: 0; 1 where something was refused or not taken, or could not be read or written; 2 for usage.\n";

static bool option(const char *text)
{
    return !in_line && !strcmp(text, "--one-line") && (in_line = true);
}

int main(int arguments, char **argument)
{
    const char *why;
    take_arguments("explain", help, arguments, argument, option);
    while (next_line(&why)) {
        if (why) {
            explain_held();
            not_taken(input.place, why, "");
        } else {
            take_line(input.text);
        }
    }
    explain_held();
    if (!taken && !something_wrong) {
        fputs("explain: no octets came\n", stderr);
        something_wrong = true;
    }
    return ended();
}
