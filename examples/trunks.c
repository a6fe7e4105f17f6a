/* The line program for both families of components: each line of standard input is octets in hex, two digits each with one space
 * between them, the profile octet of the component's element first (91 a public line's, 9F a trunk's) and then the component.
 * It prints for each line the component again in its shortest form, without the profile octet; or `refused` and the number; or `bad line` for a
 * line that is no octets, or has not even a profile octet.
 *
 * Reading and writing are the library's; the lines are tested by tests/trunks.sh and not proved.
 * Status: 0, whatever the answers are; 1 where something could not be read or written; 2 for usage. */
#include "common.h"

/* One octet past the longest component is kept, which is enough to be told that it is too long. */
enum { KEPT = AOC_LIMIT_COMPONENT_OCTETS + 1 };

struct line {
    size_t count;               /* of octets, the profile octet with them */
    uint8_t profile;
    uint8_t octets[KEPT];
    int first;                  /* the first digit of an octet of which the second is to come, or -1 */
    bool between;               /* an octet has just ended, so that a space may come */
    bool bad;
};

static void keep(struct line *line, uint8_t octet)
{
    if (line->count == 0)
        line->profile = octet;
    else if (line->count <= KEPT)
        line->octets[line->count - 1] = octet;
    line->count++;
}

/* One character of a line: digits in pairs, and one space between two pairs. */
static void take(struct line *line, char c)
{
    int value = digit(c);
    if (line->first >= 0 && value >= 0) {
        keep(line, (uint8_t)(line->first << 4 | value));
        line->first = -1;
        line->between = true;
    } else if (line->between && c == ' ') {
        line->between = false;
    } else if (!line->between && line->first < 0 && value >= 0) {
        line->first = value;
    } else {
        line->bad = true;
    }
}

static void answer(const struct line *line)
{
    aoc_either found;
    uint8_t written[AOC_LIMIT_COMPONENT_OCTETS];
    size_t n = line->count <= KEPT ? line->count - 1 : KEPT;
    if (line->bad || !line->between) {
        puts("bad line");
    } else if (aoc_read_by(line->profile, line->octets, n, &found) != AOC_ACCEPTED) {
        printf("refused %u\n", (unsigned)found.refusal);
    } else {
        aoc_written again = aoc_write_by(line->profile, &found, written, sizeof written);
        put_octets(stdout, written, again.count);
        puts("");
    }
}

static const char help[] =
    "usage: trunks [FILE..]\n"
    "\n"
    "Components of both families, from FILE.. or standard input, read and written again in their shortest form: each line is\n"
    "octets in hex with one space between them, the profile octet of the component's element first, 91 or 9F.\n"
    "Status: 0, whatever the answers are; 1 where something could not be read or written; 2 for usage.\n";

int main(int arguments, char **argument)
{
    const char *why;
    take_arguments("trunks", help, arguments, argument, NULL);
    input.as_is = true;
    while (next_line(&why)) {
        struct line line = {.first = -1, .bad = why != NULL};
        for (const char *c = input.text; *c; c++)
            take(&line, *c);
        answer(&line);
    }
    return ended();
}
