/* Event lists for the tests of functions that take one. */
#include "check.h"

enum { SETUP = 1, CONNECT = 2, CLEAR = 3, RELEASED = 4, COMPONENT = 5, SUSPEND = 6, RESUME = 7, MOST = 12 };

struct event {
    uint16_t row[5];
    const char *hex;
};

/* A Setup's services are added up, 1 S, 2 D, 4 E. */
#define ASKS(asked, s, d, e) {{SETUP, asked, s, d, e}, ""}
#define PLAIN(kind) {{kind, 0, 0, 0, 0}, ""}
#define SAYS(hex) {{COMPONENT, 0, 0, 0, 0}, hex}

static uint16_t rows[MOST][AOC_ROW_NUMBERS];
static uint8_t octets[1024];
static size_t events, length;

/* The list in slices. A row of kind 0 is past its end. */
static inline void lay(const struct event *list)
{
    events = length = 0;
    for (; events < MOST && list->row[0]; events++, list++) {
        size_t n = unhex(list->hex, octets + length);
        memcpy(rows[events], list->row, sizeof list->row);
        rows[events][5] = (uint16_t)n;
        length += n;
    }
}

/* The numbers of the rows, copied so that they end at the other edge. */
static inline const uint16_t *lend_rows(size_t numbers)
{
    uint8_t *to = edges[1] - sizeof rows[0][0] * numbers;
    memcpy(to, rows, sizeof rows[0][0] * numbers);
    return (const uint16_t *)to;
}

/* More bits than three of the services, and what a kind does not use, are not looked at. */
static inline void fill_unused(void)
{
    for (size_t at = 0; at < events; at++) {
        if (rows[at][0] == SETUP)
            rows[at][1] |= 0xFFF8;
        else
            rows[at][1] = rows[at][2] = rows[at][3] = rows[at][4] = 0xFFFF;
    }
}
