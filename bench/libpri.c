/* libpri's side, through the functions that it exports for components. The declarations are our own, so that its headers of
 * its inner parts are not needed; a record is a block that is larger than any of its own. Debian: libpri-dev; link -lpri. */
#include "side.h"

struct pri;
struct pri *pri_new_cb(int fd, int node, int type, int (*in)(struct pri *, void *, int), int (*out)(struct pri *, void *, int), void *user);
void pri_set_message(void (*say)(struct pri *, char *));
void pri_set_error(void (*say)(struct pri *, char *));
const unsigned char *rose_decode(struct pri *, const unsigned char *from, const unsigned char *end, void *record);
unsigned char *rose_encode(struct pri *, unsigned char *from, unsigned char *end, const void *record);

enum { USER_SIDE = 2, ETSI = 5, QSIG = 10 };

static struct pri *control;
static uint64_t record[2048], records[8][2048];

static int no_line(struct pri *p, void *octets, int n)
{
    (void)p, (void)octets;
    return n;
}

static void quiet(struct pri *p, char *text)
{
    (void)p, (void)text;
}

void start_side(void)
{
    pri_set_message(quiet);
    pri_set_error(quiet);
#ifdef TRUNKS
    control = pri_new_cb(0, USER_SIDE, QSIG, no_line, no_line, NULL);
#else
    control = pri_new_cb(0, USER_SIDE, ETSI, no_line, no_line, NULL);
#endif
    for (int i = 0; i < 8; i++)
        rose_decode(control, row[i].octets, row[i].octets + row[i].length, records[i]);
}

int rewrite(const uint8_t *octets, size_t length, uint8_t *buffer, size_t room)
{
    if (rose_decode(control, octets, octets + length, record) != octets + length)
        return -1;
    unsigned char *end = rose_encode(control, buffer, buffer + room, record);
    return end ? (int)(end - buffer) : -1;
}

static unsigned read_one(long i)
{
    const uint8_t *o = row[i & 7].octets;
    return rose_decode(control, o, o + row[i & 7].length, record) != NULL;
}

static unsigned rewrite_one(long i)
{
    uint8_t buffer[254];
    return (unsigned)rewrite(row[i & 7].octets, row[i & 7].length, buffer, sizeof buffer);
}

static unsigned write_one(long i)
{
    uint8_t buffer[254];
    unsigned char *end = rose_encode(control, buffer, buffer + sizeof buffer, records[i & 7]);
    return end ? (unsigned)(end - buffer) : 0;
}

const struct job jobs[] = {{"read", read_one, 9, 1}, {"rewrite", rewrite_one, 9, 1}, {"write", write_one, 1, 1}, {0}};
