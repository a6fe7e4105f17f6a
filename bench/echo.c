/* A bare hex echo of the line program's shape: lines of hex octets in, fed character by character, the same octets as hex out.
 * It reads no component. What it costs for each character of input is what reading and writing lines costs at the least. */
#include <stddef.h>
#include <stdint.h>
#include <unistd.h>

static uint8_t in[65536], out[65536], octets[254];
static size_t used, count;
static int phase, high; /* phase: 0 no character yet, 1 after a space, 2 after a first digit, 3 after an octet, 4 bad */

static void put(const char *text, size_t n)
{
    for (size_t i = 0; i < n; i++)
        out[used++] = (uint8_t)text[i];
}

static int digit(uint8_t c)
{
    if (c >= '0' && c <= '9')
        return c - '0';
    if (c >= 'A' && c <= 'F')
        return c - 'A' + 10;
    if (c >= 'a' && c <= 'f')
        return c - 'a' + 10;
    return 16;
}

static void feed(uint8_t c)
{
    if (phase == 4)
        return;
    if (phase == 3) {
        phase = c == ' ' ? 1 : 4;
        return;
    }
    int value = digit(c);
    if (value == 16) {
        phase = 4;
    } else if (phase == 2) {
        if (count < sizeof octets)
            octets[count] = (uint8_t)(high << 4 | value);
        count += count < 255;
        phase = 3;
    } else {
        high = value;
        phase = 2;
    }
}

static void answer(void)
{
    static const char glyphs[] = "0123456789ABCDEF";
    if (phase == 1 || phase == 2 || phase == 4) {
        put("bad line\n", 9);
    } else if (count > sizeof octets) {
        put("refused 3\n", 10);
    } else {
        for (size_t i = 0; i < count; i++) {
            out[used] = (uint8_t)glyphs[octets[i] >> 4];
            out[used + 1] = (uint8_t)glyphs[octets[i] & 15];
            out[used + 2] = i + 1 < count ? ' ' : '\n';
            used += 3;
        }
        if (!count)
            put("\n", 1);
    }
    phase = 0;
    count = 0;
}

static int flush(void)
{
    size_t from = 0;
    while (from < used) {
        ssize_t n = write(1, out + from, used - from);
        if (n <= 0)
            return 0;
        from += (size_t)n;
    }
    used = 0;
    return 1;
}

int main(void)
{
    for (;;) {
        ssize_t n = read(0, in, sizeof in);
        if (n <= 0)
            break;
        for (ssize_t i = 0; i < n; i++) {
            if (in[i] != '\n') {
                feed(in[i]);
                continue;
            }
            answer();
            if (used > sizeof out - 762 && !flush())
                return 1;
        }
        if (!flush())
            return 1;
    }
    if (phase)
        answer();
    return !flush();
}
