/* The line program in ordinary C, to measure bin/frames beside: standard input in blocks, a table for hex digits, memchr for tabs and line
 * feeds, and constant memory whatever the lines' length. It gives the same answers. */
#include <stddef.h>
#include <stdint.h>
#include <stdio.h>
#include <string.h>
#include <unistd.h>

enum { LONGEST = 1024, BLOCK = 65536 };

static uint8_t in[LONGEST + BLOCK];
static uint8_t out[BLOCK];
static size_t used;
static uint8_t value[256];

static void fill_values(void) {
    memset(value, 0xff, sizeof value);
    for (int i = 0; i < 10; i++)
        value['0' + i] = (uint8_t)i;
    for (int i = 0; i < 6; i++)
        value['a' + i] = value['A' + i] = (uint8_t)(10 + i);
}

static int flush(void) {
    size_t done = 0;
    while (done < used) {
        ssize_t n = write(1, out + done, used - done);
        if (n <= 0) {
            perror("write");
            return 0;
        }
        done += (size_t)n;
    }
    used = 0;
    return 1;
}

struct answer {
    unsigned refusal;
    unsigned length;
};

static struct answer refused(unsigned refusal) {
    struct answer a = {refusal, 0};
    return a;
}

/* Document 01's header, as far as refusal and length go. */
static struct answer read_header(const uint8_t *f, size_t n) {
    static const unsigned address[4] = {0, 0, 4, 10}, key[4] = {0, 1, 5, 9};
    struct answer a = {0, 3};
    if (n < 3)
        return refused(1);
    unsigned control = f[0] | (unsigned)f[1] << 8;
    unsigned type = control & 7, to = control >> 10 & 3, version = control >> 12 & 3, from = control >> 14;
    int compressed = control >> 6 & 1;
    if (version == 3)
        return refused(2);
    if (type == 4)
        return refused(3);
    if (to == 1 || from == 1)
        return refused(4);
    if (to) {
        a.length += address[to];
        if (n < a.length)
            return refused(1);
    } else if (compressed) {
        return refused(5);
    }
    if (from) {
        a.length += address[from] - (compressed ? 2 : 0);
        if (n < a.length)
            return refused(1);
    }
    if (control >> 3 & 1) {
        if (n < a.length + 5)
            return refused(1);
        a.length += 5 + key[f[a.length] >> 3 & 3];
        if (n < a.length)
            return refused(1);
    }
    return a;
}

static void put_bad(void) {
    memcpy(out + used, "bad\n", 4);
    used += 4;
}

/* Puts the answer to a line of at most LONGEST bytes. */
static void put_answer(const uint8_t *line, size_t n) {
    uint8_t frame[LONGEST / 2];
    size_t k = 0;
    const uint8_t *tab = memchr(line, '\t', n);
    if (!tab) {
        put_bad();
        return;
    }
    const uint8_t *p = tab + 1, *end = line + n;
    if ((end - p) % 2) {
        put_bad();
        return;
    }
    for (; p < end; p += 2) {
        uint8_t high = value[p[0]], low = value[p[1]];
        if ((high | low) > 15) {
            put_bad();
            return;
        }
        frame[k++] = (uint8_t)(high << 4 | low);
    }
    struct answer a = read_header(frame, k);
    uint8_t *o = out + used;
    memcpy(o, line, (size_t)(tab - line));
    o += tab - line;
    *o++ = '\t';
    *o++ = (uint8_t)('0' + a.refusal);
    *o++ = '\t';
    if (a.length > 9)
        *o++ = (uint8_t)('0' + a.length / 10);
    *o++ = (uint8_t)('0' + a.length % 10);
    *o++ = '\n';
    used = (size_t)(o - out);
}

int main(void) {
    size_t kept = 0; /* bytes of the line at hand, at the beginning of in */
    int overlong = 0;
    fill_values();
    for (;;) {
        ssize_t got = read(0, in + kept, BLOCK);
        if (got < 0) {
            perror("read");
            return 1;
        }
        if (got == 0)
            break;
        const uint8_t *p = in, *end = in + kept + got, *feed;
        while ((feed = memchr(p, '\n', (size_t)(end - p)))) {
            if (used + LONGEST + 8 > sizeof out && !flush())
                return 1;
            if (overlong || feed - p > LONGEST)
                put_bad();
            else
                put_answer(p, (size_t)(feed - p));
            overlong = 0;
            p = feed + 1;
        }
        kept = (size_t)(end - p);
        if (kept > LONGEST)
            overlong = 1;
        if (overlong)
            kept = 0;
        memmove(in, p, kept);
        if (!flush())
            return 1;
    }
    if (overlong)
        put_bad();
    else if (kept)
        put_answer(in, kept);
    return flush() ? 0 : 1;
}
