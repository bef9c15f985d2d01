/* The trace program in ordinary C, to measure bin/trace beside: standard input in blocks, memchr for tabs and line feeds, a table for hex
 * digits, an array of senders that is searched from its beginning, and constant memory whatever the lines' length. It gives the same
 * answers. */
#include <stddef.h>
#include <stdint.h>
#include <stdio.h>
#include <string.h>
#include <unistd.h>

enum { LONGEST = 1024, BLOCK = 65536, SENDERS = 64, LINES = 1000000, MALFORMED = 10, NO_PLACE = 11 };

static uint8_t in[LONGEST + BLOCK];
static uint8_t out[BLOCK];
static size_t used;
static uint8_t value[256];

struct sender {
    uint64_t address;
    uint16_t pan;
    uint8_t mode;
    uint8_t last;
    uint64_t frames, repeats, missing;
};

static struct sender senders[SENDERS];
static size_t known;
static uint64_t lines, refused, sourceless, malformed, no_place;

static void fill_values(void) {
    memset(value, 0xff, sizeof value);
    for (int i = 0; i < 10; i++)
        value['0' + i] = (uint8_t)i;
    for (int i = 0; i < 6; i++)
        value['a' + i] = value['A' + i] = (uint8_t)(10 + i);
}

static int flush(void) {
    size_t done = 0;
    while (done < used) {
        ssize_t n = write(1, out + done, used - done);
        if (n <= 0) {
            perror("write");
            return 0;
        }
        done += (size_t)n;
    }
    used = 0;
    return 1;
}

static void put_text(const char *text) {
    size_t n = strlen(text);
    memcpy(out + used, text, n);
    used += n;
}

/* Puts a tab and the number. */
static void put_number(uint64_t number) {
    uint8_t digits[20];
    size_t n = sizeof digits;
    do {
        digits[--n] = (uint8_t)('0' + number % 10);
        number /= 10;
    } while (number);
    out[used++] = '\t';
    memcpy(out + used, digits + n, sizeof digits - n);
    used += sizeof digits - n;
}

/* Puts a tab and so many hex digits of the number. */
static void put_hex(uint64_t number, int digits) {
    out[used++] = '\t';
    while (digits--)
        out[used++] = (uint8_t)"0123456789abcdef"[number >> 4 * digits & 15];
}

static uint64_t little_endian(const uint8_t *p, size_t n) {
    uint64_t number = 0;
    while (n--)
        number = number << 8 | p[n];
    return number;
}

struct header {
    unsigned size;     /* as get_octet_size gives it */
    unsigned mode;     /* the source's: 0 none, 2 short, 3 extended */
    uint8_t sequence;
    uint16_t pan;      /* the source's */
    uint64_t address;
};

/* Document 01's header, as far as refusal, size and source go: the refusal's number, or 0. */
static unsigned read_header(const uint8_t *f, size_t n, struct header *h) {
    static const unsigned width[4] = {0, 0, 2, 8}, part[4] = {0, 0, 4, 10}, key[4] = {0, 1, 5, 9};
    size_t at = 3;
    if (n < 3)
        return 1;
    unsigned control = f[0] | (unsigned)f[1] << 8;
    unsigned type = control & 7, to = control >> 10 & 3, version = control >> 12 & 3, from = control >> 14;
    int compressed = control >> 6 & 1;
    if (version == 3)
        return 2;
    if (type == 4)
        return 3;
    if (to == 1 || from == 1)
        return 4;
    h->size = 3 + part[to] + part[from];
    h->mode = from;
    h->sequence = f[2];
    if (to) {
        if (n < at + part[to])
            return 1;
        h->pan = (uint16_t)little_endian(f + at, 2);
        at += part[to];
    } else if (compressed) {
        return 5;
    }
    if (from) {
        if (n < at + part[from] - (compressed ? 2 : 0))
            return 1;
        if (!compressed) {
            h->pan = (uint16_t)little_endian(f + at, 2);
            at += 2;
        }
        h->address = little_endian(f + at, width[from]);
        at += width[from];
    }
    if (control >> 3 & 1) {
        if (n < at + 5 || n < at + 5 + key[f[at] >> 3 & 3])
            return 1;
    }
    return 0;
}

/* Whether the digits up to the end are a decimal below 2^64, which is then stored. */
static int read_decimal(const uint8_t *p, const uint8_t *end, uint64_t *number) {
    uint64_t all = 0;
    if (p == end)
        return 0;
    for (; p < end; p++) {
        unsigned digit = (unsigned)*p - '0';
        if (digit > 9 || all > UINT64_MAX / 10 || all * 10 > UINT64_MAX - digit)
            return 0;
        all = all * 10 + digit;
    }
    *number = all;
    return 1;
}

/* Counts an accepted frame for its sender; 0, or NO_PLACE. */
static unsigned count_frame(const struct header *h) {
    struct sender *s = senders, *end = senders + known;
    while (s < end && !(s->address == h->address && s->pan == h->pan && s->mode == h->mode))
        s++;
    if (s == end) {
        if (known == SENDERS)
            return NO_PLACE;
        known++;
        s->address = h->address;
        s->pan = h->pan;
        s->mode = (uint8_t)h->mode;
    } else {
        uint8_t step = (uint8_t)(h->sequence - s->last);
        if (step == 0)
            s->repeats++;
        else
            s->missing += step - 1u;
    }
    s->frames++;
    s->last = h->sequence;
    return 0;
}

/* Reads a line of at most LONGEST bytes and counts its frame: 0, MALFORMED or NO_PLACE. */
static unsigned count_line(const uint8_t *line, size_t n) {
    uint8_t frame[LONGEST / 2];
    size_t k = 0;
    const uint8_t *end = line + n, *first, *second, *third;
    uint64_t tick, size;
    if (!(first = memchr(line, '\t', n)) || !read_decimal(line, first, &tick))
        return MALFORMED;
    first++;
    if (!(second = memchr(first, '\t', (size_t)(end - first))))
        return MALFORMED;
    second++;
    if (!(third = memchr(second, '\t', (size_t)(end - second))) || !read_decimal(second, third, &size))
        return MALFORMED;
    third++;
    if ((end - third) % 2)
        return MALFORMED;
    for (const uint8_t *p = third; p < end; p += 2) {
        uint8_t high = value[p[0]], low = value[p[1]];
        if ((high | low) > 15)
            return MALFORMED;
        frame[k++] = (uint8_t)(high << 4 | low);
    }
    struct header h = {0};
    if (read_header(frame, k, &h)) {
        refused++;
        return 0;
    }
    if (size != h.size)
        return MALFORMED;
    if (!h.mode) {
        sourceless++;
        return 0;
    }
    return count_frame(&h);
}

/* Takes one line, of which nothing is there where it is overlong. */
static void take_line(const uint8_t *line, size_t n, int overlong) {
    lines++;
    if (lines > LINES) {
        malformed++;
        return;
    }
    unsigned answer = overlong ? MALFORMED : count_line(line, n);
    if (!answer)
        return;
    if (answer == MALFORMED)
        malformed++;
    else
        no_place++;
    put_text("line");
    put_number(lines);
    put_number(answer);
    put_text("\n");
}

static void put_counts(void) {
    for (const struct sender *s = senders; s < senders + known; s++) {
        put_text("sender");
        put_hex(s->pan, 4);
        put_hex(s->address, s->mode == 2 ? 4 : 16);
        put_number(s->frames);
        put_number(s->repeats);
        put_number(s->missing);
        put_text("\n");
    }
    put_text("refused");
    put_number(refused);
    put_text("\nsourceless");
    put_number(sourceless);
    put_text("\nunread");
    put_number(malformed);
    put_number(no_place);
    put_text("\n");
}

int main(void) {
    size_t kept = 0; /* bytes of the line at hand, at the beginning of in */
    int overlong = 0;
    fill_values();
    for (;;) {
        ssize_t got = read(0, in + kept, BLOCK);
        if (got < 0) {
            perror("read");
            return 1;
        }
        if (got == 0)
            break;
        const uint8_t *p = in, *end = in + kept + got, *feed;
        while ((feed = memchr(p, '\n', (size_t)(end - p)))) {
            if (used + 64 > sizeof out && !flush())
                return 1;
            take_line(p, (size_t)(feed - p), overlong || feed - p > LONGEST);
            overlong = 0;
            p = feed + 1;
        }
        kept = (size_t)(end - p);
        if (kept > LONGEST)
            overlong = 1;
        if (overlong)
            kept = 0;
        memmove(in, p, kept);
        if (!flush())
            return 1;
    }
    if (overlong || kept)
        take_line(in, kept, overlong);
    put_counts(); /* with the last line's answer far less than a block */
    return flush() ? 0 : 1;
}
