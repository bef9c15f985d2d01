/* Calls, many times on a frame, the crate that bench/flash lays out: a number read from the second byte on, a record read and written. Told are the
   instructions by which a run grows for each call, less those of an empty call. Also holds the numbers to plain C, and the records to the C entries.
   usage: flash CASE COUNT; flash empty CASE, the empty call that a case is counted beside; flash list; flash check */
#include <stdio.h>

#include "frames.h"

typedef uint64_t number(const uint8_t *, size_t, size_t);
typedef uint64_t rewriter(const uint8_t *, size_t, uint8_t *, size_t);

number record_two, record_four, record_eight, empty_number;
rewriter record_header, record_edited, record_beacon, empty_rewrite, knobtangle_rewrite_header, knobtangle_rewrite_beacon;
uint64_t knobtangle_read_header(const uint8_t *frame, size_t length);

enum { REFUSED = 1000, ROOM = 128, CHECKED = 1024000 };

static const struct trial {
    const char *name;
    number *number;
    rewriter *rewrite;
    const char *bytes;
} trials[] = {
    {"empty-number", empty_number, 0, HEADER37},
    {"empty-rewrite", 0, empty_rewrite, P7},
    {"two-bytes", record_two, 0, HEADER37},
    {"four-bytes", record_four, 0, HEADER37},
    {"eight-bytes", record_eight, 0, HEADER37},
    {"eight-bytes-of-which-3-left", record_eight, 0, "01020304"},
    {"header-P7", 0, record_header, P7},
    {"header-P11", 0, record_header, P11},
    {"header-37-bytes", 0, record_header, HEADER37},
    {"header-1-P8", 0, record_header, "4188073412010002"},
    {"header-edited-P7", 0, record_edited, P7},
    {"header-edited-37-bytes", 0, record_edited, HEADER37},
    {"beacon-P12", 0, record_beacon, P12},
    {"beacon-96-bytes", 0, record_beacon, BEACON96},
    {"beacon-1", 0, record_beacon, "FF0F00"},
};

enum { TRIALS = sizeof trials / sizeof trials[0], EMPTY = 2 };

static void fail(const char *what, const struct frame *f)
{
    printf("%s differs on ", what);
    for (size_t k = 0; k < f->length; k++)
        printf("%02x", f->bytes[k]);
    printf("\n");
    exit(1);
}

/* The number in n bytes from at on, those past the end 0. */
static uint64_t plain(const struct frame *f, size_t at, size_t n)
{
    uint64_t v = 0;
    for (size_t k = 0; k < n && at < f->length && k < f->length - at; k++)
        v |= (uint64_t)f->bytes[at + k] << (8 * k);
    return v;
}

/* Of a frame's first, last and middle places, of those past its end, and of the greatest there is. */
static void check_numbers(const struct frame *f)
{
    size_t end = f->length;
    size_t places[] = {0, 1, end / 2, end - 1, end - 2, end - 3, end - 4, end - 7, end - 8, end - 9, end, end + 1, SIZE_MAX, SIZE_MAX - 6};
    for (size_t k = 0; k < sizeof places / sizeof places[0]; k++) {
        size_t at = places[k];
        if (record_two(f->bytes, f->length, at) != plain(f, at, 2) || record_four(f->bytes, f->length, at) != plain(f, at, 4) ||
            record_eight(f->bytes, f->length, at) != plain(f, at, 8))
            fail("a number", f);
    }
}

/* Answer and buffer, of a record and of the C entry. */
static void check_rewriting(const char *what, const struct frame *f, size_t room, rewriter *record, rewriter *entry)
{
    uint8_t one[ROOM], other[ROOM];
    memset(one, 0xa5, ROOM);
    memset(other, 0xa5, ROOM);
    if (record(f->bytes, f->length, one, room) != entry(f->bytes, f->length, other, room) || memcmp(one, other, ROOM))
        fail(what, f);
}

/* An edited header is read with the length that was written. */
static void check_edited(const struct frame *f)
{
    uint8_t out[ROOM];
    uint64_t written = record_edited(f->bytes, f->length, out, ROOM);
    if (knobtangle_read_header(f->bytes, f->length) >= REFUSED ? written != knobtangle_read_header(f->bytes, f->length)
                                                                : written != knobtangle_read_header(out, written))
        fail("an edited header", f);
}

static int check(void)
{
    struct frame f;
    for (long i = 0; i < CHECKED; i++) {
        size_t room = draw() % 4 == 0 ? draw() % 100 : 100;
        make_header(&f);
        check_numbers(&f);
        check_rewriting("a header", &f, room, record_header, knobtangle_rewrite_header);
        check_edited(&f);
        make_beacon(&f);
        check_rewriting("a beacon", &f, room, record_beacon, knobtangle_rewrite_beacon);
    }
    printf("%d headers and as many beacons, numbers beside plain C and records beside the C entries: no difference\n", CHECKED);
    return 0;
}

/* The sum of the answers: kept, so that no call is saved, and not printed, so that a run costs no more than its calls. */
static volatile uint64_t answers;

static int run(const struct trial *t, long turns)
{
    struct frame f;
    uint8_t out[ROOM];
    uint64_t sum = 0;
    f.length = bytes_of(t->bytes, f.bytes);
    if (t->number)
        for (long i = 0; i < turns; i++)
            sum += t->number(f.bytes, f.length, 1);
    else
        for (long i = 0; i < turns; i++)
            sum += t->rewrite(f.bytes, f.length, out, ROOM);
    answers = sum;
    return 0;
}

int main(int argc, char **argv)
{
    if (argc == 2 && !strcmp(argv[1], "check"))
        return check();
    for (int i = EMPTY; argc == 2 && !strcmp(argv[1], "list") && i < TRIALS; i++)
        printf("%s\n", trials[i].name);
    if (argc == 2 && !strcmp(argv[1], "list"))
        return 0;
    for (int i = 0; argc == 3 && i < TRIALS; i++) {
        if (!strcmp(argv[1], trials[i].name))
            return run(&trials[i], atol(argv[2]));
        if (!strcmp(argv[1], "empty") && !strcmp(argv[2], trials[i].name))
            return puts(trials[trials[i].number ? 0 : 1].name) < 0;
    }
    fprintf(stderr, "usage: flash CASE COUNT, flash empty CASE, flash list, flash check\n");
    return 2;
}
