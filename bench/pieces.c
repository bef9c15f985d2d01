/* Calls, many times on a frame, the whole header reader or the one in pieces, in one piece or in single bytes, by the crate that bench/pieces lays
   out. Told are the instructions by which a run grows for each frame, less those of empty calls. Also holds the three to each other.
   usage: pieces CASE CALL COUNT, CALL being whole, one, bytes or empty; pieces list, each case with its pieces of one byte; pieces check */
#include <stdio.h>

#include "frames.h"

typedef uint64_t call(const uint8_t *, size_t);

call read_whole, read_in_one, read_in_bytes, empty_read;

enum { CHECKED = 1024000 };

static const struct trial {
    const char *name, *bytes;
} trials[] = {
    {"P7", P7},
    {"P11", P11},
    {"37-bytes", HEADER37},
    {"1-P8", "4188073412010002"},
    {"2-P3", "043000"},
    {"5-P6", "418000"},
};

enum { TRIALS = sizeof trials / sizeof trials[0] };

/* Whether the three answer the same. */
static int agrees(const struct frame *f)
{
    uint64_t whole = read_whole(f->bytes, f->length), one = read_in_one(f->bytes, f->length), bytes = read_in_bytes(f->bytes, f->length);
    if (whole == one && whole == bytes)
        return 1;
    for (size_t k = 0; k < f->length; k++)
        printf("%02x", f->bytes[k]);
    printf(": whole %lu, in one piece %lu, in bytes %lu\n", (unsigned long)whole, (unsigned long)one, (unsigned long)bytes);
    return 0;
}

static int check(void)
{
    struct frame f;
    unsigned long accepted = 0;
    for (int i = 0; i < TRIALS; i++) {
        f.length = bytes_of(trials[i].bytes, f.bytes);
        if (!agrees(&f))
            return 1;
    }
    for (long i = 0; i < CHECKED; i++) {
        make_header(&f);
        if (!agrees(&f))
            return 1;
        accepted += read_whole(f.bytes, f.length) < 1000;
    }
    printf("%d headers, each whole, in one piece and in single bytes: no difference (%lu accepted)\n", CHECKED, accepted);
    return 0;
}

/* How many bytes of a frame are used, by the answer to all of it. */
static size_t used(const struct frame *f)
{
    uint64_t whole = read_whole(f->bytes, f->length);
    return whole < 1000 ? whole : whole == 1001 ? f->length : 3;
}

static int list(void)
{
    for (int i = 0; i < TRIALS; i++) {
        struct frame f;
        f.length = bytes_of(trials[i].bytes, f.bytes);
        printf("%s %zu\n", trials[i].name, used(&f));
    }
    return 0;
}

/* The sum of the answers: kept, so that no call is saved, and not printed, so that a run costs no more than its calls. */
static volatile uint64_t answers;

static int run(const struct trial *t, const char *name, long turns)
{
    call *called = !strcmp(name, "whole") ? read_whole : !strcmp(name, "one") ? read_in_one : !strcmp(name, "bytes") ? read_in_bytes : empty_read;
    struct frame f;
    f.length = bytes_of(t->bytes, f.bytes);
    uint64_t sum = 0;
    for (long i = 0; i < turns; i++)
        sum += called(f.bytes, f.length);
    answers = sum;
    return 0;
}

int main(int argc, char **argv)
{
    if (argc == 2 && !strcmp(argv[1], "check"))
        return check();
    if (argc == 2 && !strcmp(argv[1], "list"))
        return list();
    for (int i = 0; i < TRIALS; i++)
        if (argc == 4 && !strcmp(argv[1], trials[i].name))
            return run(&trials[i], argv[2], atol(argv[3]));
    fprintf(stderr, "usage: pieces CASE CALL COUNT, pieces list, pieces check\n");
    return 2;
}
