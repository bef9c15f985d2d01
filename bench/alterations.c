/* Calls, many times on each frame of a case, altered_bits, whose answer the crate that bench/alterations lays out stores for C, or one of the two
   entries that rewrite: the header's on the frame, the beacon's on what stands behind the header of an unsecured frame of type 0. Told are the
   instructions by which a run grows for each frame, less those of empty calls. Also holds the two to each other.
   usage: alterations CASE CALL COUNT, CALL being altered, header, beacon or constant, or one of these behind empty-; alterations list;
   alterations check */
#include <stdio.h>

#include "frames.h"

typedef uint64_t call(const uint8_t *, size_t, uint8_t *, size_t);

call altered_bits_stored, constant_stored, knobtangle_rewrite_header, knobtangle_rewrite_beacon, empty_rewrite;
uint64_t knobtangle_read_header(const uint8_t *frame, size_t length);
uint64_t knobtangle_read_beacon(const uint8_t *content, size_t length);

enum { REFUSED = 1000, ROOM = 133, CHECKED = 1024000 };

/* An answer as it is stored: six places, six masks, count, number and length, a byte each. */
enum { PLACES = 0, MASKS = 6, COUNT = 12, NUMBER = 13, LENGTH = 14, ANSWER = 15 };

static const struct trial {
    const char *name, *bytes;
} trials[] = {
    {"P7", P7},
    {"P10", "C18B07341201000200"},
    {"P11", P11},
    {"37-bytes", HEADER37},
    {"37-bytes-all-set", "89DF" ADDRESSES "FD" COUNTER_AND_KEY},
    {"P2-and-P12", "000005" P12},
    {"3-and-96-bytes-all-set", "80030546EFFFD5" SLOTS "FF" PENDING},
    {"1-P1", ""},
    {"2-P3", "043000"},
    {"3-P4", "040000"},
    {"4-P5", "014000"},
    {"5-P6", "418000"},
    {"6-P9", P9},
    {"1-P2-and-P12-cut", "00000546CF81FF020035"},
    {"corpus", 0},
};

enum { TRIALS = sizeof trials / sizeof trials[0] };

static int holds_beacon(const struct frame *f) { return f->bytes[0] % 16 == 0; }

/* A header as the corpus of headers has it; or, one in two, such a header of type 0 without security, and behind it a beacon as the corpus of beacons
   has it. */
static void make_frame(struct frame *f)
{
    struct frame beacon;
    make_header(f);
    make_beacon(&beacon);
    if (draw() % 2 == 0)
        return;
    f->bytes[0] &= 0xf0;
    size_t header = knobtangle_read_header(f->bytes, 41);
    if (header >= REFUSED)
        return;
    memcpy(f->bytes + header, beacon.bytes, beacon.length);
    f->length = header + beacon.length;
}

static struct frame frames[FRAMES];

/* Makes the frames of a case, and returns how many. */
static int make_frames(const struct trial *t)
{
    if (t->bytes) {
        frames[0].length = bytes_of(t->bytes, frames[0].bytes);
        return 1;
    }
    for (int i = 0; i < FRAMES; i++)
        make_frame(&frames[i]);
    return FRAMES;
}

/* What altered_bits has to answer: the list, by what the two entries leave. */
static void expect(const struct frame *f, uint8_t *answer)
{
    uint8_t out[ROOM];
    uint64_t header = knobtangle_read_header(f->bytes, f->length), beacon = 0;
    memset(answer, 0, ANSWER);
    if (header < REFUSED && holds_beacon(f))
        beacon = knobtangle_read_beacon(f->bytes + header, f->length - header);
    if (header < REFUSED && beacon < REFUSED)
        header = knobtangle_rewrite_header(f->bytes, f->length, out, ROOM);
    if (header >= REFUSED || beacon >= REFUSED) {
        answer[NUMBER] = (uint8_t)((header >= REFUSED ? header : beacon) - REFUSED);
        return;
    }
    if (beacon != 0)
        knobtangle_rewrite_beacon(f->bytes + header, f->length - header, out + header, ROOM - header);
    answer[LENGTH] = (uint8_t)(header + beacon);
    for (uint8_t i = 0; i < answer[LENGTH]; i++) {
        if (f->bytes[i] == out[i])
            continue;
        if (answer[COUNT] < MASKS - PLACES) {
            answer[PLACES + answer[COUNT]] = i;
            answer[MASKS + answer[COUNT]] = f->bytes[i] ^ out[i];
        }
        answer[COUNT]++;
    }
}

/* Whether altered_bits tells of a frame what the two entries leave. */
static int agrees(const struct frame *f)
{
    uint8_t expected[ANSWER], got[ANSWER];
    expect(f, expected);
    if (altered_bits_stored(f->bytes, f->length, got, ANSWER) == ANSWER && memcmp(got, expected, ANSWER) == 0)
        return 1;
    for (size_t k = 0; k < f->length; k++)
        printf("%02x", f->bytes[k]);
    printf(": places, masks, count, number and length are to be");
    for (int k = 0; k < ANSWER; k++)
        printf(" %d", expected[k]);
    printf(", and are");
    for (int k = 0; k < ANSWER; k++)
        printf(" %d", got[k]);
    printf("\n");
    return 0;
}

static int check(void)
{
    struct frame f;
    unsigned long empty = 0, listed = 0, refused = 0;
    for (int i = 0; i < TRIALS; i++)
        for (int k = make_frames(&trials[i]); k > 0; k--)
            if (!agrees(&frames[k - 1]))
                return 1;
    for (long i = 0; i < CHECKED; i++) {
        uint8_t answer[ANSWER];
        make_frame(&f);
        if (!agrees(&f))
            return 1;
        altered_bits_stored(f.bytes, f.length, answer, ANSWER);
        *(answer[NUMBER] != 0 ? &refused : answer[COUNT] != 0 ? &listed : &empty) += 1;
    }
    printf("%d frames, the list of each beside what the entries leave: no difference (%lu refused, %lu altered, %lu left alone)\n", CHECKED, refused, listed,
        empty);
    return 0;
}

/* The sum of the answers: kept, so that no call is saved, and not printed, so that a run costs no more than its calls. */
static volatile uint64_t answers;

static const struct {
    const char *name;
    call *called;
} calls[] = {
    {"altered", altered_bits_stored},
    {"header", knobtangle_rewrite_header},
    {"beacon", knobtangle_rewrite_beacon},
    {"constant", constant_stored},
};

static int run(const struct trial *t, const char *name, long turns)
{
    static struct {
        const uint8_t *bytes;
        size_t length;
    } slices[FRAMES];
    uint8_t out[ROOM];
    call *called = 0;
    int beacon = strstr(name, "beacon") != 0, count = 0;
    for (size_t i = 0; i < sizeof calls / sizeof calls[0]; i++)
        if (!strcmp(name, calls[i].name))
            called = calls[i].called;
        else if (!strncmp(name, "empty-", 6) && !strcmp(name + 6, calls[i].name))
            called = empty_rewrite;
    if (!called)
        return 2;
    for (int i = 0, made = make_frames(t); i < made; i++) {
        uint64_t header = beacon ? knobtangle_rewrite_header(frames[i].bytes, frames[i].length, out, ROOM) : 0;
        if (header >= REFUSED || (beacon && !holds_beacon(&frames[i])))
            continue;
        slices[count].bytes = frames[i].bytes + header;
        slices[count++].length = frames[i].length - header;
    }
    uint64_t sum = 0;
    for (long i = 0; i < turns; i++)
        for (int k = 0; k < count; k++)
            sum += called(slices[k].bytes, slices[k].length, out, ROOM);
    answers = sum;
    return 0;
}

int main(int argc, char **argv)
{
    if (argc == 2 && !strcmp(argv[1], "check"))
        return check();
    for (int i = 0; i < TRIALS; i++)
        if (argc == 2 && !strcmp(argv[1], "list"))
            printf("%s\n", trials[i].name);
        else if (argc == 4 && !strcmp(argv[1], trials[i].name))
            return run(&trials[i], argv[2], atol(argv[3]));
    if (argc == 2 && !strcmp(argv[1], "list"))
        return 0;
    fprintf(stderr, "usage: alterations CASE CALL COUNT, alterations list, alterations check\n");
    return 2;
}
