/* Calls one entry on one frame, or on a corpus, many times. Told are the instructions by which a run grows for each call, less those of an empty call.
   Also tells what the four entries answer on blocks of frames, so that two archives can be held beside each other.
   usage: driver CASE COUNT, driver list, driver check, driver answers [BLOCK] */
#include <stdio.h>

#include "frames.h"

uint64_t knobtangle_read_header(const uint8_t *frame, size_t length);
uint64_t knobtangle_read_beacon(const uint8_t *content, size_t length);
uint64_t knobtangle_rewrite_header(const uint8_t *frame, size_t length, uint8_t *out, size_t room);
uint64_t knobtangle_rewrite_beacon(const uint8_t *content, size_t length, uint8_t *out, size_t room);
uint64_t empty_read(const uint8_t *frame, size_t length);
uint64_t empty_rewrite(const uint8_t *frame, size_t length, uint8_t *out, size_t room);

typedef uint64_t reader(const uint8_t *, size_t);
typedef uint64_t rewriter(const uint8_t *, size_t, uint8_t *, size_t);

static struct frame headers[FRAMES], beacons[FRAMES];

/* One frame in hex with its answer (1 to 999 a length, from 1000 on a refusal), or a corpus. */
struct trial {
    const char *name;
    reader *read;
    rewriter *rewrite;
    const char *bytes;
    size_t room;
    uint64_t answer;
    const struct frame *corpus;
};

static const struct trial trials[] = {
    {"empty-read", empty_read, 0, P7, 0, 0, 0},
    {"empty-rewrite", 0, empty_rewrite, P7, 40, 0, 0},
    {"read-P7", knobtangle_read_header, 0, P7, 0, 9, 0},
    {"read-P11", knobtangle_read_header, 0, P11, 0, 9, 0},
    {"read-37-bytes", knobtangle_read_header, 0, HEADER37, 0, 37, 0},
    {"read-1-empty", knobtangle_read_header, 0, "", 0, 1001, 0},
    {"read-1-P8", knobtangle_read_header, 0, "4188073412010002", 0, 1001, 0},
    {"read-2-P3", knobtangle_read_header, 0, "043000", 0, 1002, 0},
    {"read-3-P4", knobtangle_read_header, 0, "040000", 0, 1003, 0},
    {"read-4-P5", knobtangle_read_header, 0, "014000", 0, 1004, 0},
    {"read-5-P6", knobtangle_read_header, 0, "418000", 0, 1005, 0},
    {"rewrite-P7", 0, knobtangle_rewrite_header, P7, 40, 9, 0},
    {"rewrite-P11", 0, knobtangle_rewrite_header, P11, 40, 9, 0},
    {"rewrite-37-bytes", 0, knobtangle_rewrite_header, HEADER37, 40, 37, 0},
    {"rewrite-1-P7-room-8", 0, knobtangle_rewrite_header, P7, 8, 1001, 0},
    {"rewrite-6-P9", 0, knobtangle_rewrite_header, P9, 40, 1006, 0},
    {"beacon-read-P12", knobtangle_read_beacon, 0, P12, 0, 8, 0},
    {"beacon-read-96-bytes", knobtangle_read_beacon, 0, BEACON96, 0, 96, 0},
    {"beacon-read-1", knobtangle_read_beacon, 0, "FF0F00", 0, 1001, 0},
    {"beacon-rewrite-P12", 0, knobtangle_rewrite_beacon, P12, 100, 8, 0},
    {"beacon-rewrite-96-bytes", 0, knobtangle_rewrite_beacon, BEACON96, 100, 96, 0},
    {"beacon-rewrite-1-P12-room-7", 0, knobtangle_rewrite_beacon, P12, 7, 1001, 0},
    {"corpus-headers-read", knobtangle_read_header, 0, 0, 0, 0, headers},
    {"corpus-headers-rewrite", 0, knobtangle_rewrite_header, 0, 40, 0, headers},
    {"corpus-beacons-read", knobtangle_read_beacon, 0, 0, 0, 0, beacons},
    {"corpus-beacons-rewrite", 0, knobtangle_rewrite_beacon, 0, 100, 0, beacons},
    {"corpus-empty-read", empty_read, 0, 0, 0, 0, headers},
    {"corpus-empty-rewrite", 0, empty_rewrite, 0, 40, 0, headers},
};

enum { TRIALS = sizeof trials / sizeof trials[0] };

static void make_corpora(void)
{
    for (int i = 0; i < FRAMES; i++)
        make_header(&headers[i]);
    for (int i = 0; i < FRAMES; i++)
        make_beacon(&beacons[i]);
}

/* Blocks of random and damaged headers and beacons; then, for each length from 0 to LAST, every frame control before random bytes. */
enum { BLOCKS = 1024, LAST = 41, CONTROLS = 65536, OUT = 128, BEFORE = 0xa5 };

/* Of the answers in a block, and how many frames they are for. */
static uint64_t digest, answered;

static void take(uint64_t n) { digest = (digest ^ n) * 0x100000001b3; }

/* The Rust has one name for 4 and 5. */
static uint64_t told(uint64_t answer) { return answer == 1005 ? 1004 : answer; }

/* What reading and rewriting answer, and the whole buffer after an accepted rewriting. */
static void answer(const struct frame *f, size_t room, reader *read, rewriter *rewrite, int spelled)
{
    uint8_t out[OUT];
    memset(out, BEFORE, OUT);
    uint64_t length = told(read(f->bytes, f->length)), written = told(rewrite(f->bytes, f->length, out, room));
    answered++;
    take(length);
    take(written);
    for (int k = 0; k < OUT && written < 1000; k++)
        take(out[k]);
    if (!spelled)
        return;
    for (size_t k = 0; k < f->length; k++)
        printf("%02x", f->bytes[k]);
    printf(" room %zu: %llu, %llu ", room, (unsigned long long)length, (unsigned long long)written);
    for (int k = 0; k < OUT && written < 1000; k++)
        printf("%02x", out[k]);
    printf("\n");
}

static void answer_header(const struct frame *f, int spelled)
{
    size_t room = draw() % 4 == 0 ? draw() % 40 : 40;
    answer(f, room, knobtangle_read_header, knobtangle_rewrite_header, spelled);
}

static void answer_beacon(const struct frame *f, int spelled)
{
    size_t room = draw() % 4 == 0 ? draw() % 100 : 100;
    answer(f, room, knobtangle_read_beacon, knobtangle_rewrite_beacon, spelled);
}

static void answer_block(uint64_t block, int spelled)
{
    struct frame f;
    state = 0x9e3779b97f4a7c15 * (2 * block + 1);
    digest = 0xcbf29ce484222325;
    answered = 0;
    for (int i = 0; block < BLOCKS && i < FRAMES; i++) {
        make_header(&f);
        answer_header(&f, spelled);
        make_beacon(&f);
        answer_beacon(&f, spelled);
    }
    for (uint32_t control = 0; block >= BLOCKS && control < CONTROLS; control++) {
        make_header(&f);
        f.bytes[0] = (uint8_t)control;
        f.bytes[1] = (uint8_t)(control >> 8);
        f.length = block - BLOCKS;
        answer_header(&f, spelled);
    }
}

/* For each block its number, the digest, and how many frames it has. */
static void answer_all(void)
{
    for (uint64_t block = 0; block <= BLOCKS + LAST; block++) {
        answer_block(block, 0);
        printf("%llu %016llx %llu\n", (unsigned long long)block, (unsigned long long)digest, (unsigned long long)answered);
    }
}

/* The sum of the answers: kept, so that no call is saved, and not printed, so that a run costs no more than its calls. */
static volatile uint64_t answers;

static uint64_t call(const struct trial *t, const uint8_t *frame, size_t length, uint8_t *out)
{
    return t->read ? t->read(frame, length) : t->rewrite(frame, length, out, t->room);
}

static uint64_t run(const struct trial *t, long count)
{
    static uint8_t frame[128], out[128];
    uint64_t sum = 0;
    if (t->bytes) {
        size_t length = bytes_of(t->bytes, frame);
        for (long i = 0; i < count; i++)
            sum += call(t, frame, length, out);
    } else {
        for (long i = 0; i < count; i++)
            for (int k = 0; k < FRAMES; k++)
                sum += call(t, t->corpus[k].bytes, t->corpus[k].length, out);
    }
    return sum;
}

/* Every answer as document 01 has it, 4 taken for 5; how much of a corpus is accepted is printed. */
static int check(void)
{
    int wrong = 0;
    for (int i = 0; i < TRIALS; i++) {
        uint64_t got = run(&trials[i], 1), want = trials[i].answer;
        if (!trials[i].bytes) {
            uint64_t accepted = 0;
            for (int k = 0; k < FRAMES; k++) {
                uint8_t out[128];
                const struct frame *f = &trials[i].corpus[k];
                accepted += call(&trials[i], f->bytes, f->length, out) < 1000;
            }
            printf("%s accepted %llu of %d\n", trials[i].name, (unsigned long long)accepted, FRAMES);
        } else if (got != want && !(want == 1005 && got == 1004)) {
            printf("%s answers %llu, not %llu\n", trials[i].name, (unsigned long long)got, (unsigned long long)want);
            wrong = 1;
        }
    }
    return wrong;
}

int main(int argc, char **argv)
{
    make_corpora();
    if (argc == 2 && !strcmp(argv[1], "check"))
        return check();
    if (argc == 2 && !strcmp(argv[1], "answers")) {
        answer_all();
        return 0;
    }
    if (argc == 3 && !strcmp(argv[1], "answers")) {
        answer_block(strtoull(argv[2], 0, 10), 1);
        return 0;
    }
    if (argc == 2 && !strcmp(argv[1], "list")) {
        for (int i = 0; i < TRIALS; i++)
            if (!strstr(trials[i].name, "empty-"))
                printf("%s\n", trials[i].name);
        return 0;
    }
    for (int i = 0; argc == 3 && i < TRIALS; i++)
        if (!strcmp(argv[1], trials[i].name)) {
            answers = run(&trials[i], atol(argv[2]));
            return 0;
        }
    fprintf(stderr, "usage: driver CASE COUNT, driver list, driver check, driver answers [BLOCK]\n");
    return 2;
}
