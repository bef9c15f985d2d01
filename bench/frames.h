/* The frames that the drivers of bench/ call the entries on: rows of document 01, the longest header and beacon, and corpora of random and damaged
   ones, the same on every run. */
#include <stddef.h>
#include <stdint.h>
#include <stdlib.h>
#include <string.h>

#define P7 "418807341201000200"
#define P9 "41080734120100"
#define P11 "090001ED0100000007"
#define P12 "46CF81FF02003500"

/* The longest header, and the longest beacon, with listed bits clear; what stands between the bytes that have such bits. */
#define ADDRESSES "073412010203040506070878561112131415161718"
#define COUNTER_AND_KEY "01000000212223242526272807"
#define HEADER37 "09DC" ADDRESSES "1D" COUNTER_AND_KEY
#define SLOTS "010010020021030032040043050054060065070076"
#define PENDING \
    "01000200030004000500060007000102030405060708" \
    "111213141516171821222324252627283132333435363738414243444546474851525354555657586162636465666768"
#define BEACON96 "46CF8755" SLOTS "77" PENDING

enum { FRAMES = 1000, LONGEST = 128 };

struct frame {
    size_t length;
    uint8_t bytes[LONGEST];
};

static inline size_t bytes_of(const char *hex, uint8_t *out)
{
    size_t n = strlen(hex) / 2;
    for (size_t i = 0; i < n; i++) {
        char pair[3] = {hex[2 * i], hex[2 * i + 1], 0};
        out[i] = (uint8_t)strtoul(pair, 0, 16);
    }
    return n;
}

static uint64_t state = 0x9e3779b97f4a7c15;

static inline uint8_t draw(void)
{
    state ^= state << 13;
    state ^= state >> 7;
    state ^= state << 17;
    return (uint8_t)(state >> 56);
}

static inline size_t extent(unsigned choice, uint8_t drawn, unsigned most)
{
    return choice % 4 == 0 ? drawn % most : most + drawn % 4;
}

/* As family 0 of oracle/FORMAT.md makes them: three in four mended, one in four cut short, one in four with a bit turned over. */
static inline void make_header(struct frame *f)
{
    uint8_t mode = draw(), r = draw(), *bytes = f->bytes;
    for (int k = 0; k < 6; k++)
        draw();
    for (int k = 0; k < 41; k++)
        bytes[k] = draw();
    uint8_t place = draw(), bit = draw();
    if (mode % 4 != 0) {
        if (bytes[0] % 8 == 4)
            bytes[0] -= 4;
        if (bytes[1] / 16 % 4 == 3)
            bytes[1] -= 32;
        if (bytes[1] / 4 % 4 == 1)
            bytes[1] += 4;
        if (bytes[1] / 64 == 1)
            bytes[1] += 64;
    }
    if (mode % 4 >= 2 && bytes[0] / 64 % 2 == 1 && bytes[1] / 4 % 4 == 0)
        bytes[1] += 8;
    if (mode / 64 == 0)
        bytes[place % 41] ^= 1 << bit % 8;
    f->length = extent(mode / 4, r, 37);
}

/* As family 1 makes them: any bytes, one in four cut short. */
static inline void make_beacon(struct frame *f)
{
    uint8_t mode = draw(), r = draw();
    draw();
    for (int k = 0; k < 100; k++)
        f->bytes[k] = draw();
    f->length = extent(mode, r, 96);
}
