/*
 * Tries the four entries for C: the rows of document 01, every length of input and room, empty and null slices, frames of 64 KiB, and
 * random and damaged frames by the million (an argument gives another number of them).
 *
 * Every input lies in read-only memory, at its very end with unreadable memory behind it or at its very beginning with unreadable memory
 * before it. Every output has guard bytes or unreadable memory before and behind it. Each answer and each byte afterwards is held to
 * what this file works out from document 01 by itself: the numbers, the lengths, and the list of the bits that rewriting alters. Prints one
 * line where all is as expected; otherwise what is not, with the frame in hex, and ends with status 1.
 */
#define _POSIX_C_SOURCE 200809L

#include <setjmp.h>
#include <signal.h>
#include <stdint.h>
#include <stdio.h>
#include <stdlib.h>
#include <string.h>
#include <sys/mman.h>
#include <unistd.h>

#include "knobtangle.h"

typedef unsigned char byte;

enum {
    EDGE = 65536,     /* unreadable memory on each side: a multiple of any page */
    AREA = 2 * EDGE,  /* what lies between */
    GUARD = 64,       /* guard bytes on each side of an output */
    MOST = 128,       /* bytes that hold any header with a beacon behind it, with some to spare */
    ENOUGH = 1000     /* how often the random frames have to meet each answer */
};

/* ---- telling what failed */

/* What is being tried. The handler of a fault tells it too, so this part uses nothing but write. */
static struct {
    const char *entry;
    const byte *bytes;
    size_t length, room;
    int rewriting;
} trial;

static void tell(const char *text)
{
    if (write(STDERR_FILENO, text, strlen(text)) < 0)
        _exit(2);
}

static void tell_number(size_t n)
{
    char digits[24], *at = digits + sizeof digits;

    *--at = 0;
    do
        *--at = (char)('0' + n % 10);
    while ((n /= 10) != 0);
    tell(at);
}

static void tell_hex(const byte *bytes, size_t length)
{
    static const char digit[] = "0123456789ABCDEF";
    char pair[4] = " ";

    for (size_t i = 0; i < length && i < MOST; i++) {
        pair[1] = digit[bytes[i] >> 4];
        pair[2] = digit[bytes[i] & 15];
        tell(pair);
    }
    tell(length > MOST ? " ..\n" : "\n");
}

static void fail(const char *why)
{
    tell("gateway: ");
    tell(trial.entry);
    tell(", input of ");
    tell_number(trial.length);
    if (trial.rewriting) {
        tell(", room of ");
        tell_number(trial.room);
    }
    tell(": ");
    tell(why);
    tell("\ninput:");
    tell_hex(trial.bytes, trial.length);
    _exit(1);
}

static void fail_answer(size_t got, size_t expected)
{
    tell("gateway: got ");
    tell_number(got);
    tell(", expected ");
    tell_number(expected);
    tell("\n");
    fail("the answer is another than expected");
}

/* ---- memory with edges that cannot be touched */

static byte *input_view;        /* the input area, to write it by */
static const byte *input_area;  /* the same memory, to be read alone */
static byte *first_out, *second_out;
static byte noise[AREA + 4 * GUARD + 256];

static sigjmp_buf back;
static volatile sig_atomic_t probing;

static void on_signal(int number)
{
    if (probing)
        siglongjmp(back, 1);
    fail(number == SIGALRM ? "it does not end" : "it faulted: memory touched that is not its own");
}

static byte *map(void *at, size_t size, int protection, int flags, int file)
{
    void *got = mmap(at, size, protection, flags, file, 0);

    if (got == MAP_FAILED) {
        perror("gateway: mmap");
        exit(2);
    }
    return got;
}

static byte *between_edges(int protection, int flags, int file)
{
    byte *all = map(NULL, EDGE + AREA + EDGE, PROT_NONE, MAP_PRIVATE, file);

    return map(all + EDGE, AREA, protection, flags | MAP_FIXED, file);
}

/* Whether touching a byte faults. */
static int faults(const byte *at, int writing)
{
    volatile byte *touched = (volatile byte *)(uintptr_t)at;
    volatile int held = 1;

    probing = 1;
    if (sigsetjmp(back, 1) == 0) {
        byte b = *touched;
        if (writing)
            *touched = b;
        held = 0;
    }
    probing = 0;
    return held;
}

static void prepare(void)
{
    static const int numbers[] = {SIGSEGV, SIGBUS, SIGFPE, SIGILL, SIGTRAP, SIGALRM};
    struct sigaction action;
    FILE *file = tmpfile();

    if (file == NULL || ftruncate(fileno(file), EDGE + AREA + EDGE) != 0) {
        perror("gateway: a temporary file");
        exit(2);
    }
    input_view = map(NULL, AREA, PROT_READ | PROT_WRITE, MAP_SHARED, fileno(file));
    input_area = between_edges(PROT_READ, MAP_SHARED, fileno(file));
    first_out = between_edges(PROT_READ | PROT_WRITE, MAP_PRIVATE, fileno(file));
    second_out = between_edges(PROT_READ | PROT_WRITE, MAP_PRIVATE, fileno(file));

    memset(&action, 0, sizeof action);
    action.sa_handler = on_signal;
    for (size_t i = 0; i < sizeof numbers / sizeof *numbers; i++)
        sigaction(numbers[i], &action, NULL);

    trial.entry = "the test's own memory";
    trial.bytes = input_view;
    const byte *areas[] = {input_area, first_out, second_out};
    for (int i = 0; i < 3; i++)
        if (!faults(areas[i] - 1, 0) || !faults(areas[i] + AREA, 0) || faults(areas[i], i != 0) || faults(areas[i] + AREA - 1, i != 0))
            fail("its edges do not hold here");
    if (!faults(input_area, 1) || !faults(input_area + AREA - 1, 1))
        fail("its input can be written");
}

/* ---- what document 01 says */

enum { REFUSED = 1000 };

/* The bits that rewriting clears where they are set, and no others; of a direction byte those of slots that are not there. */
enum {
    CONTROL_LOW = 0x80,
    CONTROL_HIGH = 0x03,
    SECURITY_CONTROL = 0xe0,
    SUPERFRAME_HIGH = 0x20,
    GTS_HEADER = 0x78,
    PENDING_HEADER = 0x88
};

struct expected {
    size_t read;         /* reading's answer */
    int unwritable;      /* it is read, and writing it is refused with 6 */
    size_t count;        /* accepted: how many of its bytes have listed bits, where they are and which these are */
    struct {
        size_t at;
        byte bits;
    } listed[6];
};

static void list(struct expected *e, size_t at, unsigned bits)
{
    e->listed[e->count].at = at;
    e->listed[e->count++].bits = (byte)bits;
}

static struct expected expect_header(const byte *s, size_t n)
{
    static const size_t address[] = {0, 0, 2, 8}, key[] = {0, 1, 5, 9};
    struct expected e = {REFUSED + 1, 0, 0, {{0, 0}}};

    if (n < 3)
        return e;
    unsigned to = s[1] >> 2 & 3, from = s[1] >> 6, compressed = s[0] >> 6 & 1;
    size_t to_end = 3 + (to != 0 ? 2u : 0u) + address[to];
    size_t end = to_end + (from != 0 && !compressed ? 2u : 0u) + address[from];
    size_t security = 0;
    if ((s[1] >> 4 & 3) == 3)
        e.read = REFUSED + 2;
    else if ((s[0] & 7) == 4)
        e.read = REFUSED + 3;
    else if (to == 1 || from == 1)
        e.read = REFUSED + 4;
    else if (n < to_end)
        e.read = REFUSED + 1;
    else if (compressed && to == 0)
        e.read = REFUSED + 5;
    else if (s[0] & 8) {
        security = end;
        end += 5;
        if (n >= end)
            end += key[s[security] >> 3 & 3];
        e.read = n < end ? (size_t)REFUSED + 1 : end;
    } else
        e.read = n < end ? (size_t)REFUSED + 1 : end;
    if (e.read >= REFUSED)
        return e;
    e.unwritable = compressed && from == 0;
    list(&e, 0, CONTROL_LOW);
    list(&e, 1, CONTROL_HIGH);
    if (security != 0)
        list(&e, security, SECURITY_CONTROL);
    return e;
}

static struct expected expect_beacon(const byte *s, size_t n)
{
    struct expected e = {REFUSED + 1, 0, 0, {{0, 0}}};

    if (n < 4)
        return e;
    size_t slots = s[2] & 7, pending = slots == 0 ? 3 : 4 + 3 * slots;
    if (n < pending + 1)
        return e;
    size_t end = pending + 1 + 2u * (s[pending] & 7) + 8u * (s[pending] >> 4 & 7);
    if (n < end)
        return e;
    e.read = end;
    list(&e, 1, SUPERFRAME_HIGH);
    list(&e, 2, GTS_HEADER);
    if (slots != 0)
        list(&e, 3, 0xffu << slots);
    list(&e, pending, PENDING_HEADER);
    return e;
}

/* A frame as a bridge rewrites it: the header and, in an unsecured frame of type 0, the beacon behind it. */
static struct expected expect_frame(const byte *s, size_t n)
{
    struct expected e = expect_header(s, n);

    if (e.read >= REFUSED || (s[0] & 0x0f) != 0)
        return e;
    struct expected beacon = expect_beacon(s + e.read, n - e.read);
    if (beacon.read >= REFUSED)
        return beacon;
    for (size_t i = 0; i < beacon.count; i++)
        list(&e, e.read + beacon.listed[i].at, beacon.listed[i].bits);
    e.read += beacon.read;
    return e;
}

static size_t expect_rewrite(const struct expected *e, size_t room)
{
    if (e->read >= REFUSED)
        return e->read;
    if (e->unwritable && room >= 3)
        return REFUSED + 6;
    return room < e->read ? (size_t)REFUSED + 1 : e->read;
}

/* ---- one trial */

/* The four entries, and the two that rewrite one behind the other, as a bridge calls them. */
enum entry { READ_HEADER, READ_BEACON, REWRITE_HEADER, REWRITE_BEACON, REWRITE_FRAME, ENTRIES };

static const char *const names[] = {"read_header", "read_beacon", "rewrite_header", "rewrite_beacon", "rewrite_header, and rewrite_beacon behind it"};
static unsigned long seen[ENTRIES][9], calls;

static uint64_t state = 0x9e3779b97f4a7c15u;

/* A number below another. No two calls stand in one expression, so every compiler makes the same frames. */
static size_t any(size_t below)
{
    state ^= state << 13;
    state ^= state >> 7;
    state ^= state << 17;
    return (size_t)(state >> 11) % below;
}

static void any_bytes(byte *bytes, size_t n)
{
    for (size_t i = 0; i < n; i++)
        bytes[i] = (byte)any(256);
}

static void begin(enum entry entry, size_t room)
{
    trial.entry = names[entry];
    trial.rewriting = entry >= REWRITE_HEADER;
    trial.room = room;
    if (calls++ % 4096 == 0)
        alarm(120);
}

static void answered(enum entry entry, size_t got, size_t expected)
{
    if (got != expected)
        fail_answer(got, expected);
    seen[entry][knobtangle_refused(got) ? knobtangle_refusal(got) : 0]++;
}

static void try_read(enum entry entry, const byte *in, size_t n, size_t expected)
{
    begin(entry, 0);
    answered(entry, entry == READ_HEADER ? knobtangle_read_header(in, n) : knobtangle_read_beacon(in, n), expected);
}

/* Header and beacon are read before one of them is written, and refused in that order. Asks for room that is enough. */
static size_t rewrite_frame(const byte *in, size_t n, byte *out, size_t room)
{
    size_t header = knobtangle_read_header(in, n), beacon = 0, written;

    if (knobtangle_refused(header))
        return header;
    if ((in[0] & 0x0f) == 0)
        beacon = knobtangle_read_beacon(in + header, n - header);
    if (knobtangle_refused(beacon))
        return beacon;
    written = knobtangle_rewrite_header(in, n, out, room);
    if (knobtangle_refused(written) || beacon == 0)
        return written;
    return written + knobtangle_rewrite_beacon(in + header, n - header, out + header, room - header);
}

static size_t rewrite(enum entry entry, const byte *in, size_t n, byte *out, size_t room)
{
    switch (entry) {
    case REWRITE_HEADER:
        return knobtangle_rewrite_header(in, n, out, room);
    case REWRITE_BEACON:
        return knobtangle_rewrite_beacon(in, n, out, room);
    default:
        return rewrite_frame(in, n, out, room);
    }
}

static struct expected expect(enum entry entry, const byte *s, size_t n)
{
    return entry == REWRITE_HEADER ? expect_header(s, n) : entry == REWRITE_BEACON ? expect_beacon(s, n) : expect_frame(s, n);
}

/* Clears the listed bits. Returns how many of the bytes had one set: 0 where rewriting alters nothing. */
static size_t clear_listed(byte *bytes, const struct expected *e)
{
    size_t altered = 0;

    for (size_t i = 0; i < e->count; i++) {
        byte *at = bytes + e->listed[i].at;
        altered += (*at & e->listed[i].bits) != 0;
        *at &= (byte)~e->listed[i].bits;
    }
    return altered;
}

static void fail_bits(const byte *out, const byte *expected, size_t n, const char *why)
{
    tell("gateway: rewritten");
    tell_hex(out, n);
    tell("gateway: expected ");
    tell_hex(expected, n);
    fail(why);
}

/* Holds rewritten bytes to the list of their input: each listed bit that is set goes from 1 to 0, every other bit stays, and the bytes are equal
   exactly where no listed bit is set. */
static void hold_to_list(const byte *in, const byte *out, const struct expected *e)
{
    byte expected[MOST];

    memcpy(expected, in, e->read);
    size_t altered = clear_listed(expected, e);
    if ((altered == 0) != (memcmp(in, out, e->read) == 0))
        fail_bits(out, expected, e->read, altered == 0 ? "no listed bit is set, and the bytes differ" : "listed bits are set, and the bytes are equal");
    for (size_t i = 0; i < e->count; i++)
        if ((out[e->listed[i].at] & e->listed[i].bits) != 0)
            fail_bits(out, expected, e->read, "a listed bit is kept");
    if (memcmp(out, expected, e->read) != 0)
        fail_bits(out, expected, e->read, "a bit is altered that is not listed");
}

/* The output lies, by turns, at the end of its area, at the beginning, and inside at any place. */
static void try_rewrite(enum entry entry, const byte *in, size_t n, size_t room, const struct expected *e)
{
    byte *out, *from, *to;

    switch (any(3)) {
    case 0:
        out = first_out + AREA - room;
        from = out - GUARD;
        to = out + room;
        break;
    case 1:
        from = out = first_out;
        to = out + room + GUARD;
        break;
    default:
        out = first_out + GUARD + any(64);
        from = out - GUARD;
        to = out + room + GUARD;
    }
    const byte *before = noise + any(256), *kept = before + (out - from);
    memcpy(from, before, (size_t)(to - from));

    begin(entry, room);
    size_t got = rewrite(entry, in, n, out, room), written = got < REFUSED ? got : 0;
    if (memcmp(from, before, (size_t)(out - from)) != 0)
        fail("bytes before out are altered");
    if (memcmp(out + room, kept + room, (size_t)(to - (out + room))) != 0)
        fail("bytes behind out are altered");
    if (written <= room && memcmp(out + written, kept + written, room - written) != 0)
        fail(written == 0 ? "it refused, and out is altered" : "bytes of out behind the length are altered");
    answered(entry, got, expect_rewrite(e, room));
    if (written == 0)
        return;
    hold_to_list(in, out, e);
    byte *again = second_out + AREA - written;
    if (rewrite(entry, out, written, again, written) != written || memcmp(again, out, written) != 0)
        fail("rewriting a second time alters what was rewritten");
    struct expected second = expect(entry, out, written);
    if (second.read != written)
        fail("what was rewritten is read as another length");
    hold_to_list(out, again, &second);
}

/* Places the input, by turns, at the end of its area and at the beginning. */
static const byte *place(const byte *bytes, size_t n)
{
    size_t at = any(4) == 0 ? 0 : AREA - n;

    memcpy(input_view + at, bytes, n);
    trial.bytes = input_view + at;
    trial.length = n;
    return input_area + at;
}

/* All four entries on one input, and the two that rewrite on the whole frame, with room that is just enough or plenty. */
static void try_all(const byte *bytes, size_t n, size_t header_room, size_t beacon_room)
{
    const byte *in = place(bytes, n);
    struct expected header = expect_header(bytes, n), beacon = expect_beacon(bytes, n), frame = expect_frame(bytes, n);

    try_read(READ_HEADER, in, n, header.read);
    try_read(READ_BEACON, in, n, beacon.read);
    try_rewrite(REWRITE_HEADER, in, n, header_room, &header);
    try_rewrite(REWRITE_BEACON, in, n, beacon_room, &beacon);
    try_rewrite(REWRITE_FRAME, in, n, any(2) == 0 && frame.read < REFUSED ? frame.read : (size_t)MOST, &frame);
}

/* ---- the rows of document 01 */

static const struct row {
    const char *name;
    int beacon;
    const char *input;
    size_t read, rewritten;
    const char *output;
} rows[] = {
    {"P1", 0, "", 1001, 1001, ""},
    {"P2", 0, "00 00 05", 3, 3, "00 00 05"},
    {"P3", 0, "04 30 00", 1002, 1002, ""},
    {"P4", 0, "04 00 00", 1003, 1003, ""},
    {"P5", 0, "01 40 00", 1004, 1004, ""},
    {"P6", 0, "41 80 00", 1005, 1005, ""},
    {"P7", 0, "41 88 07 34 12 01 00 02 00", 9, 9, "41 88 07 34 12 01 00 02 00"},
    {"P8", 0, "41 88 07 34 12 01 00 02", 1001, 1001, ""},
    {"P9", 0, "41 08 07 34 12 01 00", 7, 1006, ""},
    {"P10", 0, "C1 8B 07 34 12 01 00 02 00", 9, 9, "41 88 07 34 12 01 00 02 00"},
    {"P11", 0, "09 00 01 ED 01 00 00 00 07", 9, 9, "09 00 01 0D 01 00 00 00 07"},
    {"P12", 1, "46 CF 81 FF 02 00 35 00", 8, 8, "46 CF 81 01 02 00 35 00"},
    /* the GTS information of P13 and the pending addresses of row 15 as parts of a whole beacon */
    {"P13, no pending header", 1, "00 00 81 01 02 00 35", 1001, 1001, ""},
    {"P13", 1, "00 00 81 01 02 00 35 00", 8, 8, "00 00 81 01 02 00 35 00"},
    {"14", 1, "FF 0F 00 00", 4, 4, "FF 0F 00 00"},
    {"14, 3 bytes", 1, "FF 0F 00", 1001, 1001, ""},
    {"15, 9 bytes", 1, "00 00 00 11 01 02 03 04 05 06 07 08 09", 1001, 1001, ""},
    {"15, 10 bytes", 1, "00 00 00 11 01 02 03 04 05 06 07 08 09 0A", 14, 14, "00 00 00 11 01 02 03 04 05 06 07 08 09 0A"},
    {"16", 0, "01 04 00", 1004, 1004, ""},
    /* a frame whose source has no PAN id of its own, so that get_octet_size is two too large, with a byte of charge; and the longest header */
    {"compressed, with a charge", 0, "41 88 07 34 12 01 00 02 00 57", 9, 9, "41 88 07 34 12 01 00 02 00"},
    {"longest", 0, "89 CD 01 34 12 01 02 03 04 05 06 07 08 35 12 11 12 13 14 15 16 17 18 FD 01 00 00 00 A1 A2 A3 A4 A5 A6 A7 A8 07", 37, 37,
     "09 CC 01 34 12 01 02 03 04 05 06 07 08 35 12 11 12 13 14 15 16 17 18 1D 01 00 00 00 A1 A2 A3 A4 A5 A6 A7 A8 07"},
};

static size_t from_hex(byte *bytes, const char *text)
{
    size_t n = 0;
    char *end;

    for (; *text != 0; text = end)
        bytes[n++] = (byte)strtoul(text, &end, 16);
    return n;
}

/* Every length of input up to n, and for each every room up to one past the need. */
static void try_lengths(const byte *bytes, size_t n)
{
    size_t header = expect_header(bytes, n).read, beacon = expect_beacon(bytes, n).read;

    header = header < REFUSED ? header : 4;
    beacon = beacon < REFUSED ? beacon : 4;
    for (size_t length = 0; length <= n; length++)
        for (size_t room = 0; room <= header + 1 || room <= beacon + 1; room++)
            try_all(bytes, length, room, room);
}

static size_t try_rows(void)
{
    size_t count = sizeof rows / sizeof *rows;

    for (size_t i = 0; i < count; i++) {
        const struct row *row = rows + i;
        byte bytes[MOST], output[MOST];
        size_t n = from_hex(bytes, row->input), written = from_hex(output, row->output);
        enum entry entry = row->beacon ? REWRITE_BEACON : REWRITE_HEADER;
        const byte *in = place(bytes, n);
        struct expected e = expect(entry, bytes, n);
        trial.entry = row->name;
        if (e.read != row->read || expect_rewrite(&e, MOST) != row->rewritten)
            fail("the test expects another answer than the row has");
        clear_listed(bytes, &e);
        if (memcmp(bytes, output, written) != 0)
            fail("the test lists other bits than the row loses");
        try_read(row->beacon ? READ_BEACON : READ_HEADER, in, n, row->read);
        try_rewrite(entry, in, n, MOST, &e);
        from_hex(bytes, row->input);
        bytes[n] = 0x57;
        try_lengths(bytes, n + 1);
    }
    return count;
}

/* ---- empty and null slices */

static void try_null(void)
{
    byte bytes[MOST] = {0};
    const byte *in = place(bytes, 4);
    byte *room = first_out + AREA - MOST;

    trial.length = 0;
    memset(room, 0x5a, MOST);
    try_read(READ_HEADER, NULL, 0, REFUSED + 1);
    try_read(READ_BEACON, NULL, 0, REFUSED + 1);
    for (enum entry entry = REWRITE_HEADER; entry <= REWRITE_BEACON; entry++) {
        begin(entry, 0);
        answered(entry, rewrite(entry, NULL, 0, NULL, 0), REFUSED + 1);
        begin(entry, MOST);
        answered(entry, rewrite(entry, NULL, 0, room, MOST), REFUSED + 1);
        begin(entry, 0);
        trial.length = 4;
        answered(entry, rewrite(entry, in, 4, NULL, 0), REFUSED + 1);
        trial.length = 0;
        /* empty slices that lead to memory which cannot be touched */
        begin(entry, 0);
        answered(entry, rewrite(entry, input_area + AREA, 0, first_out + AREA, 0), REFUSED + 1);
        answered(entry, rewrite(entry, input_area - 1, 0, first_out - 1, 0), REFUSED + 1);
    }
    for (size_t i = 0; i < MOST; i++)
        if (room[i] != 0x5a)
            fail("it refused, and out is altered");
}

/* ---- every form */

/* Every address mode, with and without compression and security, by every key mode; every count of a beacon. */
static void try_forms(void)
{
    byte bytes[MOST];

    for (unsigned form = 0; form < 1u << 8; form++) {
        any_bytes(bytes, MOST);
        bytes[0] = (byte)((bytes[0] & 0xb2) | 1 | (form & 1) << 6 | (form >> 1 & 1) << 3);
        bytes[1] = (byte)((bytes[1] & 0x13) | (form >> 2 & 3) << 2 | (form >> 4 & 3) << 6);
        size_t n = expect_header(bytes, MOST).read;
        if (n < REFUSED && bytes[0] & 8) {
            struct expected bare;
            bytes[0] &= 0xf7;
            bare = expect_header(bytes, MOST);
            bytes[0] |= 8;
            bytes[bare.read] = (byte)((bytes[bare.read] & 0xe7) | (form >> 6) << 3);
            n = expect_header(bytes, MOST).read;
        }
        try_lengths(bytes, n < REFUSED ? n + 1 : 4);
    }
    for (unsigned form = 0; form < 1u << 9; form++) {
        any_bytes(bytes, MOST);
        bytes[2] = (byte)((bytes[2] & 0xf8) | (form & 7));
        size_t pending = (form & 7) == 0 ? 3 : 4 + 3 * (form & 7);
        bytes[pending] = (byte)((bytes[pending] & 0x88) | (form >> 3 & 7) | (form >> 6) << 4);
        size_t n = expect_beacon(bytes, MOST).read;
        for (size_t length = 0; length <= n + 1; length++)
            try_all(bytes, length, any(MOST), n);
        for (size_t room = 0; room <= n + 1; room++)
            try_all(bytes, n, any(MOST), room);
    }
}

/* Every frame control, every GTS header with every direction byte, every security control and pending header. */
static void try_values(void)
{
    byte bytes[MOST];

    for (unsigned value = 0; value < 1u << 16; value++) {
        any_bytes(bytes, MOST);
        bytes[0] = (byte)value;
        bytes[1] = (byte)(value >> 8);
        try_all(bytes, 40, 40, any(MOST));
        any_bytes(bytes, 3);
        bytes[2] = (byte)value;
        bytes[3] = (byte)(value >> 8);
        try_all(bytes, 97, any(MOST), 97);
    }
    for (unsigned value = 0; value < 1u << 8; value++) {
        static const byte secured[] = {0x09, 0x00, 0x01};
        any_bytes(bytes, MOST);
        memcpy(bytes, secured, sizeof secured);
        bytes[3] = (byte)value;
        try_lengths(bytes, 19);
        bytes[2] = 0;
        bytes[3] = (byte)value;
        try_lengths(bytes, expect_beacon(bytes, MOST).read + 1);
    }
}

static void try_long(void)
{
    static byte bytes[EDGE];

    for (unsigned i = 0; i < 256; i++) {
        any_bytes(bytes, i == 0 ? sizeof bytes : MOST);
        if (i % 2 != 0)
            from_hex(bytes, "41 88 07 34 12 01 00 02 00");
        try_all(bytes, EDGE, EDGE, EDGE);
        try_all(bytes, EDGE - i % 2, i % 40, i % 100);
    }
}

/* ---- random and damaged frames */

/* A header of known type, version and modes, in most of its bits any; its length. */
static size_t any_header(byte *bytes)
{
    static const size_t modes[] = {0, 2, 3};

    any_bytes(bytes, MOST);
    if ((bytes[0] & 7) == 4)
        bytes[0] ^= (byte)(1 + any(3));
    size_t to = any(3), from = any(3), version = any(3);
    bytes[1] = (byte)((bytes[1] & 3u) | modes[to] << 2 | version << 4 | modes[from] << 6);
    size_t n = expect_header(bytes, MOST).read;
    return n < REFUSED ? n : 3;
}

/* A header of type 0 that is not secured, in most of its bits any, and a beacon behind it; the length of both. */
static size_t any_beacon_frame(byte *bytes)
{
    any_header(bytes);
    bytes[0] &= 0xf0;
    size_t n = expect_header(bytes, MOST).read;
    return n < REFUSED ? n + expect_beacon(bytes + n, MOST - n).read : 3;
}

/* A few bits changed, a byte lost or one doubled. */
static size_t damaged(byte *bytes, size_t n)
{
    size_t at = any(n);

    switch (any(3)) {
    case 0:
        for (size_t i = 0; i <= at % 3; i++) {
            size_t bit = any(8 * n);
            bytes[bit / 8] ^= (byte)(1u << bit % 8);
        }
        return n;
    case 1:
        memmove(bytes + at, bytes + at + 1, n - at - 1);
        return n - 1;
    default:
        memmove(bytes + at + 1, bytes + at, n - at);
        return n + 1;
    }
}

static size_t any_frame(byte *bytes)
{
    size_t n;

    switch (any(10)) {
    case 0:
        any_bytes(bytes, MOST);
        return any(48);
    case 1:
    case 2:
        n = any_header(bytes);
        return n + any(8);
    case 3:
        return any(any_header(bytes) + 1);
    case 4:
    case 5:
        n = any_header(bytes);
        return damaged(bytes, n + any(8));
    case 6:
        any_bytes(bytes, MOST);
        n = expect_beacon(bytes, MOST).read + any(3);
        return any(3) == 0 ? damaged(bytes, n) : n;
    case 7:
        any_bytes(bytes, MOST);
        return any(expect_beacon(bytes, MOST).read + 1);
    case 8:
        n = any_beacon_frame(bytes) + any(3);
        return any(3) == 0 ? damaged(bytes, n) : n;
    default:
        return any(any_beacon_frame(bytes) + 1);
    }
}

/* One byte too few, just enough, one too many, any number, or plenty. */
static size_t any_room(size_t need)
{
    switch (any(8)) {
    case 0:
    case 1:
        return need < REFUSED ? need - 1 : any(40);
    case 2:
    case 3:
    case 4:
        return need < REFUSED ? need : any(40);
    case 5:
        return need < REFUSED ? need + 1 : any(100);
    case 6:
        return any(need < REFUSED ? need : 40);
    default:
        return MOST;
    }
}

static void try_frames(unsigned long count)
{
    byte bytes[MOST];

    for (unsigned long i = 0; i < count; i++) {
        size_t n = any_frame(bytes);
        size_t header_room = any_room(expect_header(bytes, n).read);
        size_t beacon_room = any_room(expect_beacon(bytes, n).read);
        try_all(bytes, n, header_room, beacon_room);
    }
}

/* Whether the random frames met every answer that there is. */
static void check_seen(void)
{
    static const unsigned answers[] = {0x3f, 0x03, 0x7f, 0x03, 0x7f};

    for (int entry = 0; entry < ENTRIES; entry++)
        for (int number = 0; number <= 8; number++)
            if ((seen[entry][number] >= ENOUGH) != (answers[entry] >> number & 1)) {
                fprintf(stderr, "gateway: %s answered %d %lu times: too rare, or not to be\n", names[entry], number, seen[entry][number]);
                exit(1);
            }
}

static void check_names(void)
{
    static const int numbers[] = {KNOBTANGLE_ACCEPTED, KNOBTANGLE_ENDED, KNOBTANGLE_VERSION, KNOBTANGLE_FRAME_TYPE, KNOBTANGLE_ADDRESS_MODE,
        KNOBTANGLE_NO_DESTINATION, KNOBTANGLE_MISSING_ADDRESS, KNOBTANGLE_MISSING_COUNTER, KNOBTANGLE_TOO_LARGE};

    trial.entry = "the header file";
    for (int i = 0; i <= 8; i++)
        if (numbers[i] != i || knobtangle_refusal(1000u + (size_t)i) != (size_t)i || !knobtangle_refused(1000u + (size_t)i))
            fail("a refusal has another number than document 01 gives it");
    for (size_t length = 0; length <= KNOBTANGLE_BEACON_MOST; length++)
        if (knobtangle_refused(length) || knobtangle_refusal(length) != 0)
            fail("a length counts as a refusal");
}

int main(int count, char **words)
{
    unsigned long frames = count > 1 ? strtoul(words[1], NULL, 10) : 1ul << 20;

    any_bytes(noise, sizeof noise);
    prepare();
    check_names();
    size_t row_count = try_rows();
    try_null();
    try_forms();
    try_values();
    try_long();
    unsigned long before = calls;
    memset(seen, 0, sizeof seen);
    try_frames(frames);
    if (frames >= 1ul << 16)
        check_seen();
    printf("gateway: %zu rows, %lu calls at chosen lengths, %lu random frames through 4 entries: "
           "headers %lu read, %lu refused, beacons %lu read, %lu refused, whole frames %lu rewritten, %lu refused; all as expected\n",
        row_count, before, frames, seen[READ_HEADER][0], frames - seen[READ_HEADER][0], seen[READ_BEACON][0], frames - seen[READ_BEACON][0],
        seen[REWRITE_FRAME][0], frames - seen[REWRITE_FRAME][0]);
    return 0;
}
