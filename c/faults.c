/*
 * The four entries with a fault: c/test.c has to find each. The environment's FAULT says which; the linker puts these functions in the
 * entries' place (--wrap), and they call the true ones. Any other number ends with status 3.
 */
#include <stdlib.h>
#include <string.h>

#include "knobtangle.h"

typedef unsigned char byte;

size_t __real_knobtangle_read_header(const byte *frame, size_t length);
size_t __real_knobtangle_read_beacon(const byte *content, size_t length);
size_t __real_knobtangle_rewrite_header(const byte *frame, size_t length, byte *out, size_t room);
size_t __real_knobtangle_rewrite_beacon(const byte *content, size_t length, byte *out, size_t room);
size_t __wrap_knobtangle_read_header(const byte *frame, size_t length);
size_t __wrap_knobtangle_read_beacon(const byte *content, size_t length);
size_t __wrap_knobtangle_rewrite_header(const byte *frame, size_t length, byte *out, size_t room);
size_t __wrap_knobtangle_rewrite_beacon(const byte *content, size_t length, byte *out, size_t room);

enum fault {
    OCTET_SIZE = 1,     /* the length of get_octet_size: two too large where the source has no PAN id of its own */
    NO_OFFSET,          /* a refusal without its 1000 */
    LATE_COMPRESSION,   /* compression is judged after the source is read */
    EAGER_COMPRESSION,  /* compression without a source is refused on reading */
    TYPE_FIRST,         /* the type is judged before the version */
    ONE_CONTROL,        /* one frame control in 65,536 answers wrongly */
    LONG_FRAME,         /* a frame of 64 KiB is refused */
    BYTE_BEHIND,        /* the byte behind the input is read */
    BYTE_BEFORE,        /* the byte before the input is read */
    EMPTY_READ,         /* an empty input is read */
    INPUT_WRITTEN,      /* the input is written, with what it holds */
    PREFIX,             /* a refused rewrite leaves a prefix */
    BIT_7,              /* frame control bit 7 is kept */
    BITS_8_9,           /* frame control bits 8 and 9 are kept */
    SECURITY_BITS,      /* security control bits 5 to 7 are kept */
    OTHER_BIT,          /* a bit that is not listed is altered, once in 256 sequence numbers */
    PENDING_FLAG,       /* frame control bit 4, which is not listed, is cleared */
    SECURITY_LEVEL,     /* security control bit 2, which is not listed, is cleared */
    PAST_LENGTH,        /* a byte behind the length is written */
    PAST_ROOM,          /* a byte behind out is written */
    BEFORE_ROOM,        /* a byte before out is written */
    ROOM_TO_SPARE,      /* room that is just enough is refused */
    ROOM_FIRST,         /* the room is judged before the frame */
    ADDRESS_LATE,       /* 6 is judged after the room */
    COUNTER_LOST,       /* the frame counter is not passed on */
    TWICE,              /* what was rewritten is rewritten otherwise */
    BEACON_SHORT,       /* a beacon short by one byte is read */
    BEACON_LONG,        /* a beacon has to have a byte behind it */
    SUPERFRAME_BIT,     /* bit 5 of a beacon's byte 1 is kept */
    GTS_BITS,           /* GTS header bits 3 to 6 are kept */
    DIRECTIONS,         /* direction bits of slots that are not there are kept */
    ALL_DIRECTIONS,     /* direction bits of slots that are there are cleared */
    LAST_DIRECTION,     /* the direction bit of the last of seven slots is cleared */
    PENDING_BITS,       /* pending header bits 3 and 7 are kept */
    GTS_PERMIT,         /* GTS header bit 7, which is not listed, is cleared */
    BEACON_ROOM,        /* a refused beacon is written as far as there is room */
    FAULTS
};

static int at(enum fault fault)
{
    static long chosen;

    if (chosen == 0) {
        const char *word = getenv("FAULT");
        chosen = word == NULL ? 0 : strtol(word, NULL, 10);
        if (chosen <= 0 || chosen >= FAULTS)
            exit(3);
    }
    return chosen == (long)fault;
}

size_t __wrap_knobtangle_read_header(const byte *frame, size_t length)
{
    size_t result = __real_knobtangle_read_header(frame, length);
    int accepted = !knobtangle_refused(result);

    if (at(OCTET_SIZE) && accepted) {
        static const size_t size[] = {0, 0, 4, 10};
        return 3 + size[frame[1] >> 2 & 3] + size[frame[1] >> 6];
    }
    if (at(NO_OFFSET) && !accepted)
        return knobtangle_refusal(result);
    if (at(LATE_COMPRESSION) && result == 1005 && length < 5)
        return 1001;
    if (at(EAGER_COMPRESSION) && accepted && (frame[0] & 0x40) != 0 && frame[1] >> 6 == 0)
        return 1005;
    if (at(TYPE_FIRST) && result == 1002 && (frame[0] & 7) == 4)
        return 1003;
    if (at(ONE_CONTROL) && accepted && frame[0] == 0xb7 && frame[1] == 0xa3)
        return result + 1;
    if (at(LONG_FRAME) && length > 65535)
        return 1001;
    if (at(BYTE_BEHIND))
        (void)*(const volatile byte *)(frame + length);
    if (at(BYTE_BEFORE) && frame != NULL)
        (void)*(const volatile byte *)(frame - 1);
    if (at(EMPTY_READ) && length == 0)
        (void)*(const volatile byte *)frame;
    if (at(INPUT_WRITTEN) && length > 0)
        *(volatile byte *)frame = *frame;
    return result;
}

size_t __wrap_knobtangle_read_beacon(const byte *content, size_t length)
{
    size_t result = __real_knobtangle_read_beacon(content, length);

    if (at(BEACON_SHORT) && length == 95 && knobtangle_refused(result))
        return 96;
    if (at(BEACON_LONG) && result == length)
        return 1001;
    return result;
}

/* A secured header without addresses: its security control is byte 3. */
static int secured_alone(const byte *frame)
{
    return (frame[0] & 8) != 0 && (frame[1] & 0xcc) == 0;
}

size_t __wrap_knobtangle_rewrite_header(const byte *frame, size_t length, byte *out, size_t room)
{
    static const byte *last;
    size_t result = __real_knobtangle_rewrite_header(frame, length, out, room);
    size_t read = __real_knobtangle_read_header(frame, length);
    int accepted = !knobtangle_refused(result);

    if (at(PREFIX) && !accepted && !knobtangle_refused(read) && room >= 3)
        memcpy(out, frame, 3);
    if (at(BIT_7) && accepted)
        out[0] = frame[0];
    if (at(BITS_8_9) && accepted)
        out[1] = frame[1];
    if (at(SECURITY_BITS) && accepted && secured_alone(frame))
        out[3] = frame[3];
    if (at(OTHER_BIT) && accepted && frame[2] == 0x5c)
        out[2] ^= 0x40;
    if (at(PENDING_FLAG) && accepted)
        out[0] &= 0xef;
    if (at(SECURITY_LEVEL) && accepted && secured_alone(frame))
        out[3] &= 0xfb;
    if (at(PAST_LENGTH) && result < room)
        out[result] = 0;
    if (at(PAST_ROOM) && accepted)
        out[room] = 0;
    if (at(BEFORE_ROOM) && accepted)
        out[-1] = 0;
    if (at(ROOM_TO_SPARE) && result == room)
        return 1001;
    if (at(ROOM_FIRST) && room < 3)
        return 1001;
    if (at(ADDRESS_LATE) && result == 1006 && room < read)
        return 1001;
    if (at(COUNTER_LOST) && accepted && secured_alone(frame))
        memset(out + 4, 0, 4);
    if (at(TWICE) && accepted && frame == last)
        out[2] ^= 1;
    last = out;
    return result;
}

size_t __wrap_knobtangle_rewrite_beacon(const byte *content, size_t length, byte *out, size_t room)
{
    size_t result = __real_knobtangle_rewrite_beacon(content, length, out, room);
    int accepted = !knobtangle_refused(result);

    if (at(SUPERFRAME_BIT) && accepted)
        out[1] = content[1];
    if (at(GTS_BITS) && accepted)
        out[2] = content[2];
    if (at(DIRECTIONS) && accepted && (content[2] & 7) != 0)
        out[3] = content[3];
    if (at(ALL_DIRECTIONS) && accepted && (content[2] & 7) != 0)
        out[3] = 0;
    if (at(LAST_DIRECTION) && accepted && (content[2] & 7) == 7)
        out[3] &= 0xbf;
    if (at(PENDING_BITS) && accepted && (content[2] & 7) == 0)
        out[3] = content[3];
    if (at(GTS_PERMIT) && accepted)
        out[2] &= 0x7f;
    if (at(BEACON_ROOM) && !accepted && room > 0 && !knobtangle_refused(__real_knobtangle_read_beacon(content, length)))
        out[room - 1] = content[room - 1];
    return result;
}
