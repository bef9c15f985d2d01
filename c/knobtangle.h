/*
 * Knobtangle's four entries for C and C++: read and rewrite the header of an IEEE 802.15.4 frame, and a beacon's content.
 *
 * Slices. Bytes pass as a pointer and then a length, as in (frame, length). A null pointer with length 0 is an empty slice. With
 * any other length the pointer leads to that many bytes, which need no alignment. A frame's length counts its bytes without the
 * frame check bytes at its end.
 *
 * Results. Each entry returns one number: how many bytes the header or the beacon occupies, at most 37 or 96; or
 * KNOBTANGLE_REFUSED plus the refusal's number, which no length reaches. Ask knobtangle_refused before a result is used as a
 * length. No length is 0.
 *
 * Payload. It begins where the header ends: at frame + result of knobtangle_read_header, with length - result bytes, possibly none.
 * In a beacon frame that is not secured the beacon stands there, and the payload begins behind it, by the result of
 * knobtangle_read_beacon. Take it from nowhere else: a sum of address sizes, as the Rust crate's get_octet_size, knows neither PAN id
 * compression nor security, and comes up to 2 bytes too late or 14 too early.
 *
 * Overlap. The two slices of a rewriting entry must not overlap, not even in part: a header is not rewritten in place. No entry can
 * notice it and no test can see it; nothing is promised of what then lies in memory. Nor may anything else, another thread or the
 * radio itself, write into either slice before the entry returns.
 *
 * Rewriting stores what was read, frame counter included, at the beginning of out, with these bits cleared and every other bit as
 * it was:
 *     header   frame control bits 7, 8 and 9 (bit 7 of byte 0, bits 0 and 1 of byte 1); security control bits 5, 6 and 7
 *     beacon   byte 1 bit 5; GTS header bits 3 to 6; of a direction byte, the bits of slots that are not there; pending header
 *              bits 3 and 7
 * The returned length is that of reading. The bytes of out behind it, and after a refusal all bytes of out, stay as they were. No bit goes
 * from 0 to 1, so the frame's byte i xor out's byte i has just the bits that were altered there.
 *
 * The entries keep nothing between calls, allocate nothing and may run in several threads at a time.
 */
#ifndef KNOBTANGLE_H
#define KNOBTANGLE_H

#include <stddef.h>

#ifdef __cplusplus
extern "C" {
#endif

/* What a refusal's number is added to. */
#define KNOBTANGLE_REFUSED 1000u

/* The longest header and the longest beacon: room that is always enough for rewriting. */
#define KNOBTANGLE_HEADER_MOST 37u
#define KNOBTANGLE_BEACON_MOST 96u

/* The refusals. Reading's come before writing's. */
enum knobtangle_refusal_number {
    KNOBTANGLE_ACCEPTED = 0,
    KNOBTANGLE_ENDED = 1,           /* the input, or the room, ends before the part at hand is complete */
    KNOBTANGLE_VERSION = 2,         /* frame version 3 */
    KNOBTANGLE_FRAME_TYPE = 3,      /* frame type 4 */
    KNOBTANGLE_ADDRESS_MODE = 4,    /* destination or source address mode 1 */
    KNOBTANGLE_NO_DESTINATION = 5,  /* reading: PAN id compression, and no destination */
    KNOBTANGLE_MISSING_ADDRESS = 6, /* writing: PAN id compression, and not both addresses */
    KNOBTANGLE_MISSING_COUNTER = 7, /* writing: secured, and no frame counter; not from these entries */
    KNOBTANGLE_TOO_LARGE = 8        /* writing: a number too large for its field; not from these entries */
};

/* Reads the header at the beginning of a frame. Refusals 1 to 5. */
size_t knobtangle_read_header(const unsigned char *frame, size_t frame_length);

/* Reads the beacon at the beginning of a beacon frame's content, which begins where its header ends. Refusal 1. */
size_t knobtangle_read_beacon(const unsigned char *content, size_t content_length);

/* Reads a header and writes it into out. Refusals 1 to 6: those of reading; then 1 below three bytes of room, 6, and 1. */
size_t knobtangle_rewrite_header(const unsigned char *frame, size_t frame_length, unsigned char *out, size_t out_length);

/* Reads a beacon and writes it into out. Refusal 1. */
size_t knobtangle_rewrite_beacon(const unsigned char *content, size_t content_length, unsigned char *out, size_t out_length);

/* Whether a result is a refusal: 1, or 0 for a length. */
static inline int knobtangle_refused(size_t result)
{
    return result >= KNOBTANGLE_REFUSED;
}

/* A result's refusal number: KNOBTANGLE_ACCEPTED for a length. */
static inline size_t knobtangle_refusal(size_t result)
{
    return result >= KNOBTANGLE_REFUSED ? result - KNOBTANGLE_REFUSED : 0;
}

#ifdef __cplusplus
}
#endif

#endif
