/* The smallest driver that tells which bits rewriting alters in a frame: it rewrites as a bridge does, and compares. It prints what bin/alters
   prints for the same frames: label, refusal number, length and bits, with tabs between. */
#include <stdio.h>
#include <string.h>

#include "knobtangle.h"

enum { FRAME_MOST = KNOBTANGLE_HEADER_MOST + KNOBTANGLE_BEACON_MOST };

/* Rewrites a frame into FRAME_MOST bytes: its header and, in an unsecured frame of type 0, the beacon behind it. Returns how many bytes that is,
   or the refusal of the header's reading, of the beacon's reading, or 6. */
static size_t rewrite_frame(const unsigned char *frame, size_t length, unsigned char *out)
{
    size_t header = knobtangle_read_header(frame, length), beacon = 0;

    if (knobtangle_refused(header))
        return header;
    if ((frame[0] & 0x0f) == 0)
        beacon = knobtangle_rewrite_beacon(frame + header, length - header, out + header, KNOBTANGLE_BEACON_MOST);
    if (knobtangle_refused(beacon))
        return beacon;
    header = knobtangle_rewrite_header(frame, length, out, KNOBTANGLE_HEADER_MOST);
    return knobtangle_refused(header) ? header : header + beacon;
}

/* Whether a bridge that is to alter nothing passes a frame on. */
static int leaves_alone(const unsigned char *frame, size_t length)
{
    unsigned char out[FRAME_MOST];
    size_t rewritten = rewrite_frame(frame, length, out);

    return !knobtangle_refused(rewritten) && memcmp(frame, out, rewritten) == 0;
}

/* Prints the bits that rewriting alters in a frame, as BYTE.BIT counted from 0, or "-" for none. */
static void tell(const char *label, const unsigned char *frame, size_t length)
{
    unsigned char out[FRAME_MOST];
    size_t rewritten = rewrite_frame(frame, length, out);
    const char *before = "\t";

    if (knobtangle_refused(rewritten)) {
        printf("%s\t%zu\t0\t-\n", label, knobtangle_refusal(rewritten));
        return;
    }
    printf("%s\t0\t%zu", label, rewritten);
    for (size_t i = 0; i < rewritten; i++) {
        unsigned altered = frame[i] ^ out[i];
        for (unsigned bit = 0; bit < 8; bit++)
            if (altered >> bit & 1) {
                printf("%s%zu.%u", before, i, bit);
                before = " ";
            }
    }
    printf("%s\n", leaves_alone(frame, length) ? "\t-" : "");
}

int main(void)
{
    static const unsigned char plain[] = {0x41, 0x88, 0x07, 0x34, 0x12, 0x01, 0x00, 0x02, 0x00, 0x57};
    static const unsigned char altered[] = {0xc1, 0x8b, 0x07, 0x34, 0x12, 0x01, 0x00, 0x02, 0x00, 0x57};
    static const unsigned char secured[] = {0x09, 0x00, 0x01, 0xed, 0x01, 0x00, 0x00, 0x00, 0x07};
    /* A header of 3 bytes; one slot, which has bit 0 of the direction byte: its other bits are listed. */
    static const unsigned char beacon[] = {0x00, 0x00, 0x05, 0x46, 0xcf, 0x81, 0xff, 0x02, 0x00, 0x35, 0x00};
    /* Compression without a source, and a beacon behind it: 6, and 1 where the beacon is cut. */
    static const unsigned char sourceless[] = {0x40, 0x08, 0x05, 0x34, 0x12, 0x01, 0x00, 0xff, 0x0f, 0x00, 0x00};

    tell("plain", plain, sizeof plain);
    tell("altered", altered, sizeof altered);
    tell("secured", secured, sizeof secured);
    tell("beacon", beacon, sizeof beacon);
    tell("sourceless", sourceless, sizeof sourceless);
    tell("cut", sourceless, sizeof sourceless - 1);
    return 0;
}
