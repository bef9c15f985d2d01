/* The smallest driver that takes a charge from a frame the right way: the payload begins where the header ends. */
#include <stdio.h>

#include "knobtangle.h"

/* Finds the charge, the first byte of the payload. Returns 0, or 1 where the frame carries none. */
static int take_charge(const unsigned char *frame, size_t length, unsigned char *charge)
{
    size_t header = knobtangle_read_header(frame, length);

    if (knobtangle_refused(header)) {
        printf("refused, number %zu\n", knobtangle_refusal(header));
        return 1;
    }
    if (header == length) {
        printf("header of %zu bytes, no payload\n", header);
        return 1;
    }
    *charge = frame[header];
    printf("header of %zu bytes, payload of %zu, charge %u\n", header, length - header, (unsigned)*charge);
    return 0;
}

int main(void)
{
    /* PAN id compression, the source has no PAN id of its own: a header of 9 bytes and one byte of charge. The Rust crate's get_octet_size says
       11, past the end of the frame. */
    static const unsigned char compressed[] = {0x41, 0x88, 0x07, 0x34, 0x12, 0x01, 0x00, 0x02, 0x00, 0x57};
    /* Compression, and no destination whose PAN id could be shared. */
    static const unsigned char unshared[] = {0x41, 0x80, 0x07, 0x02, 0x00, 0x57};
    unsigned char charge;

    if (take_charge(compressed, sizeof compressed, &charge) != 0 || charge != 0x57)
        return 1;
    return take_charge(unshared, sizeof unshared, &charge) == 0;
}
