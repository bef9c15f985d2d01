/* Calls that do nothing, in a file of their own so that they are really made. */
#include <stddef.h>
#include <stdint.h>

uint64_t empty_read(const uint8_t *frame, size_t length)
{
    (void)frame;
    (void)length;
    return 0;
}

uint64_t empty_rewrite(const uint8_t *frame, size_t length, uint8_t *out, size_t room)
{
    (void)frame;
    (void)length;
    (void)out;
    (void)room;
    return 0;
}

uint64_t empty_number(const uint8_t *s, size_t length, size_t at)
{
    (void)s;
    (void)length;
    (void)at;
    return 0;
}
