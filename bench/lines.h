/* The layout of a listing, for whoever has the mate, the point and the area of each place. It is in a header so that a version that
   finds them quickly doesn't pay for a call for each line. */
#ifndef LINES_H
#define LINES_H

#include <stddef.h>
#include <stdint.h>
#include <string.h>

/* The longest listing: the heading, and 4,096 lines of at most 22 bytes. */
enum { LISTING_ROOM = 26 + 4096 * 22 };

/* Both give where the next text goes. */
static inline uint8_t *put_heading(uint8_t *at)
{
    memcpy(at, "place kind mate node area\n", 26);
    return at + 26;
}

/* A number of at most four digits, and the byte after it. */
static inline uint8_t *put_field(uint8_t *at, size_t number, char end)
{
    uint8_t digits[4];
    size_t i = 4;

    do
        digits[--i] = (uint8_t)('0' + number % 10);
    while ((number /= 10) != 0);
    while (i < 4)
        *at++ = digits[i++];
    *at++ = (uint8_t)end;
    return at;
}

static inline uint8_t *put_place(uint8_t *at, size_t place, int round, int closing, size_t mate, size_t node, size_t area)
{
    at = put_field(at, place, ' ');
    *at++ = (uint8_t) "[]()"[2 * round + closing];
    *at++ = ' ';
    at = put_field(at, mate, ' ');
    at = put_field(at, node, ' ');
    return put_field(at, area, '\n');
}

#endif
