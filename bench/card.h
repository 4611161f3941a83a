/* The header of a map's bytes, for whoever reads or writes them: m, n and the count of areas, two bytes each, low byte first. It is in a
   header so that no version pays for a call. */
#ifndef CARD_H
#define CARD_H

#include <stddef.h>
#include <stdint.h>

enum { AT_M = 0, AT_N = 2, AT_AREAS = 4, HEADER = 6, LONGEST = HEADER + 1025 };

static inline size_t two_at(const uint8_t *map, size_t at)
{
    return map[at] + 256u * map[at + 1];
}

static inline void put_two(uint8_t *map, size_t at, size_t number)
{
    map[at] = (uint8_t)number;
    map[at + 1] = (uint8_t)(number >> 8);
}

static inline void put_header(uint8_t *map, size_t m, size_t n)
{
    put_two(map, AT_M, m);
    put_two(map, AT_N, n);
    put_two(map, AT_AREAS, m + 2 - n);
}

/* m and n, and the status of 8 and 20. */
static inline uint8_t read_header(const uint8_t *map, size_t length, size_t *m, size_t *n)
{
    if (length < HEADER)
        return 8;
    *m = two_at(map, AT_M);
    *n = two_at(map, AT_N);
    if (*m > 2048 || *n < 1 || *n > *m + 1)
        return 8;
    return two_at(map, AT_AREAS) == *m + 2 - *n ? 0 : 20;
}

#endif
