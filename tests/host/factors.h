/* Comparing pmap_factor with the account of request 4/14: the bits of the answer, and all memory that is lent. */
#ifndef FACTORS_H
#define FACTORS_H

#include <stddef.h>
#include <stdint.h>

#include "tariff.h"

/* Lists of up to so many entries are lent: 2^16 more than the largest map has areas. */
enum { MOST_AREAS = MOST_BORDERS + 1, MOST_KINDS = MOST_AREAS + 65536, MOST_VALUES = PER_AREA * MOST_KINDS };

/* One call, with what it must give. */
void compare_factor(const uint8_t *map, size_t length, const struct tariff *t, size_t area, struct factor want);

/* One call of an area by chance, with a tariff by chance, good or not. `opening` is what opening the map gives; the book is NULL
   where that is a refusal. */
void compare_factors(const uint8_t *map, size_t length, uint8_t opening, const struct book *b);

/* So many maps of up to `most` borders by chance, with a tariff by chance: every area, and the means once more in whole numbers. */
void random_factors(size_t count, size_t most);

/* So many areas with up to `most` others across: enough of their means have other bits if they are added in another order, or
   not rounded at each step. */
void ordered_factors(size_t count, size_t most);

#endif
