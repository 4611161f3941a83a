/* Operations on doubles in whole numbers, by the bits: what one gives that is rounded once, to nearest, ties to even. */
#ifndef ROUNDING_H
#define ROUNDING_H

#include <stddef.h>
#include <stdint.h>

/* Of 0.0 or numbers from 2^-1000 to 2^1000; so many as to divide by: 1 to 2^50. */
uint64_t rounded_sum(uint64_t x, uint64_t y);
uint64_t rounded_quotient(uint64_t x, size_t count);

#endif
