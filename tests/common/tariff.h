/*
 * Request 4/14 of document 02: a tariff gives each area a factor, its own or one held between a floor and a ceiling, or none.
 * What is wrong with a tariff, and the factor of an area, from the drawing's book. Numbers stand as the bits of their doubles, so
 * that nothing is done with those that are not used.
 */
#ifndef TARIFF_H
#define TARIFF_H

#include <stddef.h>
#include <stdint.h>

#include "reference.h"

/* "a kind byte (0 own, 1 held, 2 not known) and three f64 in a row (factor, floor, ceiling)" */
enum { OWN_KIND = 0, HELD_KIND = 1, UNKNOWN_KIND = 2, PER_AREA = 3 };

/* "between the f64 nearest 0.01 and 100.0" */
#define LEAST_FACTOR UINT64_C(0x3F847AE147AE147B)
#define MOST_FACTOR UINT64_C(0x4059000000000000)

struct tariff {
    const uint8_t *kinds;
    size_t kinds_len;
    const uint64_t *values;
    size_t values_len;
};

/* What the call gives: status 0 and the bits of the factor, or a number of documents 01 and 02. */
struct factor {
    uint8_t status;
    uint64_t bits;
};

uint64_t bits_of(double number);
double number_of(uint64_t bits);

/* 18 if it applies to a tariff for so many areas, else 0. */
uint8_t tariff_refusal(const struct tariff *t, size_t areas);

/* The factor of an area that has one, a held one as held. */
uint64_t known_factor(const struct tariff *t, size_t area);

/* Those across the sides of an area, one for each side, in walk order from the area's first place; how many there are. */
size_t factors_across(const struct book *b, const struct tariff *t, size_t area, uint64_t across[MOST_ENDS]);

/* "begin at 0.0, add the known factors .. and divide by how many were added": at least one. */
uint64_t mean_of(const uint64_t *factors, size_t count);

/* Any area number and any tariff. */
struct factor book_factor(const struct book *b, const struct tariff *t, size_t area);

#endif
