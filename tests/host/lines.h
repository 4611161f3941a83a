/* A map and a tariff by hand, line by line, and calls of pmap_factor about them. */
#ifndef LINES_H
#define LINES_H

#include <math.h>
#include <stddef.h>
#include <stdint.h>

#include "factors.h"

/* The line of one area. What its kind does not use is no number: nobody may trip over it. */
struct line {
    uint8_t kind;
    double values[PER_AREA]; /* factor, floor, ceiling */
};
#define OWN(factor) {OWN_KIND, {factor, NAN, NAN}}
#define HELD(factor, floor, ceiling) {HELD_KIND, {factor, floor, ceiling}}
#define UNKNOWN {UNKNOWN_KIND, {NAN, NAN, NAN}}

/* The map of these kinds of places, with lists of the right lengths for it; gives how many areas it has. Or other bytes. */
size_t take_map(const char *kinds);
void take_bytes(const uint8_t *bytes, size_t length);

/* One area's line, a part of it, or other lengths of both lists. */
void put_line(size_t area, struct line line);
void put_kind(size_t area, uint8_t kind);
void put_value(size_t area, size_t field, uint64_t bits);
void put_lengths(size_t kinds_len, size_t values_len);

/* One call, with what it must give: a factor, or a refusal. */
struct want {
    uint8_t status;
    double factor;
};
void compare_want(size_t area, struct want want);
void compare_answer(size_t area, double factor);
void compare_status(size_t area, uint8_t status);

#endif
