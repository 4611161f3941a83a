/* Counting what was compared: answers, parts, and how often each status was rightly given. */
#ifndef TALLY_H
#define TALLY_H

#include <stddef.h>
#include <stdint.h>

/* One more was compared; it differs. Only the first few differences of a part are printed. */
void compared_one(void);
void differs(const char *what, const uint8_t *map, size_t length, const char *detail);

/* A claim that is no answer of the library. */
void expect(int holds, const char *what, const char *otherwise);

/* The status was rightly given; how often it was; each of them was, 100 times at least. */
void seen_once(uint8_t status);
unsigned long times_seen(uint8_t status);
void expect_seen(const uint8_t *statuses, size_t count);

/* Ends a part of the comparison: a line with its counts. It passed if something was compared and nothing differs. With a fault
   planted in the library (FAULT in the environment) the first part that does not pass ends the whole. */
void part_ends(const char *name);

/* Prints 'N passed, M failed', a part being one, and gives M. */
unsigned long finish(void);

#endif
